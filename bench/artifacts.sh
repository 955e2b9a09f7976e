#!/bin/sh
# Makes artifacts of each kind with mender-artifact, and takes each through tools/unpack.sh, `check` and `install` of a sample
# device. Where mender-artifact isn't installed it is taken from Debian's package into a folder that is taken away at the end;
# where that can't be had either, a line says so and nothing is tried. Run by hand over a program that was built; the gate
# doesn't call it.
# usage: bench/artifacts.sh [PROGRAM]
# exit: 0 each came to what is wanted, or all was skipped; 1 one didn't
set -u
here=$(cd "$(dirname "$0")" && pwd)
program=${1:-$here/../crates/client_cli/out/client_cli}
unpack=$here/../tools/unpack.sh
[ -x "$program" ] || { echo "there is no program $program: the gate builds it"; exit 1; }
program=$(realpath "$program")
work=$(mktemp -d)
trap 'rm -rf "$work"' EXIT
cd "$work" || exit 1

if ! command -v mender-artifact > /dev/null; then
    mkdir package
    chmod 755 . package
    (cd package && apt-get download mender-artifact && dpkg -x mender-artifact_*.deb .) > log 2>&1
    PATH=$PATH:$work/package/usr/bin
    mender-artifact --version > log 2>&1 || { echo 'skipped: mender-artifact is not there and cannot be had'; exit 0; }
fi

failed=0
told() {
    if [ "$2" = "$3" ]; then echo "ok      $1"; else echo "FAILED  $1: $2, not $3"; failed=1; fi
}

# The exit status and the text of a command of the client.
client() {
    text=$("$program" "$@" 2> err)
    echo "$? $text$(cat err)"
}

# Makes the artifact $1.mender of that name by the further words.
make() {
    name=$1
    shift
    mender-artifact write module-image -o "$name.mender" -n "$name" -t beaglebone -T single-file "$@" > log 2>&1 ||
        { echo "FAILED  $name isn't made: $(tail -n 1 log)"; failed=1; }
}

# Unpacks the artifact $1, which has to go well.
tree() {
    text=$(sh "$unpack" "$1.mender" "$1" 2>&1)
    told "unpack $1" "$? $text" '0 '
}

# Installs the artifact $1, whose payload's files are the further words.
goes() {
    name=$1
    shift
    tree "$name"
    told "check $name" "$(client check "$name")" '0 admitted'
    told "install $name" "$(client install "$name")" '0 committed'
    told 'show-artifact' "$(client show-artifact)" "0 $name"
    for file in "$@"; do
        cmp -s "$file" "mender-data/root/$file" || { echo "FAILED  $name: $file isn't installed"; failed=1; }
    done
}

# The client doesn't take the artifact $1, and says $2.
refused() {
    tree "$1"
    told "check $1" "$(client check "$1")" "1 refused $2"
    told "install $1" "$(client install "$1")" "1 refused $2"
}

# The artifact $1 can't be unpacked, and the line ends with $2.
stays() {
    text=$(sh "$unpack" "$1.mender" "$1" 2>&1)
    told "unpack $1" "$? ${text#*taken: }" "1 $2"
    [ ! -e "$1" ] || told "unpack $1 leaves no folder" "$(ls "$1")" ''
}

# Unpacks the artifact $1 with the keys in $2, which comes to the status $4. $3 says of what kind that is.
with_key() {
    rm -rf keyed
    text=$(PATH="$here/../crates/signed_cli/out:$PATH" sh "$unpack" --key "$2" "$1.mender" keyed 2>&1)
    told "unpack $1 --key $2: $3" "$?${text:+ }" "$4$([ "$4" = 0 ] || echo ' ')"
    rm -rf keyed
}

# A random number below $1.
below() { echo $(($(od -An -N 4 -tu4 /dev/urandom) % $1)); }

# Changes a bit of the file $1.
change_bit() {
    at=$(below "$(wc -c < "$1")")
    byte=$(od -An -tu1 -j "$at" -N 1 "$1")
    printf '%b' "\\0$(printf %o $((byte ^ (1 << $(below 8)))))" | dd of="$1" bs=1 seek="$at" conv=notrunc 2> log
}

# Packs the artifact $1 anew, signed with the key in $2, with a bit changed of $3, which is `key`, one of the artifact's files,
# `payload` or `nothing`, and unpacks it with the key.
changed() {
    rm -rf parts payload keyed
    mkdir parts payload
    tar -xf "$1.mender" -C parts
    tar -xzf parts/data/0000.tar.gz -C payload
    cp "$2" parts/key
    case $3 in
        nothing) ;;
        payload) change_bit payload/app.bin ;;
        *) change_bit "parts/$3" ;;
    esac
    tar -czf parts/data/0000.tar.gz -C payload app.bin
    tar -tf "$1.mender" | tar -cf changed.mender -C parts -T -
    PATH="$here/../crates/signed_cli/out:$PATH" sh "$unpack" --key parts/key changed.mender keyed > log 2>&1
}

# The artifact $1, signed with the key in $2, is refused after a bit of it or of the key was changed.
changed_bits() {
    changed "$1" "$2" nothing
    told "unpack $1, packed anew" $? 0
    for part in key manifest manifest.sig header.tar.gz payload; do
        taken=0
        for _ in 1 2 3 4 5 6 7 8 9 10; do
            ! changed "$1" "$2" $part || taken=$((taken + 1))
        done
        told "unpack $1 with a changed bit of $part, ten times: taken" $taken 0
    done
    rm -rf parts payload keyed changed.mender
}

mkdir -p mender-data/modules/v3 mender-data/root
echo device_type=beaglebone > mender-data/device_type
cat > mender-data/modules/v3/single-file << 'END'
#!/bin/sh
# Copies the payload's files to the folder root beside the work folder.
[ "$1" != ArtifactInstall ] || find "$2/files" -type f -exec cp {} "$2/../../root/" \;
END
chmod 755 mender-data/modules/v3/single-file
cp mender-data/modules/v3/single-file mender-data/modules/v3/rootfs-image
head -c 300000 /dev/urandom > app.bin
echo 'a = 1' > app.conf
echo 'b = 2' > app-2_b.conf
echo '{"note":"what a module may read"}' > meta.json
cat > ArtifactInstall_Enter_00_note << 'END'
#!/bin/sh
echo "$0" >> ran
END
cp ArtifactInstall_Enter_00_note ArtifactCommit_Leave_99

make one-file -f app.bin
goes one-file app.bin
for packing in none gzip lzma; do
    make "packed-$packing" -f app.bin -f app.conf --compression "$packing"
    goes "packed-$packing" app.bin app.conf
done
make several-files -f app.bin -f app.conf -f app-2_b.conf
goes several-files app.bin app.conf app-2_b.conf
make meta-data -f app.bin -m meta.json
goes meta-data app.bin
told 'the module may read it' "$(cat mender-data/work/0000/header/meta-data)" "$(cat meta.json)"
make no-file
goes no-file
make scripts -f app.bin -s ArtifactInstall_Enter_00_note -s ArtifactCommit_Leave_99
goes scripts app.bin
told 'the scripts ran' "$(sed 's|.*/||' mender-data/ran | tr '\n' ' ')" 'ArtifactInstall_Enter_00_note ArtifactCommit_Leave_99 '
make provides -f app.bin -p app.version:1 -p app.color:red --clears-provides 'app.*'
goes provides app.bin
told 'show-provides' "$(client show-provides | grep app | tr '\n' ' ')" '0 app.color=red app.version=1 '
make depends -f app.bin -d app.version:1 -p app.version:2 -N provides -N other --clears-provides app.version
goes depends app.bin
told 'show-provides' "$(client show-provides | grep app | tr '\n' ' ')" '0 app.color=red app.version=2 '
make wants-version -f app.bin -d app.version:1
refused wants-version '17 app.version'
make wants-name -f app.bin -N provides
refused wants-name '17 artifact_name'
make wants-group -f app.bin -G testers
refused wants-group '17 artifact_group'
make group -f app.bin -g testers
goes group app.bin
make in-group -f app.bin -G testers -G others
goes in-group app.bin
make other-device -f app.bin -t other
goes other-device app.bin
mender-artifact write module-image -o device.mender -n device -t other -T single-file -f app.bin > log 2>&1
refused device '17 device_type'
mender-artifact write rootfs-image -o rootfs.mender -n rootfs -t beaglebone -f app.bin --no-progress > log 2>&1
# some releases of mender-artifact leave the type empty in the type-info of a rootfs image, and then it can't be taken
if tar -xOf rootfs.mender header.tar.gz | tar -xzO headers/0000/type-info | grep -q '"type":""'; then
    stays rootfs 'the type-info of payload 0000 leaves its type empty'
else
    goes rootfs app.bin
fi
mender-artifact write module-image -o image.mender -n image -t beaglebone -T rootfs-image -f app.bin > log 2>&1
goes image app.bin
if command -v openssl > /dev/null && openssl genrsa -traditional -out key.pem 2048 > log 2>&1; then
    make signed -f app.bin -k key.pem
    goes signed app.bin
    for bits in 2048 3072 4096; do
        openssl genrsa -traditional -out "$bits.pem" "$bits" > log 2>&1
        openssl rsa -in "$bits.pem" -pubout -out "$bits.pub" 2> log
        make "signed-$bits" -f app.bin -k "$bits.pem"
        with_key "signed-$bits" "$bits.pub" 'key' 0
        with_key signed "$bits.pub" 'of another key' 1
        with_key one-file "$bits.pub" 'unsigned' 1
    done
    cat 2048.pub 3072.pub 4096.pub > all.pub
    for bits in 2048 3072 4096; do
        with_key "signed-$bits" all.pub 'one of three keys' 0
        changed_bits "signed-$bits" "$bits.pub"
    done
else
    echo 'skipped: signed artifacts, for which openssl is wanting'
fi
mender-artifact write rootfs-image -o format-2.mender -n format-2 -t beaglebone -f app.bin -v 2 --no-progress > log 2>&1
stays format-2 'it is of format 2, and not 3'
make augmented -f app.bin --augment-file app.conf --augment-type single-file
stays augmented 'it is augmented'
mender-artifact write bootstrap-artifact -o no-type.mender -n no-type -t beaglebone > log 2>&1
stays no-type 'the type-info of payload 0000 leaves its type empty'
long=$(head -c 119 /dev/zero | tr '\0' n)
cp app.conf "$long"
make long-name -f "$long"
stays long-name "a name is too long, with its folder 129 bytes where 128 are the most: data/0000/$long"
told 'what the device holds' "$(client show-artifact)" "0 $([ -e signed ] && echo signed || echo image)"
told 'nothing is left beside the trees' "$(find . -maxdepth 1 -name '*.??????' ! -name '*.mender')" ''
exit $failed
