#!/bin/sh
# Unpacks a Mender artifact of format 3 into a tree that the client installs (docs/FORMATS.md, "A tree, and why it is refused").
# It needs tar and sha256sum, and gzip, xz or zstd where the artifact is packed so; the tar and the sha256sum of GNU or of
# busybox will do.
# usage: unpack.sh [--key FILE] ARTIFACT FOLDER
# With --key only an artifact is taken whose manifest was signed with the private part of one of the keys in FILE: PEM texts of RSA
# keys of 2,048 to 4,096 bits, one behind the other. The program signed_cli says so, from beside this script or from PATH, or where
# it isn't there openssl, one key after the other. The sums of the signed manifest carry the signature on to each file.
# FOLDER must not be there. It appears at once and whole, after the sums of the artifact's own manifest were checked; until then
# all is in a folder FOLDER.XXXXXX beside it, which is taken away however this ends, but where it is killed outright or power
# is lost. FOLDER has the files of the header and of the payloads, and a manifest of these. The artifact's signature isn't
# taken along, since it is one of the packed header, and without --key it isn't looked at.
# exit: 0 the tree stands in FOLDER
#       1 the artifact can't be taken, or isn't signed: a line on standard error says why, and it will be refused again
#       2 the words or the key are wrong, FOLDER is there, a program is missing, or something can't be read or written: a line
#         says what
set -u
umask 022
export LC_ALL=C                                     # lengths are bytes
export TAR_OPTIONS=--quoting-style=literal          # GNU tar lists names as they are

most_files=256      # of a tree, its manifest too
most_path=128       # bytes of a path in the tree
most_meta=65536     # bytes of the manifest, of version and of a file of the header
most_sign=16384     # bytes of the signature

fail() {
    printf 'unpack.sh: %s\n' "$1" >&2
    exit 2
}

refuse() {
    printf "unpack.sh: %s can't be taken: %s\n" "$artifact" "$1" >&2
    exit 1
}

# The bytes of the artifact's file $1. The header is taken out once, so that what is unpacked is what was summed.
member() {
    if [ "$1" = "$header" ] && [ -f "$work/header" ]; then
        cat "$work/header"
    else
        tar -xOf - "$1" < "$artifact" 2> /dev/null
    fi
}

# Standard input, taken out of the packing that the file name $1 tells.
unpacked() {
    case $1 in
        *.gz) gzip -dc ;;
        *.xz) xz -dc ;;
        *.zst) zstd -dc ;;
        *) cat ;;
    esac 2> /dev/null
}

# A program that ends badly leaves the file `fault`, since a pipe has the status of its last program alone.
faulty() { : > "$work/fault"; }

# The tar that the artifact's file $1 is, taken out of its packing.
contents() { { member "$1" || faulty; } | { unpacked "$1" || faulty; }; }

sum() { sha256sum | cut -c 1-64; }

# Lists the tar of the file $1 by tar's words $2 into the file $3.
list() {
    rm -f "$work/fault"
    contents "$1" | { tar "$2" - 2> /dev/null || faulty; cat > /dev/null; } > "$3"
    [ ! -e "$work/fault" ] || refuse "$1 is cut off or damaged"
}

# The tar that was listed into the file `kinds` has to have files alone. $1 is its name.
files_alone() {
    ! grep -qv '^-' "$work/kinds" || refuse "$1 has a link, a folder or something else that is no file"
    [ "$(wc -l < "$work/kinds")" -le $most_files ] || refuse "$1 has more than $most_files files"
}

# Each name that was listed has to stand there once. $1 says where.
once_each() {
    twice=$(sort "$work/names" | uniq -d | head -n 1)
    [ -z "$twice" ] || refuse "$1 has $twice twice"
}

# Unpacks the tar of the file $1 into the new folder $2. It was listed before, and has only files by paths within.
unpack() {
    mkdir -p "$2" || fail "$2 can't be made"
    contents "$1" | { (cd "$2" && tar -xmof - 2> /dev/null) || faulty; cat > /dev/null; }
    [ ! -e "$work/fault" ] || fail "$1 can't be unpacked beside $folder: is there room on the disk?"
    odd=$(find "$2" ! -type d \( ! -type f -o -links +1 \) | head -n 1)
    [ -z "$odd" ] || refuse "$1 has a link"
    find "$2" -type f -exec chmod 644 {} + || fail "the rights of what $1 has can't be set"
}

# The program $1 has to be there for the artifact's file $2.
needs() { command -v "$1" > /dev/null || fail "$1 is missing, which $2 is packed with"; }

# The keys of FILE, each in a file key.N of its own, since openssl reads the first of a file alone. Each has to be one that
# signed_cli takes; the file key.N.octets says how many octets its signatures have.
part_keys() {
    keys=0
    while IFS= read -r line || [ -n "$line" ]; do
        case $line in
            '-----BEGIN PUBLIC KEY-----'*) keys=$((keys + 1)) ;;
        esac
        printf '%s\n' "$line" >> "$work/key.$keys"
    done < "$key"
    [ $keys != 0 ] && [ ! -e "$work/key.0" ] || { echo 'the key is no PEM text of a public key'; return 2; }
    for i in $(seq $keys); do
        about=$(openssl rsa -pubin -in "$work/key.$i" -noout -text 2> /dev/null) || { echo 'the key is no RSA key'; return 2; }
        bits=$(printf '%s\n' "$about" | sed -n 's/.*Public-Key: (\([0-9]*\) bit.*/\1/p')
        if [ "${bits:-0}" -lt 2048 ] || [ "$bits" -gt 4096 ]; then
            echo 'the key has fewer than 2048 bits or more than 4096'
            return 2
        fi
        printf '%s\n' "$about" | grep -q '^Exponent: 65537 ' || { echo 'the key has another exponent than 65537'; return 2; }
        echo $(((bits + 7) / 8)) > "$work/key.$i.octets"
    done
}

# The same as signed_cli, by openssl, which takes a signature with octets behind it too: so their number is looked at here.
signed_by_openssl() {
    part_keys || return 2
    base64 -d < "$work/signature" > "$work/raw" 2> /dev/null || { echo "the signature isn't base64"; return 1; }
    for i in $(seq $keys); do
        [ "$(wc -c < "$work/raw")" = "$(cat "$work/key.$i.octets")" ] || continue
        ! openssl dgst -sha256 -verify "$work/key.$i" -signature "$work/raw" "$work/listed" > /dev/null 2>&1 || return 0
    done
    echo "the signature isn't one of this manifest under the key"
    return 1
}

# Whether the manifest in the file `listed` was signed: the signature is in the file `signature`. What is at fault is written.
signed() {
    if [ -x "$beside/signed_cli" ]; then
        "$beside/signed_cli" "$key" "$work/listed" "$work/signature"
    elif command -v signed_cli > /dev/null; then
        signed_cli "$key" "$work/listed" "$work/signature"
    else
        signed_by_openssl
    fi 2>&1
}

key=
if [ $# = 4 ] && [ "$1" = --key ]; then
    key=$2
    shift 2
    if [ ! -f "$key" ] || [ ! -r "$key" ]; then
        fail "$key is no file that can be read"
    fi
    case $key in
        /*) ;;
        *) key=./$key ;;
    esac
fi
[ $# = 2 ] || fail 'usage: unpack.sh [--key FILE] ARTIFACT FOLDER'
beside=$(dirname -- "$0")
artifact=$1
folder=$2
while [ "$folder" != "${folder%/}" ]; do
    folder=${folder%/}
done
[ -n "$folder" ] || fail 'FOLDER has no name'
case $folder in
    /*) ;;
    *) folder=./$folder ;;
esac
for program in tar sha256sum; do
    command -v $program > /dev/null || fail "$program is missing"
done
if [ -n "$key" ] && [ ! -x "$beside/signed_cli" ] && ! command -v signed_cli > /dev/null; then
    for program in openssl base64; do
        command -v $program > /dev/null || fail "signed_cli is missing, and so is $program"
    done
fi
if [ ! -f "$artifact" ] || [ ! -r "$artifact" ]; then
    fail "$artifact is no file that can be read"
fi
if [ -e "$folder" ] || [ -L "$folder" ]; then
    fail "$2 is there already"
fi
header=
work=$(mktemp -d "$folder.XXXXXX" 2> /dev/null) || fail "no folder can be made beside $2"
trap 'rm -rf "$work"' EXIT
trap 'exit 2' HUP INT TERM
tree=$work/tree
mkdir -p "$tree/data" || fail "$tree can't be made"

# The artifact is a tar of a few files.
tar -tf - < "$artifact" > "$work/names" 2> /dev/null || refuse 'it is no tar, or is cut off'
tar -tvf - < "$artifact" > "$work/kinds" 2> /dev/null || refuse 'it is no tar, or is cut off'
files_alone 'the artifact'
once_each 'the artifact'

# With a key the signature comes first: what isn't signed is read no further.
member manifest | head -c $((most_meta + 1)) > "$work/listed"
[ "$(wc -c < "$work/listed")" -le $most_meta ] || refuse "its manifest has more than $most_meta bytes"
if [ -n "$key" ]; then
    grep -qxF manifest.sig "$work/names" || refuse "it isn't signed"
    member manifest.sig | head -c $((most_sign + 1)) > "$work/signature"
    [ "$(wc -c < "$work/signature")" -le $most_sign ] || refuse "its signature has more than $most_sign bytes"
    said=$(signed)
    case $? in
        0) ;;
        1) refuse "${said#signed_cli: }" ;;
        *) fail "it can't be told whether $key is a key of $artifact: ${said#signed_cli: }" ;;
    esac
fi

payloads=
while IFS= read -r name; do
    case $name in
        version | manifest | manifest.sig) ;;
        header.tar | header.tar.gz | header.tar.xz | header.tar.zst)
            [ -z "$header" ] || refuse 'it has two headers'
            header=$name
            ;;
        data/000[0-7].tar | data/000[0-7].tar.gz | data/000[0-7].tar.xz | data/000[0-7].tar.zst)
            case "$payloads " in
                *"${name%%.*}".*) refuse "it has the payload ${name%%.*} twice" ;;
            esac
            payloads="$payloads $name"
            ;;
        manifest-augment | header-augment.*) refuse 'it is augmented' ;;
        data/[0-9][0-9][0-9][0-9].tar*) refuse "it has $name: more than eight payloads, or a packing that isn't known" ;;
        *) refuse "it has a file that no artifact of format 3 has: $name" ;;
    esac
    case $name in
        *.gz) needs gzip "$name" ;;
        *.xz) needs xz "$name" ;;
        *.zst) needs zstd "$name" ;;
    esac
done < "$work/names"

# It says what it is, and lists what it has.
grep -qx version "$work/names" || refuse 'it has no file version: it is no Mender artifact'
member version | head -c $((most_meta + 1)) > "$tree/version"
format=$(sed -n 's/.*"version"[[:space:]]*:[[:space:]]*\([0-9]*\).*/\1/p' "$tree/version")
[ "$format" = 3 ] || refuse "it is of format ${format:-unknown}, and not 3"
for name in manifest "${header:-header.tar}"; do
    grep -qxF "$name" "$work/names" || refuse "it has no $name"
done
! grep -Eqv '^[0-9A-Fa-f]{64}  .' "$work/listed" || refuse 'its manifest has a line that is no sum and path'
! grep -q '[[:cntrl:]]' "$work/listed" || refuse 'its manifest has a path with a control character'
cut -c 67- "$work/listed" > "$work/names"
once_each 'its manifest'
grep -qx version "$work/names" || refuse 'its manifest lacks version'
grep -qxF "$header" "$work/names" || refuse "its manifest lacks $header"

# The header, whose sum is checked before it is unpacked.
tar -xOf - "$header" < "$artifact" > "$work/header" 2> /dev/null || refuse "$header is cut off or damaged"
packed=$(sum < "$work/header")
grep -qixF "$packed  $header" "$work/listed" || refuse "the sum of $header isn't the one of its manifest"
grep -qixF "$(sum < "$tree/version")  version" "$work/listed" || refuse "the sum of version isn't the one of its manifest"
list "$header" -tvf "$work/kinds"
files_alone "$header"
list "$header" -tf "$work/names"
once_each "$header"
! grep -q '[[:cntrl:]]' "$work/names" || refuse "$header has a name with a control character"
while IFS= read -r name; do
    case $name in
        header-info | headers/000[0-7]/type-info | headers/000[0-7]/meta-data) ;;
        scripts/ | scripts/. | scripts/.. | scripts/*/*) refuse "$header has a path that no header has: $name" ;;
        scripts/*) [ ${#name} -le $((most_path - 7)) ] || refuse "the name is too long of the script $name" ;;
        *) refuse "$header has a path that no header has: $name" ;;
    esac
done < "$work/names"
unpack "$header" "$tree/header"
(cd "$tree/header" && find . -type f) | sort > "$work/found"
sed 's|^|./|' "$work/names" | sort | cmp -s - "$work/found" || refuse "$header has a name that is no text of one line"
large=$(cd "$tree" && find version header -type f -size +${most_meta}c | head -n 1)
[ -z "$large" ] || refuse "$large has more than $most_meta bytes"
[ -f "$tree/header/header-info" ] || refuse "$header has no header-info"
for info in "$tree"/header/headers/*/type-info; do
    [ -f "$info" ] || refuse "$header has no type-info"
    grep -q '"type"[[:space:]]*:[[:space:]]*"[^"]' "$info" || {
        info=${info%/type-info}
        refuse "the type-info of payload ${info##*/} leaves its type empty"
    }
done

# The payloads. A path in them has no slash; the one slash of a line is between owner and group.
for name in $payloads; do
    list "$name" -tvf "$work/kinds"
    files_alone "$name"
    ! grep -qv '^[^/]*/[^/]*$' "$work/kinds" || refuse "$name has a path with a folder in it"
    ! grep -q ' \.\.\{0,1\}$' "$work/kinds" || refuse "$name has a path that is no name"
    unpack "$name" "$tree/${name%%.*}"
    [ "$(find "$tree/${name%%.*}" -type f -exec echo f \; | wc -l)" = "$(wc -l < "$work/kinds")" ] ||
        refuse "$name has a file twice, or a name that is no text of one line"
done

# Each line of the artifact's manifest has its file, each file its line, and the sums are right.
(cd "$tree" && find version header -type f) | sort | while IFS= read -r path; do
    printf '%s  %s\n' "$(sum < "$tree/$path")" "$path"
done > "$tree/manifest"
count=0
while IFS= read -r line; do
    path=${line#*  }
    case $path in
        version | "$header") continue ;;
        data/000[0-7]/ | data/000[0-7]/. | data/000[0-7]/.. | data/000[0-7]/*/*)
            refuse "its manifest lists a path that no payload has: $path"
            ;;
        data/000[0-7]/*) ;;
        *) refuse "its manifest lists what it hasn't: $path" ;;
    esac
    [ ${#path} -le $most_path ] || refuse "a name is too long, with its folder ${#path} bytes where $most_path are the most: $path"
    [ -f "$tree/$path" ] || refuse "its manifest lists what it hasn't: $path"
    found=$(sum < "$tree/$path")
    printf '%s\n' "$line" | grep -qi "^$found  " || refuse "the sum of $path isn't the one of its manifest"
    printf '%s  %s\n' "$found" "$path" >> "$tree/manifest"
    count=$((count + 1))
done < "$work/listed"
[ "$(find "$tree/data" -type f -exec echo f \; | wc -l)" = $count ] || refuse 'a file of a payload has no line in its manifest'
files=$(find "$tree" -type f -exec echo f \; | wc -l)
[ "$files" -le $most_files ] || refuse "its tree would have $files files, and $most_files are the most"
[ "$(wc -l < "$tree/manifest")" = $((files - 1)) ] || fail "the manifest can't be written: is there room on the disk?"

# The tree is brought to the disk before it gets its name.
find "$tree" -exec sync {} + 2> /dev/null || sync
mv -T "$tree" "$folder" 2> /dev/null || fail "$2 can't be made"
