#!/bin/sh
# Proves and builds the client and the module that replaces one file, and takes a sample device through three updates: one that
# is installed, one that fails and is taken back, and one in which the client is killed.
# It needs the kit's `rt` on the path and coreutils. The first run proves some twenty crates, which README.md says the time of;
# it tells of each as it is proved. A second run takes seconds. All that it makes is in out/.
# usage: run.sh [--built]
#   --built: the programs stand where the gate leaves them, or in the folder PROGRAMS of the environment, which has an absolute
#            path, and nothing is proved
# exit: 0 each command ended as it should
#       1 one didn't, or a crate isn't proved; the last line is 'N passed, M failed'
set -u
export LC_ALL=C
cd "$(dirname "$0")" || exit 1
rm -rf out
mkdir -p out/empty || exit 1
client_cli=${PROGRAMS:-$PWD/../crates/client_cli/out}/client_cli
file_module_cli=${PROGRAMS:-$PWD/../crates/file_module_cli/out}/file_module_cli
passed=0
failed=0

say() {
    printf '\n# %s\n' "$1"
}

# Counts whether $1 is what it should be, $2.
count() {
    if [ "$1" = "$2" ]; then
        passed=$((passed + 1))
    else
        failed=$((failed + 1))
        echo "this should have been: $2"
    fi
}

# The crates that the two programs need, lowest first, as crates.txt has them.
needed() {
    wanted=' client_cli file_module_cli '
    found=
    tac ../crates.txt > out/upwards
    while read -r name below; do
        case $wanted in
            *" ${name%:} "*)
                found="${name%:} $found"
                wanted="$wanted$below "
                ;;
        esac
    done < out/upwards
    echo "$found"
}

# Proves the crates, and says of each when it is done.
prove() {
    all=$(needed)
    left=$(echo "$all" | wc -w)
    began=$(date +%s)
    echo "$left crates are proved, one after another, each on up to 4 processors. The first time this takes long."
    for crate in $all; do
        verb=lib
        [ -f "../crates/$crate/src/lib.rt" ] || verb=check
        (cd "../crates/$crate" && rt $verb) > out/log 2>&1 || {
            tail -n 20 out/log >&2
            echo "$crate is not proved"
            exit 1
        }
        left=$((left - 1))
        echo "$crate is proved; $left to go, $((($(date +%s) - began) / 60)) minutes so far"
    done
}

# Builds the program $1, and runs it by words that leave everything alone; it has to end with the status $2.
build() {
    crate=$1
    wanted=$2
    shift 2
    (cd "../crates/$crate" && rt run -- "$@") > out/log 2>&1
    code=$?
    [ "$code" = "$wanted" ] || { tail -n 20 out/log >&2; exit 1; }
}

# Runs the client by the words behind $1, which is the status that it has to end with.
client() {
    wanted=$1
    shift
    echo "\$ client_cli $*"
    "$client_cli" "$@" 2>&1
    code=$?
    echo "(exit status $code)"
    count "$code" "$wanted"
}

# Shows the file that the updates replace, which has to say $1.
target() {
    echo "\$ cat mender-data/root/target"
    cat mender-data/root/target
    count "$(cat mender-data/root/target)" "the application of release $1"
}

# Makes a tree of release 4 as ../tree is one of release 3, with one script more, which is read from standard input.
tree_4() {
    cp -R ../tree "$1"
    printf '%s' '{"payloads":[{"type":"single-file"}],"artifact_provides":{"artifact_name":"release-4"},"artifact_depends":{"device_type":["beaglebone"]}}' > "$1/header/header-info"
    printf '%s' '{"type":"single-file","artifact_provides":{"app.version":"4"},"artifact_depends":{"app.version":["3"]},"clears_artifact_provides":["app.*"]}' > "$1/header/headers/0000/type-info"
    echo 'the application of release 4' > "$1/data/0000/app.bin"
    cat > "$1/header/scripts/ArtifactInstall_Leave_00"
    (cd "$1" && sha256sum version header/header-info header/headers/0000/type-info header/scripts/* data/0000/app.bin > manifest)
}

if [ "${1:-}" != --built ]; then
    say 'The client and the module are proved and built.'
    prove
    build file_module_cli 0 SupportsRollback "$PWD/out/empty"
    build client_cli 9 --help
fi

say 'A device of the type beaglebone has release 2, and the module for payloads of the type single-file.'
cp -R mender-data out/mender-data
sh make_store.sh out/mender-data/store
mkdir -p out/mender-data/modules/v3 out/mender-data/root
cp "$file_module_cli" out/mender-data/modules/v3/single-file || exit 1
echo 'the application of release 2' > out/mender-data/root/target
cd out || exit 1
client 0 show-provides
target 2

say 'Release 3 would be taken. It is installed, and waits, since its module can take it back. Then it is committed.'
client 0 check ../tree
client 0 install ../tree
client 0 show-deployment
client 0 commit
client 0 show-provides
target 3

say 'A release 4 whose script fails behind the installation is rolled back: the module gives back the file.'
tree_4 failing << 'END'
echo "script of the tree: found '$(cat root/target)', and fails" >&2
exit 1
END
client 14 install failing
client 0 show-artifact
target 3

say 'In another release 4 the client is killed at the same place. What it left is gone on with by resume, which takes it back.'
tree_4 killing << 'END'
echo "script of the tree: found '$(cat root/target)', and kills the client" >&2
kill -9 $PPID
END
client 137 install killing
client 0 show-deployment
client 13 install ../tree
client 14 resume
client 0 show-provides
target 3

echo
echo "$passed passed, $failed failed"
[ "$failed" = 0 ]
