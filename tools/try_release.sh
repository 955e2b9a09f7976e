#!/bin/sh
# Tries the programs of a release: their sums, the first try of each, the stored runs, the demo's course, devices.sh and statuses.sh,
# some simulations beside the gate's client where that stands in crates/*/out/, and a Debian package where dpkg-deb can be had.
# usage: try_release.sh FOLDER
# TRY in the environment is a command that runs each program, as `qemu-aarch64-static -L ROOT` does those of another processor.
# exit: 0 all is as it should be; 1 something isn't; 2 the words are wrong, or FOLDER is no release; the last line is
#       'N passed, M failed'
set -u
export LC_ALL=C

fail() {
    echo "try_release.sh: $1" >&2
    exit 2
}

if [ $# != 1 ] || [ -z "$1" ]; then
    fail 'usage: try_release.sh FOLDER'
fi
if [ ! -f "$1/sums" ] || [ ! -f "$1/about" ]; then
    fail "$1 is no release"
fi
folder=$(cd "$1" && pwd) || fail "$1 can't be read"
top=$(cd "$(dirname "$0")/.." && pwd)
work=$(mktemp -d)
trap 'rm -rf "$work"' EXIT
trap 'exit 1' HUP INT TERM
passed=0
failed=0

# Counts whether what $1 names is $3, where it should be $2.
count() {
    if [ "$2" = "$3" ]; then
        passed=$((passed + 1))
    else
        failed=$((failed + 1))
        echo "$1: '$3', not '$2'"
    fi
}

# A folder with all programs, each by TRY where that is given: what a module's link or a copy of it starts is then that command.
PROGRAMS=$work/programs
export PROGRAMS
mkdir "$PROGRAMS"
. "$top/tools/programs.sh"
for name in $programs; do
    [ -x "$folder/$name" ] || fail "$folder has no $name"
    if [ -n "${TRY:-}" ]; then
        printf '#!/bin/sh\nexec %s "%s" "$@"\n' "$TRY" "$folder/$name" > "$PROGRAMS/$name"
        chmod 755 "$PROGRAMS/$name"
    else
        ln -s "$folder/$name" "$PROGRAMS/$name"
    fi
done

(cd "$folder" && sha256sum --quiet -c sums) > "$work/log" 2>&1
count 'the sums' 0 $?

# The stored run of the program $1: the words of `args`, in a copy of its folder `data`.
stored_run() {
    stored=$top/crates/$1
    rm -rf "$work/run"
    mkdir "$work/run"
    [ ! -d "$stored/data" ] || cp -R "$stored/data/." "$work/run/"
    wanted=0
    [ ! -f "$stored/status" ] || wanted=$(cat "$stored/status")
    set --
    while IFS= read -r word; do
        set -- "$@" "$word"
    done < "$stored/args"
    code=0
    (cd "$work/run" && "$PROGRAMS/$name" "$@") > "$work/out" 2> "$work/err" < /dev/null || code=$?
    count "the status of the stored run of $name" "$wanted" "$code"
    [ -f "$stored/stdout" ] || : > "$work/none"
    expected=$stored/stdout
    [ -f "$expected" ] || expected=$work/none
    cmp -s "$expected" "$work/out"
    count "the output of the stored run of $name" 0 $?
}

for name in $programs; do
    first_try "$name" "$PROGRAMS/$name" "$work/first"
    count "the first try of $name" "$wanted" "$found"
    stored_run "$name"
done

# A script that ends with 'N passed, M failed'.
script() {
    sh "$@" > "$work/log" 2>&1
    code=$?
    count "$*, which says $(tail -n 1 "$work/log")" 0 $code
    [ $code = 0 ] || cat "$work/log"
}

script "$top/demo/run.sh" --built
script "$top/tools/devices.sh"
script "$top/tools/statuses.sh"

built=$top/crates/client_cli/out/client_cli
if [ -x "$built" ]; then
    for seed in 1 2 3; do
        count "the simulation of seed $seed" "$("$built" simulate $seed 200)" "$("$PROGRAMS/client_cli" simulate $seed 200)"
    done
else
    echo 'the gate left no client: its simulations are not compared'
fi

if command -v dpkg-deb > /dev/null; then
    sh "$top/tools/packaging/deb.sh" "$folder" 1.0 "$work/update-client.deb" > "$work/log" 2>&1
    count 'the package' 0 $?
    mkdir "$work/root"
    dpkg-deb -x "$work/update-client.deb" "$work/root" > "$work/log" 2>&1
    cmp -s "$folder/client_cli" "$work/root/usr/sbin/client_cli"
    count 'the client of the package' 0 $?
else
    echo 'dpkg-deb is missing: no package is made'
fi
echo "$passed passed, $failed failed"
[ "$failed" = 0 ]
