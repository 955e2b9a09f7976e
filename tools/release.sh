#!/bin/sh
# Makes a release: runs the gate, which proves, builds and tries all, and puts the programs into a folder, stripped, with `sums`
# and with `about`: the commit where there is one, the kit's version line, the gate's last line, the target, and what is trusted
# beyond the gate. It needs the kit's `rt`. What the gate says goes to standard error as it comes.
# usage: release.sh [--target TARGET] [--library LIBRARY] [--static] FOLDER
# TARGET is x86_64-unknown-linux-gnu, which is meant where none is named, or aarch64-unknown-linux-gnu. Linux with glibc, linked
# with it, or, with --static, with a copy of it in each program, so that the device needs none. LIBRARY is a folder with the C
# library's files for the link, which `library.sh` makes: wanted for aarch64 and for --static, and for nothing else.
# In the environment: GATE is the log of a gate that passed in this copy, where it isn't to run again; for another processor TRY is
# what runs a program of it here, as `qemu-aarch64-static -L ROOT`, without which nothing is tried, and CPU a processor of
# `rattle build --cpu`; KIT is the kit's folder where `rt` alone doesn't tell it, and JOBS how many proofs go side by side.
# exit: 0 the release stands in FOLDER, which wasn't there
#       1 the gate, a build, a link or a program's first try went wrong
#       2 the words are wrong, FOLDER is there, a program or a file is missing, or something can't be written
set -eu
export LC_ALL=C

fail() {
    echo "release.sh: $2" >&2
    exit "$1"
}

usage='usage: release.sh [--target TARGET] [--library LIBRARY] [--static] FOLDER'
target=x86_64-unknown-linux-gnu
library=
static=
while [ $# -gt 1 ]; do
    case $1 in
        --target) target=$2; shift ;;
        --library) library=$2; shift ;;
        --static) static=yes ;;
        *) fail 2 "$usage" ;;
    esac
    shift
done
case ${1:-} in
    '' | -*) fail 2 "$usage" ;;
    /*) folder=$1 ;;
    *) folder=$PWD/$1 ;;
esac
if [ -e "$folder" ] || [ -L "$folder" ]; then
    fail 2 "$1 is there already"
fi
for program in rt awk sed sha256sum; do
    command -v $program > /dev/null || fail 2 "$program is missing"
done
tools=$(cd "$(dirname "$0")" && pwd)
kit=${KIT:-$(dirname "$(dirname "$(readlink -f "$(command -v rt)")")")}
[ -x "$kit/bin/rattle-link" ] || fail 2 "$kit isn't the kit's folder: name it in KIT"
. "$tools/programs.sh"
. "$tools/compile.sh"
seen_library
work=$(mktemp -d "${folder%/}.XXXXXX") || fail 2 "no folder can be made beside $1"
trap 'rm -rf "$work"' EXIT
trap 'exit 2' HUP INT TERM
cd "$tools/.."
mkdir "$work/release"
log=$work/log
set_up

if [ -n "${GATE:-}" ]; then
    gate=$(tail -n 1 "$GATE") || fail 2 "$GATE can't be read"
else
    { rt ci 2>&1 || echo 'the gate ended badly'; } | tee "$log" >&2
    gate=$(tail -n 1 "$log")
fi
echo "$gate" | grep -Eq '^[0-9]+ passed, 0 failed$' || fail 1 'the gate did not pass'

# Puts the program $1 into the release, built where the gate left none, and tries it where that can be.
add() {
    program=$1
    built=crates/$program/out/$program
    [ -x "$built" ] || (cd "crates/$program" && rt run) > "$log" 2>&1 || true
    [ -x "$built" ] || { tail -n 20 "$log" >&2; fail 1 "$program isn't built"; }
    if [ -n "$library" ]; then
        compile "$program"
        built=$work/$program
    fi
    "$work/bin/llvm-strip" -o "$work/release/$program" "$built" || fail 1 "$program can't be stripped"
    chmod 755 "$work/release/$program"
    tried=$work/release/$program
    if [ "$target" != x86_64-unknown-linux-gnu ]; then
        [ -n "${TRY:-}" ] || return 0
        tried=$work/tried
        printf '#!/bin/sh\nexec %s "%s" "$@"\n' "$TRY" "$work/release/$program" > "$tried"
        chmod 755 "$tried"
    fi
    first_try "$program" "$tried" "$work/device"
    [ "$found" = "$wanted" ] || fail 1 "$program ends with '$found', not '$wanted'"
}

for name in $programs; do
    add "$name"
done
{
    commit=$(git rev-parse HEAD 2> "$log") && echo "commit $commit$(git diff --quiet HEAD 2> "$log" || echo ', changed')"
    rt version
    echo "$gate${GATE:+, by a log that was given}"
    about_target
} > "$work/release/about" || fail 1 'the kit has no version line'
(cd "$work/release" && sha256sum -- * > ../sums && mv ../sums sums) || fail 2 'the sums cannot be written'
mv -T "$work/release" "$folder" || fail 2 "$folder can't be made"
cat "$folder/about"
