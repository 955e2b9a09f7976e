#!/bin/sh
# Tries every wrong body on a copy of this repository: those that the gate tries, in crates/*/must-fail/, and those that it leaves
# out for its time, in attacks/. Each has to be refused. It takes hours of one processor where nothing was proved before; it is
# run by hand, and before a release. It needs the kit's `rt`.
# usage: attack.sh [CRATE..]
# exit: 0 each is refused; 1 one isn't, or can't be tried; the last line is the kit's
set -eu
export LC_ALL=C
top=$(cd "$(dirname "$0")/.." && pwd)
work=$(mktemp -d)
trap 'rm -rf "$work"' EXIT
trap 'exit 2' HUP INT TERM
cp "$top/crates.txt" "$top/HANDLES" "$work/"
for crate in "$top"/crates/*; do
    name=${crate##*/}
    mkdir -p "$work/crates/$name/must-fail"
    for part in src specs proofs must-fail; do
        [ ! -d "$crate/$part" ] || cp -R "$crate/$part" "$work/crates/$name/"
    done
    for edit in "$top/attacks/$name"/*.edit; do
        [ ! -f "$edit" ] || cp "$edit" "$work/crates/$name/must-fail/"
    done
done
cd "$work"
rt must-fail "$@"
