#!/bin/sh
# Gathers the C library's files that `release.sh --library` links with from Debian's packages: for aarch64-unknown-linux-gnu those
# of libc6-dev-arm64-cross, libgcc-12-dev-arm64-cross and libgcc-s1-arm64-cross, for x86_64-unknown-linux-gnu those of libc6-dev and
# libgcc-12-dev. Of another system, as a Yocto SDK, the same files do, put into one folder: start-up files, the C library and its
# loader, those of the compiler, and for aarch64 in `include` and `include-gcc` the headers of the two.
# usage: library.sh TARGET LIBRARY
# exit: 0 the folder LIBRARY stands, which wasn't there; 2 the words are wrong, LIBRARY is there, or a file is missing
set -eu
export LC_ALL=C

fail() {
    echo "library.sh: $1" >&2
    exit 2
}

if [ $# != 2 ] || [ -z "$2" ]; then
    fail 'usage: library.sh TARGET LIBRARY'
fi
if [ -e "$2" ] || [ -L "$2" ]; then
    fail "$2 is there already"
fi
case $1 in
    x86_64-unknown-linux-gnu)
        c=/usr/lib/x86_64-linux-gnu
        compilers=/usr/lib/gcc/x86_64-linux-gnu
        shared='libc.so.6 libc_nonshared.a libm.so.6 ld-linux-x86-64.so.2 libgcc_s.so.1'
        headers=
        ;;
    aarch64-unknown-linux-gnu)
        c=/usr/aarch64-linux-gnu/lib
        compilers=/usr/lib/gcc-cross/aarch64-linux-gnu
        shared='libc.so.6 libc_nonshared.a libm.so.6 ld-linux-aarch64.so.1 libgcc_s.so.1'
        headers=/usr/aarch64-linux-gnu/include
        ;;
    *) fail "the target $1 isn't known: x86_64-unknown-linux-gnu or aarch64-unknown-linux-gnu" ;;
esac
gcc=$(find "$compilers" -mindepth 1 -maxdepth 1 2> /dev/null | sort -V | tail -n 1)
[ -n "$gcc" ] || fail "$compilers has no compiler's files"
work=$(mktemp -d "${2%/}.XXXXXX") || fail "no folder can be made beside $2"
trap 'rm -rf "$work"' EXIT
trap 'exit 2' HUP INT TERM

# Copies the files $2.. of the folder $1.
gather() {
    from=$1
    shift
    for file in "$@"; do
        cp -L "$from/$file" "$work/" || fail "$from has no $file"
    done
}

# shellcheck disable=SC2086 # (each word is a file)
gather "$c" Scrt1.o crt1.o crti.o crtn.o libc.a $shared
gather "$gcc" crtbeginS.o crtendS.o crtbeginT.o crtend.o libgcc.a libgcc_eh.a
if [ -n "$headers" ]; then
    mkdir "$work/include" "$work/include-gcc"
    cp -R "$headers/." "$work/include/" || fail "$headers can't be copied"
    cp -R "$gcc/include/." "$work/include-gcc/" || fail "$gcc has no headers"
fi
chmod 755 "$work"
mv -T "$work" "$2" || fail "$2 can't be made"
