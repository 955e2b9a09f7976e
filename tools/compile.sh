# shellcheck shell=sh
# Compiles and links what the gate proved for another processor than its own, or with the C library in the program. Sourced by
# release.sh, with $target, $library, $static, $kit, $tools and, from `set_up` on, $work and $log.
# The proofs are checked once more for the target, by the kit; the libraries that the gate left are the same for each. What no gate
# sees, beyond what is trusted for x86-64, stands in `about_target`.

# What LIBRARY has to have, by how programs are linked. On x86-64 the kit has the C functions that a program needs beside the C
# library; for aarch64 edge.c has them, and is compiled here with the headers of LIBRARY.
of_c='crti.o crtn.o'
of_gcc='libgcc.a'
if [ -n "$static" ]; then
    of_c="crt1.o $of_c libc.a"
    of_gcc="crtbeginT.o crtend.o $of_gcc libgcc_eh.a"
else
    of_c="Scrt1.o $of_c libc.so.6 libc_nonshared.a libm.so.6 libgcc_s.so.1"
    of_gcc="crtbeginS.o crtendS.o $of_gcc"
fi
headers=
case $target in
    x86_64-unknown-linux-gnu) ;;
    aarch64-unknown-linux-gnu)
        [ -n "$static" ] || of_c="$of_c ld-linux-aarch64.so.1"
        headers='include/stdint.h include/spawn.h include-gcc/stddef.h'
        ;;
    *) fail 2 "the target $target isn't known: x86_64-unknown-linux-gnu or aarch64-unknown-linux-gnu" ;;
esac
newline='
'

# Whether LIBRARY is named where it is wanted, and there alone, and has its files. It is an absolute folder from here on.
seen_library() {
    if [ "$target" = x86_64-unknown-linux-gnu ] && [ -z "$static" ]; then
        [ -z "$library" ] || fail 2 'the programs of the gate are shipped as they are: --library is for another target or --static'
        return 0
    fi
    [ -n "$library" ] || fail 2 'a folder with the C library is wanted: --library LIBRARY, see library.sh'
    library=$(cd "$library" 2> /dev/null && pwd) || fail 2 'there is no such LIBRARY'
    for file in $of_c $of_gcc $headers; do
        [ -e "$library/$file" ] || fail 2 "$library has no $file"
    done
}

# The names in files: those that they have from elsewhere, or have themselves, by the first words.
names() {
    "$work/bin/llvm-nm" "$@" -j 2> "$log" | sed -n 's/@.*//; s/:$//; /^[A-Za-z_][A-Za-z_0-9]*$/p' | sort -u
}

# The kit's tools by the names that they go by, and edge.c as $edge.
set_up() {
    mkdir -p "$work/bin" "$work/tools/bin"
    for name in llvm-nm llvm-strip; do
        ln -s "$kit/toolchain/bin/clang" "$work/bin/$name"
    done
    [ -n "$library" ] || return 0
    ln -s "$library" "$work/tools/lib"
    for name in clang ld.lld llvm-ar; do
        ln -s "$kit/toolchain/bin/clang" "$work/tools/bin/$name"
    done
    if [ "$target" = x86_64-unknown-linux-gnu ]; then
        edge="$kit/c/libos_c.a $kit/c/liblibc_c.a"
        return 0
    fi
    edge=$work/edge.o
    "$work/tools/bin/clang" --target="$target" -nostdinc -isystem "$library/include-gcc" -isystem "$library/include" -O2 -fPIC \
        -fno-builtin -ffunction-sections -fdata-sections -Wall -Wextra -Werror -c "$tools/edge.c" -o "$edge" > "$log" 2>&1 ||
        { cat "$log" >&2; fail 1 "edge.c isn't compiled"; }
    names --undefined-only "$edge" > "$work/calls"
    names --undefined-only "$kit/c/libos_c.a" "$kit/c/liblibc_c.a" > "$work/known"
    more=$(comm -23 "$work/calls" "$work/known" | tr '\n' ' ')
    [ -z "$more" ] || fail 1 "edge.c calls what the kit's C functions don't: $more"
}

# The words of `rattle` for the program $1: the libraries that crates.txt names, and all others where those find them.
words_of() {
    printf '%s\n' --crate-name "$1" src/main.rt --extern "std=$kit/rlibs/std.rlib" -L "dependency=$kit/rlibs"
    sed -n "s/^$1://p" crates.txt | tr -s ' ' '\n' | sed '/^$/d' | while read -r name; do
        if [ -d "crates/$name" ]; then
            printf '%s\n' --extern "$name=$PWD/crates/$name/out/rlib/$name.rlib"
        else
            printf '%s\n' --extern "$name=$kit/rlibs/$name.rlib"
        fi
    done
    for rlib in "$PWD"/crates/*/out/rlib; do
        printf '%s\n' -L "dependency=$rlib"
    done
    printf '%s\n' --antt-project "$kit/rattle/logic/antt-project.json" --logic-built "$kit/logic_built" --jobs "${JOBS:-1}"
    printf '%s\n' --links "$1=" --target "$target" --toolchain "$work/tools"
    [ -z "${CPU:-}" ] || printf '%s\n' --cpu "$CPU"
}

# Links the object of the program $1.
link() {
    # shellcheck disable=SC2086 # ($edge is one file or two)
    if [ -n "$static" ]; then
        "$work/tools/bin/ld.lld" -static --gc-sections -o "$work/$1" "$library/crt1.o" "$library/crti.o" "$library/crtbeginT.o" \
            "$work/$1.o" $edge --start-group "$library/libc.a" "$library/libgcc.a" "$library/libgcc_eh.a" --end-group \
            "$library/crtend.o" "$library/crtn.o"
    else
        "$kit/bin/rattle-link" --target "$target" --toolchain "$work/tools" -o "$work/$1" "$work/$1.o" $edge
    fi
}

# The program $1 calls nothing of the C library that the program of the gate doesn't call, but by the kit's C functions.
seen_calls() {
    names --undefined-only "$work/$1.o" | grep -v '^rattle_' > "$work/calls"
    { names --defined-only "$work/$1.o" "$library/libgcc.a"; names -D --undefined-only "crates/$1/out/$1"; } | sort -u > "$work/known"
    more=$(comm -23 "$work/calls" "$work/known" | tr '\n' ' ')
    [ -z "$more" ] || fail 1 "$1 calls what the program of the gate doesn't: $more"
}

# Builds the program $1 as $work/$1, and says so for `about`.
compile() {
    words=$(words_of "$1")
    # shellcheck disable=SC2086 # (each line is a word)
    (cd "crates/$1" && set -f && IFS=$newline && "$kit/bin/rattle" build $words -o "$work/$1.o") > "$log" 2>&1 ||
        { tail -n 20 "$log" >&2; fail 1 "$1 isn't built"; }
    verdict=$(grep "^logic=proved .*target=$target" "$log") || fail 1 "$1 isn't proved for $target"
    seen_calls "$1"
    link "$1" > "$log" 2>&1 || { cat "$log" >&2; fail 1 "$1 isn't linked"; }
    needs='no C library'
    if [ -z "$static" ]; then
        needs="glibc $("$work/bin/llvm-nm" -D --undefined-only -j "$work/$1" | sed -n 's/.*@GLIBC_//p' | sort -V | tail -n 1)"
    fi
    echo "$1 $verdict, needs $needs" >> "$work/verdicts"
}

# What a release says of its target, and of what is trusted for it alone.
about_target() {
    echo "target $target${static:+, static}"
    [ -n "$library" ] || return 0
    cat "$work/verdicts"
    # shellcheck disable=SC2086 # (each word is a file)
    echo "linked with a C library whose files for it have the sum $(cd "$library" && cat $of_c $of_gcc | sha256sum | cut -d ' ' -f 1)"
    if [ "$target" != x86_64-unknown-linux-gnu ]; then
        echo "trusted beyond x86-64: the kit's compiler for this processor, tools/edge.c, and that the C library's calls, numbers and layouts are on it as the kit's contracts say"
        [ -n "${TRY:-}" ] || echo 'never tried: there was nothing to run it by'
    fi
}
