#!/bin/sh
# Makes one allocation after the other of the built client fail, by a small library that is loaded before it: in an update that
# is committed, in one that waits and is rolled back, and in one whose reboots fail until it ends inconsistent. Where the answer
# is want of memory, nothing was started, the deployment stands where it stood and the same is held, and the same command then
# ends as with ample memory. Behind any other answer, as where a child couldn't be started for want of memory, resumes end the
# deployment, and the old is held, the new, or the new with its mark. It takes some minutes. Run by hand over a program that was
# built; the gate doesn't call it. It needs a C compiler for the GNU C library.
# usage: bench/refuse_memory.sh [PROGRAM]
set -u
program=$(realpath "${1:-$(dirname "$0")/../crates/client_cli/out/client_cli}")
demo=$(realpath "$(dirname "$0")/../demo")
tree=$demo/tree
command -v cc > /dev/null || { echo "no C compiler: nothing was tried"; exit 0; }
work=$(mktemp -d)
trap 'rm -rf "$work"' EXIT
cd "$work" || exit 1
cat > refuse.c << 'END'
#include <errno.h>
#include <fcntl.h>
#include <stdlib.h>
#include <unistd.h>

extern void *__libc_malloc(size_t), *__libc_calloc(size_t, size_t), *__libc_realloc(void *, size_t);

static long left;
static const char *mark;

__attribute__((constructor)) static void begin(void) {
    const char *at = getenv("REFUSE_AT");
    mark = getenv("REFUSE_MARK");
    unsetenv("LD_PRELOAD"); /* children have all the memory that they want */
    left = at ? atol(at) : 0;
}

static int refused(void) {
    if (left == 0 || --left > 0) return 0;
    if (mark) close(open(mark, O_CREAT | O_WRONLY, 0600));
    errno = ENOMEM;
    return 1;
}

void *malloc(size_t n) { return refused() ? 0 : __libc_malloc(n); }
void *calloc(size_t n, size_t m) { return refused() ? 0 : __libc_calloc(n, m); }
void *realloc(void *p, size_t n) { return refused() ? 0 : __libc_realloc(p, n); }
END
cc -shared -fPIC -O1 -o refuse.so refuse.c || exit 1
failed=0

# A device with release 2 whose module answers by the files `supports` and `needs`, and fails in the states that `fails` names.
device() {
    rm -rf mender-data
    mkdir -p mender-data/modules/v3
    cp "$demo/mender-data/device_type" mender-data/
    sh "$demo/make_store.sh" mender-data/store
    echo "$1" > supports
    echo "$2" > needs
    echo "$3" > fails
    : > calls
    echo 'echo reboot >> '"$work"'/calls' > mender-data/reboot
    cat > mender-data/modules/v3/single-file << END
#!/bin/sh
echo "\$1" >> $work/calls
case "\$1" in
    SupportsRollback) cat $work/supports ;;
    NeedsArtifactReboot) cat $work/needs ;;
    *) ! grep -qx "\$1" $work/fails ;;
esac
END
    chmod +x mender-data/modules/v3/single-file
}

stands() { "$program" show-deployment; "$program" show-provides; }

# Whether the deployment ended, and what is held is what was held before, or with ample memory, or is marked.
ended() {
    case "$("$program" show-deployment)" in *" Idle "*) ;; *) return 1 ;; esac
    held=$("$program" show-provides)
    [ "$held" = "$old" ] || [ "$held" = "$new" ] || case "$held" in *_INCONSISTENT*) ;; *) return 1 ;; esac
}

# Does a command by the words behind $1, the status that it ends with where memory is ample, with one allocation after the other
# refused.
try() {
    wanted=$1
    shift
    rm -rf before after
    cp -r mender-data before
    before=$(stands)
    old=$("$program" show-provides)
    cp calls calls.before
    "$program" "$@" > out 2>&1
    code=$?
    [ "$code" = "$wanted" ] || { echo "FAILED  $*: status $code, not $wanted"; failed=1; }
    good=$(stands)
    new=$("$program" show-provides)
    cp -r mender-data after
    cp calls calls.after
    n=0
    wants=0
    : > others
    while :; do
        n=$((n + 1))
        rm -rf mender-data mark
        cp -r before mender-data
        cp calls.before calls
        REFUSE_AT=$n REFUSE_MARK=mark LD_PRELOAD=$work/refuse.so "$program" "$@" > out 2> err
        code=$?
        [ -e mark ] || break
        case $code in
            7 | 15)
                wants=$((wants + 1))
                cmp -s calls calls.before || { echo "FAILED  $*, allocation $n: a child was started"; failed=1; }
                [ "$(stands)" = "$before" ] || { echo "FAILED  $*, allocation $n: $(stands | tr '\n' ' ')"; failed=1; }
                "$program" "$@" > out 2>&1
                code=$?
                [ "$code $(stands)" = "$wanted $good" ] || { echo "FAILED  $*, again behind allocation $n: status $code"; failed=1; }
                ;;
            *)
                [ "$code $(stands)" = "$wanted $good" ] && continue
                echo "$code" >> others
                for _ in $(seq 30); do "$program" resume > out 2>&1 || [ $? != 2 ] || break; done
                ended || { echo "FAILED  $*, behind allocation $n: $(stands | tr '\n' ' ')"; failed=1; }
                ;;
        esac
    done
    [ "$wants" -gt 0 ] || { echo "FAILED  $*: no allocation was wanted"; failed=1; }
    echo "$*: $((n - 1)) allocations refused, $wants of them told as want of memory$(sort -n others | uniq -c | while read -r times code; do printf ", %s by status %s" "$times" "$code"; done)"
    rm -rf mender-data
    cp -r after mender-data
    cp calls.after calls
}

echo "# an update that is committed"
device No No none
try 0 install "$tree"
try 0 show-provides

echo "# one that waits, and is rolled back"
device Yes No none
try 0 install "$tree"
try 0 rollback

echo "# one whose reboots fail until it ends inconsistent"
device Yes Yes "$(printf 'ArtifactVerifyReboot\nArtifactVerifyRollbackReboot')"
try 4 install "$tree"
try 4 resume
for _ in 2 3 4 5 6 7 8 9 10 11 12; do "$program" resume > out; done
try 3 resume
exit $failed
