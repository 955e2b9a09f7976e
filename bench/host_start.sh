#!/bin/sh
# Shows from outside what no test of the gate can: streams that are closed or full, a system without a null device, two clients
# at once, and with strace which files a start brings to the disk. Run by hand over a program that was built; the gate doesn't
# call it. What strace, flock or unshare shows is passed over where they can't be had.
# usage: bench/host_start.sh [PROGRAM]
set -u
program=$(realpath "${1:-$(dirname "$0")/../crates/client_cli/out/client_cli}")
work=$(mktemp -d)
trap 'rm -rf "$work"' EXIT
cd "$work" || exit 1
failed=0

told() {
    if [ "$2" = "$3" ]; then echo "ok      $1"; else echo "FAILED  $1: $2, not $3"; failed=1; fi
}

fresh() {
    rm -rf mender-data
    mkdir mender-data
    echo device_type=beaglebone > mender-data/device_type
}

zeros() { head -c 266240 /dev/zero | cmp -s - mender-data/store && echo zeros; }

fresh
"$program" show-provides > out 2> err
told "a first start" "$? $(cat out err)" "0 "
told "makes a store of zeros" "$(zeros)" zeros

fresh
"$program" show-provides <&- >&- 2>&-
told "closed streams" "$?" 0
told "leave the store alone" "$(zeros)" zeros
"$program" words that are none > out 2> err
wrong=$?
told "wrong words" "$wrong $(cat out)" "9 usage 2 0"
told "list the forms on standard error" "$(head -n 1 err) $(wc -l < err)" "client_cli [--data DIR] COMMAND, where COMMAND is one of 10"
"$program" words that are none >&- 2>&-
told "wrong words with closed streams" "$?" "$wrong"
told "leave the store alone" "$(zeros)" zeros
told "nothing else was made" "$(ls mender-data | tr '\n' ' ')" "device_type store "

"$program" words that are none > /dev/full 2> err
told "a full standard output" "$? $(cat err)" "8 standard output: No space left on device (os error 28)"
"$program" words that are none 2> err | true
told "nobody reads" "$?" 0

fresh
mkfifo pipe
ln -s ../pipe mender-data/store
timeout 5 "$program" show-provides 2> err
told "a fifo for a store" "$? $(head -n 1 err)" "15 cannot start 5"
told "is named" "$(tail -n 1 err)" "$work/mender-data/store: it is no regular file"
rm mender-data/store
ln -s /dev/full mender-data/store
"$program" show-provides 2> err
told "a device for a store" "$? $(head -n 1 err)" "15 cannot start 5"

fresh
env --ignore-signal=CHLD "$program" show-provides 2> err
told "the end of children ignored" "$? $(head -n 1 err)" "15 cannot start 5"
told "is named" "$(tail -n 1 err)" "SIGCHLD: it is ignored, so no child's end can be learnt"
told "makes no store" "$(ls mender-data)" device_type
sh -c "ulimit -f 64; exec '$program' show-provides" 2> err
told "a limit of files that are too large for the store ends it" "$?" 153
"$program" show-provides
told "and a start without it mends the store" "$? $(zeros)" "0 zeros"

# a module that does this, and a tree with a script that exits with this
deploy() {
    fresh
    mkdir -p mender-data/modules/v3 tree/header/headers/0000 tree/header/scripts tree/data/0000
    printf '#!/bin/sh\n%s\nexit 0\n' "$1" > mender-data/modules/v3/m
    chmod 755 mender-data/modules/v3/m
    (
        cd tree || exit 1
        printf abc > data/0000/app.bin
        echo "exit $2" > header/scripts/ArtifactInstall_Enter_00
        printf '{"format":"mender","version":3}' > version
        printf '{"payloads":[{"type":"m"}],"artifact_provides":{"artifact_name":"new"},"artifact_depends":{"device_type":["beaglebone"]}}' > header/header-info
        printf '{"type":"m"}' > header/headers/0000/type-info
        sha256sum version header/header-info header/headers/0000/type-info header/scripts/ArtifactInstall_Enter_00 data/0000/app.bin > manifest
    )
}

deploy 'test "$1" != SupportsRollback || echo Yes' 21
mkdir bin
cat > bin/sh <<'SHELL'
#!/bin/sh
case $1 in -c) echo "$*" >> "$SLEPT" ;; *) exec /bin/sh "$@" ;; esac
SHELL
chmod 755 bin/sh
SLEPT=$work/slept PATH=$work/bin:$PATH "$program" install tree > out 2> err
told "a script that exits 21" "$? $(cat out err)" "14 not installed: rolled back"
told "is tried again after 30 pauses of a minute" "$(sort slept | uniq -c | tr -s ' ')" " 30 -c sleep 60"

deploy 'test "$1" = Download && echo $$ > ../../stopped && kill -STOP $$' 0
"$program" install tree > out 2> err &
while [ ! -s mender-data/stopped ]; do sleep 0.1; done
sleep 0.5
told "a module that stops holds the client" "$(cat out)" ""
kill -CONT "$(cat mender-data/stopped)"
wait $!
told "and it goes on with it" "$? $(cat out err)" "0 committed"

deploy 'sleep 60 & echo $! >> ../../left' 0
"$program" install tree > out 2> err
told "a module that leaves programs running" "$? $(cat out err)" "0 committed"
kill $(cat mender-data/left)

deploy '' 0
(umask 0; "$program" install tree > out 2> err)
told "no mask" "$? $(cat out err)" "0 committed"
deploy '' 0
(umask 077; "$program" install tree > out 2> err)
told "a mask of all others" "$? $(cat out err) $(stat -c %a mender-data/store mender-data/work/0000/version | tr '\n' ' ')" "0 committed 600 600 "
chmod 600 mender-data/modules/v3/m
"$program" install tree > out 2> err
told "a module that may not be run" "$? $(cat out)" "14 not installed: kept"
told "is named" "$(tail -n 1 err)" "$work/mender-data/modules/v3/m: Permission denied (os error 13)"
chmod 755 mender-data/modules/v3/m

if command -v setpriv > /dev/null && [ "$(id -u)" = 0 ]; then
    deploy '' 0
    chmod 755 "$work"
    chown -R 65534:65534 mender-data tree
    as_nobody() { setpriv --reuid=65534 --regid=65534 --clear-groups sh -c "$1" > out 2> err; }
    if command -v prlimit > /dev/null; then
        as_nobody "exec prlimit --nproc=0 '$program' install tree"
        told "no process more" "$? $(cat out)" "14 not installed: kept"
        told "is named" "$(tail -n 1 err)" "$work/mender-data/modules/v3/m: Resource temporarily unavailable (os error 11)"
    fi
    as_nobody "exec '$program' install tree"
    told "another user" "$? $(cat out err)" "0 committed"
    chmod 500 mender-data/work/0000/files
    as_nobody "exec '$program' install tree"
    told "a locked folder in the work folder" "$? $(cat out err)" "0 committed"
    chown -R 0:0 mender-data/work
    as_nobody "exec '$program' install tree"
    told "a work folder of another owner" "$? $(cat out)" "5 disk fault"
    told "is named" "$(tail -n 1 err | cut -d: -f2-)" " Permission denied (os error 13)"
fi

if command -v flock > /dev/null; then
    fresh
    "$program" show-provides
    flock mender-data/store sleep 1 &
    sleep 0.2
    "$program" show-provides 2> err
    told "a store that is held for one second" "$? $(cat err)" "0 "
    wait
    flock mender-data/store sleep 4 &
    sleep 0.2
    "$program" show-provides 2> err
    told "a store that is held for four seconds" "$? $(head -n 1 err)" "15 cannot start 5"
    told "is named" "$(tail -n 1 err)" "$work/mender-data/store: another program holds it"
    wait
fi

if unshare -m true 2> /dev/null; then
    fresh
    unshare -m sh -c "mount -t tmpfs none /dev && exec '$program' show-provides 2> err"
    told "no null device" "$? $(head -n 1 err)" "15 cannot start 5"
    told "is named" "$(tail -n 1 err)" "/dev/null: No such file or directory (os error 2)"
    told "makes no store" "$(ls mender-data)" device_type
fi

if command -v strace > /dev/null; then
    syncs() { strace -f -y -e trace=fsync,fdatasync "$program" show-provides 2>&1 | grep -o 'f[a-z]*sync([0-9]*<[^>]*' | sed "s|([0-9]*<$work/| |" | tr '\n' ','; }
    fresh
    told "the first start syncs" "$(syncs)" "fsync mender-data/store,fsync mender-data,fdatasync mender-data/store,"
    told "each further start syncs" "$(syncs)" "fsync mender-data,fdatasync mender-data/store,"
fi
exit $failed
