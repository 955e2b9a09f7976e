#!/bin/sh
# Goes through installs on a disk that is full, and on roomier ones in steps of a block: one that is committed, one that waits,
# two that ask for a reboot, and one that fails and is taken back. Where there is too little room, an install has to end as
# a plain failure, and the old has to be held once the deployment was gone on with: no end may be that of another module.
# It mounts file systems in memory, and one of ext4 in a file where that can be had, so it needs root. Run by hand over a
# program that was built.
# usage: bench/full.sh [PROGRAM]
set -u
program=$(realpath "${1:-$(dirname "$0")/../crates/client_cli/out/client_cli}")
if [ "$(id -u)" != 0 ]; then
    echo "full.sh mounts file systems, so it needs root"
    exit 0
fi
work=$(mktemp -d)
disk=$work/disk
data=$disk/data
mkdir "$disk"
trap 'umount "$disk" 2> /dev/null; rm -rf "$work"' EXIT
trap 'exit 2' HUP INT TERM
passed=0
failed=0

# a tree of one payload of 5,000 bytes
mkdir -p "$work/tree/header/headers/0000" "$work/tree/data/0000"
(
    cd "$work/tree" || exit 1
    head -c 5000 /dev/zero > data/0000/app.bin
    printf '{"format":"mender","version":3}' > version
    printf '{"payloads":[{"type":"m"}],"artifact_provides":{"artifact_name":"new"},"artifact_depends":{"device_type":["d"]}}' > header/header-info
    printf '{"type":"m"}' > header/headers/0000/type-info
    sha256sum version header/header-info header/headers/0000/type-info data/0000/app.bin > manifest
)

client() { "$program" --data "$data" "$@" 2> /dev/null; }

# a device that holds nothing, with its store and a module that does this
fresh() {
    rm -rf "$data" "$disk/ballast"
    mkdir -p "$data/modules/v3"
    echo device_type=d > "$data/device_type"
    echo exit 0 > "$data/reboot"
    printf '#!/bin/sh\ncase "$1" in\n%s\nesac\nexit 0\n' "$1" > "$data/modules/v3/m"
    chmod 755 "$data/modules/v3/m"
    client show-provides
}

# fills the disk but for so many blocks
leave() {
    sync "$disk"
    room=$(stat -f -c %f "$disk")
    block=$(stat -f -c %S "$disk")
    if [ "$room" -gt "$1" ]; then head -c $(((room - $1) * block)) /dev/zero > "$disk/ballast" 2> /dev/null; fi
}

# goes on with what is in progress, once there is room
settle() {
    rm -f "$disk/ballast"
    for _ in 1 2 3 4 5; do
        client resume > /dev/null
        [ $? = 2 ] && break
    done
}

# tries a module with so many blocks left: how a roomy install ends, and what else it may say
try() {
    fresh "$2"
    leave "$3"
    end=$(client install "$work/tree")
    end="$? $end"
    if [ "$end" = "$4" ]; then return 0; fi
    settle
    held=$(client show-artifact)
    case $end in
        '5 disk fault' | '14 not installed: kept' | '14 not installed: rolled back' | '15 ')
            if [ "$held" = unknown ]; then return 1; fi ;;
    esac
    echo "FAILED  $1 with $3 blocks: $end, and then $held is held"
    return 2
}

# from full to roomy: a module, and the end of a roomy install
steps() {
    roomy=0
    for left in $(seq 0 "$most"); do
        try "$1" "$2" "$left" "$3"
        case $? in
            0) passed=$((passed + 1)); roomy=$((roomy + 1)) ;;
            1) passed=$((passed + 1)) ;;
            *) failed=$((failed + 1)) ;;
        esac
    done
    echo "$kind, $1: $roomy of $((most + 1)) ended as a roomy one, '$3'"
    if [ "$roomy" = 0 ]; then failed=$((failed + 1)); fi
}

# a first start that finds too little room for the store, and the next one
first() {
    rm -rf "$data"
    mkdir "$data"
    echo device_type=d > "$data/device_type"
    leave 10
    client show-provides
    begun=$?
    rm -f "$disk/ballast"
    client show-provides
    begun="$begun $?"
    if [ "$begun" = '15 0' ]; then passed=$((passed + 1)); else
        failed=$((failed + 1))
        echo "FAILED  $kind, a first start without room, and one with it: $begun"
    fi
}

all() {
    first
    yes='SupportsRollback) echo Yes ;;'
    steps 'committed' '' '0 committed'
    steps 'waits' "$yes" '0 waiting'
    steps 'reboots' "$yes
NeedsArtifactReboot) echo Yes ;;" '4 reboot needed'
    steps 'asks for a reboot' "$yes
NeedsArtifactReboot) echo Automatic ;;" '4 reboot needed'
    steps 'fails' "$yes
ArtifactInstall) exit 1 ;;" '14 not installed: rolled back'
}

if mount -t tmpfs -o size=2m none "$disk" 2> /dev/null; then
    kind=tmpfs most=30
    all
    umount "$disk"
else
    echo 'no file system in memory can be mounted here'
fi
head -c 8388608 /dev/zero > "$work/image"
if mkfs.ext4 -q -m 0 -b 4096 "$work/image" 2> /dev/null && mount -o loop "$work/image" "$disk" 2> /dev/null; then
    kind=ext4 most=140
    all
    umount "$disk"
else
    echo 'no ext4 can be mounted here'
fi
echo "$passed passed, $failed failed"
[ "$failed" = 0 ]
