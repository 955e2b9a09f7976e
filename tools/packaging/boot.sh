#!/bin/sh
# The device's part of each boot: goes on with a deployment, tries the new where it waits, and keeps it or takes it back. It is
# installed as /usr/sbin/update-boot. /etc/update-client/try is the maker's own program, which ends with 0 where the new works; where
# there is none the new is kept. /etc/update-client/running is the maker's too, for the module of two partitions: it says 0 or 1,
# the partition that runs.
# exit: 0 it ended, nothing was in progress, or a reboot was asked for; else the client's exit status
data=${UPDATE_DATA:-/data/mender}
own=${UPDATE_OWN:-/etc/update-client}

client() { client_cli --data "$data" "$@"; }

# The partition that is chosen, by the first byte of the module's disk; 2 where that can't be read, and then nothing reboots.
chosen() {
    byte=$(od -An -tu1 -N1 "$data/blocks" 2> /dev/null) && [ -n "$byte" ] && echo $((byte % 2)) || echo 2
}

text=$(client resume --stop-before ArtifactCommit)
status=$?
echo "resume: $text ($status)"
if [ "$status $text" = '0 waiting' ]; then
    order=commit
    if [ -x "$own/try" ] && ! "$own/try"; then
        order=rollback
    fi
    text=$(client $order)
    status=$?
    echo "$order: $text ($status)"
fi
# What runs has to be what is chosen, before anything is installed again: the other one is written over.
case $status in
    0 | 2 | 14)
        if [ -x "$own/running" ] && now=$("$own/running") && [ "$now" = $((1 - $(chosen))) ]; then
            echo "reboot: $now runs and isn't chosen"
            systemctl reboot
        fi
        exit 0
        ;;
    3 | 4) exit 0 ;;
    *) exit $status ;;
esac
