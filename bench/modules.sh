#!/bin/sh
# Takes the update modules of Debian's package mender-client, as they are, through `install`, `commit`, `rollback` and `resume`
# behind a kill: single-file, directory, script, and deb with a stand-in for dpkg. The package is unpacked into a folder that is
# taken away at the end; it is never installed, and nothing of it but the modules is started. Where it can't be had a line says
# so and nothing is tried. Run by hand over the programs that the gate built; the gate doesn't call it.
# usage: bench/modules.sh [CLIENT]
# exit: 0 each came to what is wanted, or all was skipped; 1 one didn't
set -u
here=$(cd "$(dirname "$0")" && pwd)
program=${1:-$here/../crates/client_cli/out/client_cli}
[ -x "$program" ] || { echo "there is no program $program: the gate builds it"; exit 1; }
program=$(realpath "$program")
writer=$(realpath "$here/../crates/tree_cli/out/tree_cli") && [ -x "$writer" ] || { echo "there is no tree_cli: the gate builds it"; exit 1; }
work=$(mktemp -d)
trap 'rm -rf "$work"' EXIT
cd "$work" || exit 1

mkdir package
chmod 755 . package
(cd package && apt-get download mender-client && dpkg -x mender-client_*.deb .) > log 2>&1
modules=$work/package/usr/share/mender/modules/v3
[ -d "$modules" ] || { echo 'skipped: the package mender-client cannot be had'; exit 0; }
echo "modules of $(basename package/*.deb .deb)"

failed=0
told() {
    if [ "$2" = "$3" ]; then echo "ok      $1"; else echo "FAILED  $1: $2, not $3"; failed=1; fi
}

# The exit status and the text of a command of the client, whose number of its process the stand-ins find in `client`.
client() {
    PATH=$work/stand-ins:$PATH "$program" "$@" > out 2> err &
    echo $! > client
    wait $! 2> /dev/null
    echo "$? $(cat out)"
}

# Makes the tree $1 of a payload of the type $2, whose files are in the folder files.
tree() {
    rm -rf "$1"
    "$writer" files "$1" "$1" sample "$2" - || exit 1
    rm files/*
}

# A stand-in for the program $1, which does what the program does. Where the file `countdown` has a number, it ends the module
# and the client at its call of that number, before it does anything, as a loss of power would.
stand_in() {
    cat > "stand-ins/$1" << END
#!/bin/sh
if [ -e $work/countdown ]; then
    at=\$((\$(cat $work/countdown) - 1))
    echo \$at > $work/countdown
    if [ \$at = 0 ]; then
        rm $work/countdown
        kill -9 \$(cat $work/client) \$PPID
        exit 1
    fi
fi
exec $(command -v "$1") "\$@"
END
    chmod 755 "stand-ins/$1"
}

mkdir -p stand-ins files mender-data/modules/v3 place
echo device_type=sample > mender-data/device_type
for name in single-file directory script deb; do
    cp "$modules/$name" mender-data/modules/v3/
done

# A module that can take back: $1 is its type; the trees release-1 and release-2 are there, `show` prints what is installed, and
# the further words are calls of a stand-in at which the client and the module are killed.
both_ways() {
    type=$1
    shift
    for order in commit rollback; do
        told "$type: install" "$(client install release-2)" '0 waiting'
        told "$type: it is the new" "$(show)" new
        told "$type: show-deployment" "$(client show-deployment | cut -d ' ' -f 3-)" 'Wait Undecided'
        if [ $order = commit ]; then
            told "$type: commit" "$(client commit)" '0 committed'
            told "$type: it is the new" "$(show)" new
            told "$type: back to the old" "$(client install release-1)" '0 waiting'
            told "$type: resume" "$(client resume)" '0 committed'
        else
            told "$type: rollback" "$(client rollback)" '0 rolled back'
        fi
        told "$type: it is the old" "$(show)" old
    done
    for at in "$@"; do
        echo "$at" > countdown
        told "$type: killed at call $at" "$(client install release-2)" '137 '
        told "$type: show-deployment" "$(client show-deployment | cut -d ' ' -f 3-)" 'Install Undecided'
        told "$type: install is not now" "$(client install release-2)" '13 not now 1 Install'
        told "$type: resume" "$(client resume)" '14 not installed: rolled back'
        told "$type: it is the old" "$(show)" old
    done
    told "$type: show-artifact" "$(client show-artifact)" '0 release-1'
}

# A module that can't take back. The tree good goes well, and bad fails.
one_way() {
    told "$1: install" "$(client install good)" '0 committed'
    told "$1: it is the new" "$(cat place/ran)" good
    told "$1: commit" "$(client commit)" '2 no update'
    told "$1: rollback" "$(client rollback)" '2 no update'
    told "$1: a payload that fails" "$(client install bad)" '3 inconsistent'
    told "$1: show-artifact" "$(client show-artifact)" '0 bad_INCONSISTENT'
    told "$1: install of the good one again" "$(client install good)" '0 committed'
    echo 1 > countdown
    told "$1: killed" "$(client install good)" '137 '
    told "$1: resume" "$(client resume)" '3 inconsistent'
    told "$1: install of the good one again" "$(client install good)" '0 committed'
    told "$1: show-artifact" "$(client show-artifact)" '0 good'
    rm -r place/*
}

stand_in sync
for release in 1 2; do
    echo "$work/place" > files/dest_dir
    echo app > files/filename
    echo 755 > files/permissions
    [ $release = 1 ] && echo old > files/app || echo new > files/app
    tree release-$release single-file
done
show() { cat place/app; }
echo old > place/app
client install release-1 > log
client commit > log
both_ways single-file 1 2 3 4
told 'single-file: the rights' "$(stat -c %a place/app)" 755
rm -r stand-ins/sync place/*

stand_in tar
for release in 1 2; do
    mkdir app app/below
    [ $release = 1 ] && echo old > app/below/text || echo new > app/below/text
    [ $release = 1 ] || echo more > app/more
    echo "$work/place/app" > files/dest_dir
    tar -cf files/update.tar -C app .
    tree release-$release directory
    rm -r app
done
show() { cat place/app/below/text && [ ! -e place/app/more ] || [ "$(cat place/app/below/text)" = new ] || echo more; }
client install release-1 > log
client commit > log
both_ways directory 1 2
rm -r stand-ins/tar place/*

# The payload's own program is what is killed: the name `true` is looked up in PATH.
stand_in env
for name in good bad; do
    printf '#!/bin/sh\nenv true || exit 1\necho %s > %s/place/ran\n[ %s = good ]\n' $name "$work" $name > files/run
    tree $name script
done
one_way script
rm stand-ins/env

cat > stand-ins/dpkg << END
#!/bin/sh
# In the place of dpkg: "installs" packages that are texts.
[ "\$1" = -i ] || exit 2
env true || exit 1
cat "\$2" > $work/place/ran
grep -q good "\$2"
END
chmod 755 stand-ins/dpkg
stand_in env
for name in good bad; do
    echo $name > files/app_1_all.deb
    tree $name deb
done
one_way deb

for name in single-file directory script deb; do
    cmp "$modules/$name" "mender-data/modules/v3/$name" || failed=1
done
exit $failed
