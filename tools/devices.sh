#!/bin/sh
# Goes through deployments on real folders with the built programs: what the client starts, what it answers and what it leaves, trees
# as they lie on disks, stores of version 1, kills, and both modules. Part of the gate, behind `rt ci`, which leaves the programs in
# crates/*/out/. It needs sh and coreutils.
# usage: devices.sh
# PROGRAMS in the environment is the absolute path of a folder with the programs, where they don't stand in crates/*/out/.
# exit: 0 each row is as it should be; 1 one isn't; the last line is 'N passed, M failed'
set -u
export LC_ALL=C
top=$(cd "$(dirname "$0")/.." && pwd)
work=$(mktemp -d)
trap 'chmod -R u+rwX "$work"; rm -rf "$work"' EXIT
trap 'exit 1' HUP INT TERM
. "$top/tools/rows.sh"

# Goes into the new folder $1 with a device of the type beaglebone and its data folder `mender-data`.
begin() {
    mkdir "$work/$1" && cd "$work/$1" || exit 1
    mkdir mender-data
    echo device_type=beaglebone > mender-data/device_type
}

# Goes into the new folder $1 with a device whose module `app` notes its words in `calls`, and then does what the file of this name in
# the data folder says; and with the tree `tree` of release-2, which has a script.
deploy() {
    begin "$1"
    mkdir -p mender-data/modules/v3
    cat > mender-data/modules/v3/app << 'END'
#!/bin/sh
printf '%s ' "$1" >> ../../calls
if test -f "../../$1"; then . "../../$1"; fi
exit 0
END
    chmod 755 mender-data/modules/v3/app
    tree tree release-2 app ',"artifact_provides":{"app.version":"2"}'
    mkdir tree/header/scripts
    echo 'printf "script " >> calls' > tree/header/scripts/ArtifactInstall_Enter_00
    (cd tree && sha256sum header/scripts/ArtifactInstall_Enter_00 >> manifest)
}

# A command of the client, $2: its exit status $1, its text $3 and the calls $4 that it makes.
does() {
    # shellcheck disable=SC2086 # the words are parted here
    ends "$1" "$2" client $2
    says "$3"
    found=$(cat mender-data/calls 2> /dev/null)
    rm -f mender-data/calls
    if [ "$found" = "$4" ]; then
        passed=$((passed + 1))
    else
        failed=$((failed + 1))
        echo "$title: it called '$found', not '$4'"
    fi
}

# ---- deployments

deploy installed
does 0 'check tree' admitted ''
mkdir mender-data/scripts
echo 'printf "own " >> calls' > mender-data/scripts/Download_Enter_00
does 0 'install tree' committed 'own Download SupportsRollback script ArtifactInstall NeedsArtifactReboot ArtifactCommit Cleanup '
holds 'the payload stays where the module had it' 'cmp tree/data/0000/app.bin mender-data/work/0000/files/app.bin'
does 0 show-provides 'app.version=2
artifact_name=release-2' ''
does 0 show-artifact release-2 ''
does 0 show-deployment '1 Idle Committed' ''
does 2 resume 'no update' ''
rm tree/version
does 1 'install tree' 'refused 7 version' ''

deploy waiting
installs='Download SupportsRollback script ArtifactInstall NeedsArtifactReboot '
echo 'echo Yes' > mender-data/SupportsRollback
does 0 'install tree' waiting "$installs"
does 0 show-deployment '1 Wait Undecided' ''
does 0 show-artifact unknown ''
does 13 'install tree' 'not now 1 Wait' ''
does 0 'resume --stop-before ArtifactCommit' waiting ''
does 0 rollback 'rolled back' 'ArtifactRollback ArtifactFailure Cleanup '
does 0 show-deployment '1 Idle RolledBack' ''
does 0 'install tree' waiting "$installs"
does 0 commit committed 'ArtifactCommit Cleanup '
does 0 show-deployment '2 Idle Committed' ''

deploy rebooted
echo 'echo Yes' | tee mender-data/SupportsRollback > mender-data/NeedsArtifactReboot
does 4 'install tree' 'reboot needed' "${installs}ArtifactReboot "
does 0 show-deployment '1 Reboot Undecided' ''
does 0 'resume --stop-before ArtifactCommit' waiting 'ArtifactVerifyReboot '
does 0 resume committed 'ArtifactCommit Cleanup '

deploy taken-back-by-a-reboot
echo 'echo Yes' > mender-data/SupportsRollback
echo 'echo Automatic' > mender-data/NeedsArtifactReboot
echo 'exit 1' > mender-data/ArtifactVerifyReboot
echo 'printf "reboot " >> calls' > mender-data/reboot
does 4 'install tree' 'reboot needed' "${installs}reboot "
does 4 resume 'reboot needed' 'ArtifactVerifyReboot ArtifactRollback reboot '
does 14 resume 'not installed: rolled back' 'ArtifactVerifyRollbackReboot ArtifactFailure Cleanup '

deploy failed
echo 'exit 1' > mender-data/Download
does 14 'install tree' 'not installed: kept' 'Download Cleanup '
rm mender-data/Download
echo 'exit 1' > mender-data/ArtifactInstall
echo 'echo Yes' > mender-data/SupportsRollback
does 14 'install tree' 'not installed: rolled back' \
    'Download SupportsRollback script ArtifactInstall ArtifactRollback ArtifactFailure Cleanup '
rm mender-data/SupportsRollback
does 3 'install tree' inconsistent 'Download SupportsRollback script ArtifactInstall ArtifactFailure Cleanup '
does 0 show-artifact release-2_INCONSISTENT ''
does 0 show-provides 'app.version=2
artifact_name=release-2_INCONSISTENT' ''
does 0 show-deployment '3 Idle Inconsistent' ''

# ---- kills

# Installs the tree, with a copy of the data folder made by the module in the state $1. That is what a client leaves which is killed
# there.
kill_in() {
    rm -rf killed
    echo 'cp -R ../.. ../../../killed' > "mender-data/$1"
    client install tree > out 2>&1
    client commit > out 2>&1
    rm killed/calls "killed/$1" "mender-data/$1"
    rm -f mender-data/calls
}

# The same as `does`, of the copy.
goes_on() {
    ends "$1" "$2" client --data killed $2
    says "$3"
}

# Sees that the copy's client made these calls in all.
called() {
    holds "the calls behind a kill: $1" "test \"\$(cat killed/calls)\" = '$1'"
}

deploy kills
echo 'echo Yes' > mender-data/SupportsRollback
kill_in ArtifactInstall
goes_on 13 rollback 'not now 2 Install'
goes_on 13 'install tree' 'not now 1 Install'
goes_on 14 resume 'not installed: rolled back'
goes_on 2 resume 'no update'
called 'ArtifactRollback ArtifactFailure Cleanup '
kill_in ArtifactCommit
goes_on 13 commit 'not now 2 Commit'
goes_on 14 resume 'not installed: rolled back'
called 'ArtifactRollback ArtifactFailure Cleanup '

deploy kills-at-both-ends
kill_in Download
goes_on 0 show-deployment '1 Download Undecided'
goes_on 14 resume 'not installed: kept'
called 'Cleanup '
kill_in Cleanup
goes_on 0 show-deployment '2 Cleanup Committed'
goes_on 0 resume committed
called 'Cleanup '

# ---- stores of version 1

# Writes a store with a record of version 1 in slot 0, a deployment of release-2 whose state and count are the printf text $1 and whose
# outcome is $2. It ends there.
store_of() {
    {
        head -c 4096 /dev/zero
        printf "MUP1$1\\002\\000\\000$2\\000\\000\\000\\000\\000\\000\\113\\000\\000"
        printf '\000\002\000\013app.version\000\0012\000\015artifact_name\000\011release-2\013single-file\000'
    } > mender-data/store
}

begin migrated
store_of '\000' '\005'
held='app.version=2
artifact_name=release-2'
does 0 show-provides "$held" ''
holds 'a store is grown' 'test $(wc -c < mender-data/store) = 266240'
holds 'the first selector chooses slot 1' 'test "$(head -c 1 mender-data/store | od -An -tu1 | tr -d " ")" = 1'
holds 'the old record stands' 'test "$(head -c 4100 mender-data/store | tail -c 4)" = MUP1'
holds 'the new record is one of version 2' \
    'test "$(head -c 135184 mender-data/store | tail -c 16 | od -An -tx1)" = " 4d 55 50 32 00 02 00 00 05 01 00 00 00 00 00 4b"'
cp mender-data/store before
does 0 show-provides "$held" ''
holds 'it is not written again' 'cmp before mender-data/store'

begin resumed
store_of '\013' '\004'
mkdir -p mender-data/modules/v3
printf '#!/bin/sh\necho not for the client\necho "$# $1 $2" > words\nexit 3\n' > mender-data/modules/v3/single-file
chmod 755 mender-data/modules/v3/single-file
does 0 show-deployment '0 Cleanup Committed' ''
does 0 resume committed ''
holds 'a module is told its state and its folder' \
    'cd mender-data/work/0000 && test "$(cat words)" = "2 Cleanup $(pwd -P)"'
does 0 show-deployment '0 Idle Committed' ''

# ---- trees

begin trees
tree tree release-2 single-file ',"artifact_provides":{"app.version":"2"},"clears_artifact_provides":["app.*"]'
does 0 'check tree' admitted ''
mkdir tree/data/0000/empty
does 0 'check tree' admitted ''
mv tree/version v
ln -s ../v tree/version
does 0 'check tree' admitted ''
mv tree t
ln -s t tree
does 0 'check tree' admitted ''
printf abd > tree/data/0000/app.bin
ends 1 'a payload with another sum' client check tree
holds 'both sums are told' 'grep -q "^refused 18 data/0000/app.bin [0-9a-f]\{64\} [0-9a-f]\{64\}$" out'
printf abc > tree/data/0000/app.bin
touch tree/data/0000/more
does 1 'check tree' 'refused 10 data/0000/more' ''
rm tree/data/0000/more
touch "tree/data/0000/$(printf %0200d 0)"
does 1 'check tree' 'refused 5 0' ''
rm tree/data/0000/0*

# What is no file is never opened.
mkfifo tree/data/0000/pipe
does 6 'check tree' 'source fault' ''
rm tree/data/0000/pipe
ln -s .. tree/data/0000/up
does 6 'check tree' 'source fault' ''
rm tree/data/0000/up
ln -s nowhere tree/data/0000/gone
does 6 'check tree' 'source fault' ''
rm tree/data/0000/gone
touch "$(printf 'tree/data/0000/a\377')"
does 6 'check tree' 'source fault' ''
rm tree/data/0000/a?
i=0
while [ $i -lt 900 ]; do
    : > tree/data/0000/file-$i
    i=$((i + 1))
done
does 1 'check tree' 'refused 3 905' ''
rm -r t
touch t
does 15 'check tree' '' ''
tells 'cannot start 6'
rm tree
does 15 'check tree' '' ''
tells 'cannot start 6'

# ---- words

begin words
rm -r mender-data
does 9 '' 'usage 1' ''
does 9 '--data d' 'usage 1' ''
does 9 '--help' 'usage 2 0' ''
does 9 '--data d instal tree' 'usage 2 2' ''
does 0 'simulate 1 0' 'rounds 0 committed 0 rolled-back 0 inconsistent 0 kept 0' ''
does 0 '--data d simulate 1 0' 'rounds 0 committed 0 rolled-back 0 inconsistent 0 kept 0' ''
does 9 '--data d simulate 1 1001' 'usage 5 4' ''
does 9 install 'usage 3' ''
does 9 'commit now' 'usage 4 1' ''
does 9 'resume --stop-before Download' 'usage 4 2' ''
does 9 'simulate x 1' 'usage 5 1' ''
holds 'wrong words ask for no folder' 'test ! -e mender-data'
# a word that is no text keeps its place
ends 9 'a word that is no text' client --data "$(printf 'caf\377')" "$(printf 'instal\377')"
says 'usage 2 2'
ends 9 'an empty word' client --data '' ''
says 'usage 2 2'

begin starts
does 15 '--data nowhere install nowhere' '' ''
tells 'cannot start 1'
ends 15 'an empty data folder' client --data '' commit
tells 'cannot start 1'
does 15 'install nowhere' '' ''
tells 'cannot start 6'
ends 15 'an empty tree' client check ''
tells 'cannot start 6'
does 15 '--data mender-data check nowhere' '' ''
tells 'cannot start 6'
does 0 '--data mender-data/ show-artifact' unknown ''
does 0 show-deployment none ''
does 0 show-provides '' ''
does 2 rollback 'no update' ''

# What failed first is told on standard error.
does 0 show-artifact unknown ''
holds 'nothing failed' 'test ! -s err'
does 15 '--data nowhere commit' '' ''
tells 'nowhere: No such file or directory (os error 2)'
does 15 'check nowhere' '' ''
tells 'nowhere/: No such file or directory (os error 2)'
mkdir tree
mkfifo tree/version
does 6 'check tree' 'source fault' ''
tells 'tree/version: invalid input parameter'

# ---- the module that replaces one file

# The module's word $1 is done, behind which the target holds $2 and what is saved $3; `-` is no file.
replaces() {
    ends 0 "$1" file_module "$1" module/work/0000
    if [ "$2" = - ]; then
        holds 'no target' 'test ! -e module/root/target'
    else
        holds 'the target' "printf $2 | cmp - module/root/target"
    fi
    if [ "$3" = - ]; then
        holds 'nothing is saved' 'test ! -e module/root/target.saved'
    else
        holds 'what is saved' "printf '$3' | cmp - module/root/target.saved"
    fi
}

# A deployment that is undone and one that stays, from a target of the bytes $1; what is saved of it is $2.
go_through() {
    replaces Download "$1" -
    replaces ArtifactInstall abc "$2"
    replaces ArtifactInstall abc "$2"
    replaces ArtifactRollback "$1" "$2"
    replaces ArtifactRollback "$1" "$2"
    replaces Cleanup "$1" -
    replaces Download "$1" -
    replaces ArtifactRollback "$1" -
    replaces ArtifactInstall abc "$2"
    replaces ArtifactCommit abc "$2"
    replaces Cleanup abc -
    holds 'nothing fresh is left' 'test ! -e module/root/target.fresh'
}

begin file-module
mkdir -p module/work/0000/files
printf abc > module/work/0000/files/app.bin
ends 3 'no folder for the target' file_module ArtifactInstall module/work/0000
mkdir module/root
go_through - '\000'
holds 'a new target can be read by all' 'test $(stat -c %a module/root/target) = 644'
printf old > module/root/target
chmod 750 module/root/target
go_through old '\001old'
holds 'a target keeps its mode' 'test $(stat -c %a module/root/target) = 750'
printf abc > module/work/0000/files/other
ends 2 'a second payload file' file_module Download module/work/0000

begin file-module-link
mkdir -p module/work/0000/files module/root
printf abc > module/work/0000/files/app.bin
printf old > module/root/target
ends 0 'an install' file_module ArtifactInstall module/work/0000
mv module/root/target module/root/elsewhere
ln -s elsewhere module/root/target
for word in Download ArtifactInstall ArtifactRollback; do
    ends 3 "a link in the target's place: $word" file_module $word module/work/0000
    holds 'it is left' 'test -L module/root/target'
    holds 'it is told' 'grep -q "/root/target: it isn.t a regular file$" err'
done
holds 'what was saved stays' "printf '\\001old' | cmp - module/root/target.saved"
holds 'what the link leads to stays' 'printf abc | cmp - module/root/elsewhere'

# ---- the module for two partitions

# Sees that the disk has the bytes of the printf text $2 at the offset $1.
has() {
    # shellcheck disable=SC2059 # the text is one for printf
    printf "$2" > wanted
    dd if=device/blocks bs=1 skip="$1" count="$(wc -c < wanted)" of=there 2> /dev/null
    holds "the disk at $1" 'cmp there wanted'
}

begin two-partitions
mkdir -p device/work/0000/files device/work/0000/header
sum=$(printf abc | sha256sum | head -c 64)
printf '{"type":"ab-image","artifact_provides":{"rootfs-image.checksum":"%s"}}' "$sum" > device/work/0000/header/type-info
printf abc > device/work/0000/files/rootfs.img
ab() {
    ends "$1" "$2" ab_image "$2" device/work/0000
}
ab 15 Download
mkdir device/blocks
ab 15 Download
rmdir device/blocks
head -c 8191 /dev/zero > device/blocks
ab 15 Download
holds 'what is no disk stays' 'test $(wc -c < device/blocks) = 8191'
head -c 12288 /dev/zero > device/blocks
ab 6 ArtifactCommit
ab 0 Download
holds 'its size stays' 'test $(wc -c < device/blocks) = 12288'
has 0 '\000'
has 3072 '\000\000\000\000\000\000\000\003\272\170\026\277\217\001\317\352\101\101\100\336\135\256\042\043\260\003\141\243\226\027\172\234\264\020\377\141\362\000\025\255'
has 8192 'abc\000'
ab 0 ArtifactCommit
has 0 '\001'
has 1024 '\000'
ab 0 ArtifactRollback
has 0 '\000'
ab 0 ArtifactCommit
ab 0 Cleanup
has 0 '\001'
has 1024 '\001'
printf abd > device/work/0000/files/rootfs.img
ab 5 Download
bytes 4097 > device/work/0000/files/rootfs.img
ab 4 Download
printf abc > device/work/0000/files/other
ab 2 Download
ab 1 Restart

# ---- the writer of trees

begin written
mkdir files tree
printf abc > files/app.bin
tree_here() {
    ends "$1" "$2" tree_cli files "$2" release-2 beaglebone single-file -
}
tree_here 0 tree
holds 'the payload' 'cmp files/app.bin tree/data/0000/app.bin'
holds 'its type-info' 'printf "{\"type\":\"single-file\"}" | cmp - tree/header/headers/0000/type-info'
holds 'its sum in the manifest' 'grep -q "^$(sha256sum < files/app.bin | head -c 64)  data/0000/app.bin$" tree/manifest'
tree_here 15 tree
tells 'tree: directory not empty'
tree_here 15 files/app.bin
tells 'files/app.bin: not a directory'
does 0 'check tree' admitted ''

# ---- long work says so

begin progress
tree tree release-2 app
truncate -s 1000000000 tree/data/0000/app.bin
list tree
CLIENT_PROGRESS=1 client check tree > out 2> err
holds 'a long check says how far it is' 'grep -q "^[0-9]* of 953 MiB$" err && test "$(cat out)" = admitted'
client check tree > out 2> err
holds 'it says nothing unasked' 'test ! -s err'

cd "$work" || exit 1
sum_up
