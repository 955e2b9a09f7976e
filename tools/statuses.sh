#!/bin/sh
# Starts the built programs so that nearly each exit status comes that files can bring about, and compares it with what the
# documents say. No proof reaches what a program's `main` ends with. Part of the gate, behind `rt ci`, which leaves the programs in
# crates/*/out/. It needs sh and coreutils.
# usage: statuses.sh
# PROGRAMS in the environment is the absolute path of a folder with the programs, where they don't stand in crates/*/out/.
# exit: 0 each is as it should be; 1 one isn't; the last line is 'N passed, M failed'
set -u
export LC_ALL=C
top=$(cd "$(dirname "$0")/.." && pwd)
work=$(mktemp -d)
trap 'rm -rf "$work"' EXIT
trap 'exit 1' HUP INT TERM
cd "$work" || exit 1
. "$top/tools/rows.sh"

tree app release-2 app
tree other release-2 app
printf abd > other/data/0000/app.bin

# What a release expects of each program.
. "$top/tools/programs.sh"
for name in $programs; do
    first_try "$name" "$(program "$name")" first
    echo "$found" > out
    title="the first try of $name"
    says "$wanted"
done

# The client: what needs no deployment.
device d < /dev/null
ends 0 'an empty store' client --data d show-provides
says ''
ends 0 'a tree that would be taken' client --data d check app
says admitted
ends 1 'a payload with another sum' client --data d check other
says "refused 18 data/0000/app.bin $(printf abc | sha256sum | head -c 64) $(printf abd | sha256sum | head -c 64)"
ends 1 'the same, to install' client --data d install other
ends 2 'a resume of nothing' client --data d resume
says 'no update'
ends 9 'no words' client
says 'usage 1'
ends 9 'a word that is none' client --help
says 'usage 2 0'
ends 0 'no round' client simulate 1 0
says 'rounds 0 committed 0 rolled-back 0 inconsistent 0 kept 0'
ends 15 'no data folder' client --data none show-provides
tells 'cannot start 1'
ends 15 'no tree' client --data d check none
tells 'cannot start 6'
mkdir empty
ends 15 'no device type' client --data empty show-provides
tells 'cannot start 2'
echo type=beaglebone > empty/device_type
ends 15 'a device type that is none' client --data empty show-provides
tells 'cannot start 3'
ends 8 'a full standard output' sh -c '"$1" --data d show-artifact > /dev/full' sh "$(program client_cli)"
mkfifo app/data/0000/fifo
ends 6 'a tree with a fifo' client --data d check app
says 'source fault'
rm app/data/0000/fifo
cp d/store whole
printf '\001' | dd of=d/store bs=1 seek=4096 conv=notrunc 2> err
ends 11 'a damaged store' client --data d show-artifact
says 'bad store 0'

# The client: a record that would have one byte more than fits.
device d < /dev/null
{
    head -c 4096 /dev/zero
    printf 'MUP2\000\002\000\000\005\001\000\007\000\000\377\374\000\000\000A\000\015artifact_name\000\003r22'
    for i in 0 1 2 3 4 5; do
        for j in 0 1 2 3 4 5 6 7 8 9; do
            printf '\000\003b%s%s\004\000' $i $j
            bytes 1024
        done
    done
    for j in 0 1 2; do
        printf '\000\003b6%s\004\000' $j
        bytes 1024
    done
    printf '\000\003b63\002\021'
    bytes 529
    printf '\001x\000'
} > d/store
tree large release-2 single-file ',"artifact_provides":{"app.version":"2"},"clears_artifact_provides":["app.*"]'
ends 12 'a record that is too large' client --data d install large
says 'too large 131073'

# The client: deployments.
device d << 'END'
case $1 in NeedsArtifactReboot) echo No ;; esac
END
ends 0 'an install at once' client --data d install app
says committed
ends 0 'what is held' client --data d show-artifact
says release-2

device d << 'END'
case $1 in SupportsRollback) echo Yes ;; NeedsArtifactReboot) echo No ;; esac
END
ends 0 'an install that waits' client --data d install app
says waiting
ends 13 'another install' client --data d install app
says 'not now 1 Wait'
ends 0 'it is taken back' client --data d rollback
says 'rolled back'

device d << 'END'
case $1 in NeedsArtifactReboot) echo Automatic ;; esac
END
echo : > d/reboot
ends 4 'an install that needs a reboot' client --data d install app
says 'reboot needed'
ends 13 'an order before the reboot that cannot be taken back' client --data d rollback
says 'not now 3 Reboot'

device d << 'END'
[ "$1" != ArtifactInstall ]
END
ends 3 'an install that fails and cannot be taken back' client --data d install app
says inconsistent
ends 0 'what is held' client --data d show-artifact
says release-2_INCONSISTENT

device d << 'END'
[ "$1" != Download ]
END
ends 14 'a download that fails' client --data d install app
says 'not installed: kept'

device d << 'END'
case $1 in SupportsRollback) echo Yes ;; esac
[ "$1" != ArtifactInstall ]
END
ends 14 'an install that fails and is taken back' client --data d install app
says 'not installed: rolled back'

device d << 'END'
case $1 in SupportsRollback) echo Yes ;; ArtifactInstall) kill -9 $PPID ;; esac
END
ends 137 'a client that is killed' client --data d install app
ends 13 'an order to an interrupted deployment' client --data d commit
says 'not now 2 Install'
ends 14 'it is gone on with' client --data d resume
says 'not installed: rolled back'

# The module that replaces one file.
folder=f/work/0000
mkdir -p $folder/files f/root
echo old > f/root/target
echo new > $folder/files/app.bin
ends 0 'the file module is asked' file_module SupportsRollback $folder
says Yes
ends 1 'one word' file_module SupportsRollback
ends 1 'a word that is none' file_module Support $folder
ends 15 'no work folder' file_module Download f/work/none
tells 'cannot start 6'
ends 0 'it installs' file_module ArtifactInstall $folder
ends 0 'it installed' cmp f/root/target $folder/files/app.bin
ends 0 'it takes back' file_module ArtifactRollback $folder
ends 0 'what it saved is removed' file_module Cleanup $folder
echo more > $folder/files/more
ends 2 'two payload files' file_module Download $folder
rm $folder/files/more $folder/files/app.bin
mkfifo $folder/files/app.bin
ends 4 'a payload that is a fifo' file_module ArtifactInstall $folder
rm $folder/files/app.bin
echo new > $folder/files/app.bin
ends 5 'a reply that is not written' sh -c '"$1" SupportsRollback "$2" > /dev/full' sh "$(program file_module_cli)" $folder
echo x > f/root/target.saved
echo other > f/root/target
ends 7 'a saved file of another program' file_module ArtifactRollback $folder
rm f/root/*
mkdir f/root/target
ends 3 'a target that is a folder' file_module ArtifactInstall $folder

# The module for two partitions.
folder=a/work/0000
mkdir -p $folder/files $folder/header
head -c 8192 /dev/zero > a/blocks
printf abc > $folder/files/image
info() {
    printf '{"type":"ab-image","artifact_provides":{"rootfs-image.checksum":"%s"}}' "$1" > $folder/header/type-info
}
info "$(printf abc | sha256sum | head -c 64)"
ends 0 'the module for two partitions is asked' ab_image NeedsArtifactReboot $folder
says No
ends 15 'one word' ab_image SupportsRollback
tells 'cannot start 5'
ends 1 'a word that is none' ab_image Support $folder
ends 15 'no work folder' ab_image Download a/work/none
tells 'cannot start 6'
ends 6 'a commit without a download' ab_image ArtifactCommit $folder
ends 0 'it downloads' ab_image Download $folder
ends 0 'it commits' ab_image ArtifactCommit $folder
ends 0 'it takes back' ab_image ArtifactRollback $folder
ends 5 'an image with another sum' sh -c 'printf abd > "$2/files/image"; "$1" Download "$2"' sh "$(program ab_image_cli)" $folder
bytes 2049 > $folder/files/image
info "$(sha256sum < $folder/files/image | head -c 64)"
ends 4 'an image that is too long' ab_image Download $folder
info none
ends 3 'no listed sum' ab_image Download $folder
echo more > $folder/files/more
ends 2 'two payload files' ab_image Download $folder
rm $folder/files/more $folder/files/image
mkfifo $folder/files/image
info "$(printf abc | sha256sum | head -c 64)"
ends 8 'a payload that is a fifo' ab_image Download $folder
ends 9 'a reply that is not written' sh -c '"$1" SupportsRollback "$2" > /dev/full' sh "$(program ab_image_cli)" $folder
rm a/blocks
ends 15 'no disk' ab_image Cleanup $folder
tells 'cannot start 5'

# The writer of trees.
mkdir payload
echo abc > payload/app.bin
ends 0 'a tree is written' tree_cli payload written release-3 beaglebone app -
ends 0 'it would be taken' client --data d check written
says admitted
ends 2 'three words behind the folders' tree_cli payload other-tree release-3 beaglebone app
ends 1 'a payload type with a slash' tree_cli payload other-tree release-3 beaglebone a/b -
ends 15 'a folder that is there already' tree_cli payload written release-3 beaglebone app -
tells 'cannot start 6'
mkfifo payload/fifo
ends 4 'a fifo among the files' tree_cli payload other-tree release-3 beaglebone app -

# The checker of transcripts.
mkdir notes
ends 1 'no transcript' trace_cli notes
says 'no trace'
cp "$top/crates/trace_cli/data/folder/trace" whole
cp whole notes/trace
ends 0 'a boot as the flow has it' trace_cli notes
says path
sed '/^module 0 Cleanup$/d' whole > notes/trace
ends 3 'an answer without a call' trace_cli notes
says 'broken 0 10'
sed 's/^exit 0$/exit 00/' whole > notes/trace
ends 2 'a number with a leading zero' trace_cli notes
says 'bad line 5'
sed 's/^module 0 ArtifactCommit$/module 0 ArtifactRollback/' whole > notes/trace
ends 3 'a rollback in the place of the commit' trace_cli notes
says 'broken 0 8'
cat whole whole > notes/trace
ends 3 'a deployment that is over, from where it began' trace_cli notes
says 'broken 1 0'
truncate -s 33554433 notes/trace
ends 4 'a transcript that is too long' trace_cli notes
says 'too long 33554433'
rm notes/trace
mkfifo notes/trace
ends 5 'a fifo' trace_cli notes
says ''
rm notes/trace
ends 6 'a text that is not written' sh -c '"$1" notes > /dev/full' sh "$(program trace_cli)"
ends 15 'no folder' trace_cli nowhere
ends 15 'two folders' trace_cli notes notes
tells 'usage: trace_cli FOLDER'

# The notes that the client writes of its boots.
client_notes() {
    "$(program client_cli)" --data d --trace "$@"
}

# Sees that the last command wrote $1 and behind it a note, which is put to the others.
notes() {
    head -n 1 out > answer
    sed 1d out > note
    cat note >> notes/trace
    cp answer out
    says "$1"
    ends 0 "$title: its note" trace_cli notes
    says path
}

device d < /dev/null
rm -f notes/trace
ends 0 'an install with its note' client_notes install app
cp out answered
notes committed
sed 's/^kind single-file$/kind app/' whole > out
title='the note of an install'
says "$(sed 1d answered)"
ends 2 'a resume of nothing, with its note' client_notes resume
cp out answered
notes 'no update'
cp answered out
title='the note of nothing'
says "$(printf 'no update\nboot resume\nfrom Idle Committed 0 No 5\nend none')"
ends 1 'a payload with another sum, with its note' client_notes install other
notes "refused 18 data/0000/app.bin $(printf abc | sha256sum | head -c 64) $(printf abd | sha256sum | head -c 64)"
device d <<'END'
case $1 in
SupportsRollback) printf Yes ;;
NeedsArtifactReboot) printf Yes ;;
esac
END
rm -f notes/trace
ends 4 'a reboot that is needed, with its note' client_notes install app
notes 'reboot needed'
ends 13 'an install while one is in progress, with its note' client_notes install app
notes 'not now 1 Reboot'
ends 0 'a stop before the commit, with its note' client_notes resume --stop-before ArtifactCommit
notes waiting
ends 4 'a rollback that needs a reboot, with its note' client_notes rollback
notes 'reboot needed'
ends 14 'the boot behind it, with its note' client_notes resume
notes 'not installed: rolled back'
cp notes/trace several
ends 0 'an answer without a note' client --data d --trace show-artifact
says unknown
ends 0 'a check without a note' client --data d --trace check app
says admitted
cp -r app headless
echo >> headless/manifest
ends 1 'an install of a tree that is refused, without a note' client_notes install headless
says "$(client --data d install headless)"
ends 9 'a trace behind the command' client --data d install --trace app
says 'usage 4 4'
ends 9 'a trace of no command' client --trace
says 'usage 1'
ends 8 'a note that is not written' sh -c '"$1" --data d --trace resume > /dev/full' sh "$(program client_cli)"
sed '/^module 0 ArtifactInstall$/,/^exit 0$/d' several > notes/trace
ends 3 'a note without its install' trace_cli notes
says 'broken 0 4'
sed '/^module 0 ArtifactCommit$/,/^exit 0$/d' whole > notes/trace
ends 3 'a note without its commit' trace_cli notes
says 'broken 0 8'
{ cat whole; sed 's/^from .*/from Idle Committed 0 No 5/' whole; } > notes/trace
ends 0 'two installs in a row' trace_cli notes
says path

# The signature of a manifest, by the key, the manifest and the signature of the program's stored run.
signed_cli() {
    "$(program signed_cli)" "$@"
}
given=$top/crates/signed_cli/data
cp "$given/key.pem" "$given/keys.pem" "$given/manifest" "$given/manifest.sig" .
head -n 9 keys.pem > other.pem

# Sees that the key in the file $2 and the signature in the file $3 of the manifest $4 come to the status $1.
signature() {
    ends "$1" "$2, $3 and $4" signed_cli "$2" "$4" "$3"
    says ''
}

# A signature that isn't one of the manifest.
unsigned() {
    signature 1 key.pem "$1" manifest
    tells "signed_cli: the signature isn't one of this manifest under the key"
}

# A text that is at fault as a key, for the reason $2.
wrong_key() {
    signature 2 "$1" manifest.sig manifest
    tells "signed_cli: the key $2"
}

signature 0 key.pem manifest.sig manifest
signature 0 keys.pem manifest.sig manifest
cat key.pem other.pem > swapped.pem
signature 0 swapped.pem manifest.sig manifest
cat other.pem other.pem > others.pem
signature 1 others.pem manifest.sig manifest
tells "signed_cli: the signature isn't one of this manifest under the key"
signature 1 other.pem manifest.sig manifest
tr -d '\n' < keys.pem > joined.pem
signature 0 joined.pem manifest.sig manifest
fold -w 76 manifest.sig > folded.sig
signature 0 key.pem folded.sig manifest
sed 's/$/\r/' keys.pem > returns.pem
signature 0 returns.pem manifest.sig manifest
tr a b < manifest > changed
signature 1 key.pem manifest.sig changed
tells "signed_cli: the signature isn't one of this manifest under the key"
: > empty.txt
signature 1 key.pem manifest.sig empty.txt
unsigned empty.txt

# Signatures, octet by octet. The modulus of a key of 2,048 bits stands behind 33 octets of its DER form.
base64 -d manifest.sig > raw
sed '/-----/d' key.pem | base64 -d > der
head -c 289 der | tail -c 256 > modulus
head -c 255 raw | base64 > cut.sig
{ cat raw; printf '\001'; } | base64 > longer.sig
{ printf '\000'; cat raw; } | base64 > padded.sig
head -c 256 /dev/zero | base64 > zero.sig
{ head -c 255 /dev/zero; printf '\001'; } | base64 > one.sig
base64 modulus > modulus.sig
for signature in cut longer padded zero one modulus; do
    unsigned $signature.sig
done
tr -d = < manifest.sig > unpadded.sig
sed 's/^..../& /' manifest.sig > blank.sig
for signature in unpadded.sig blank.sig key.pem; do
    signature 1 key.pem $signature manifest
    tells "signed_cli: the signature isn't base64"
done

# The key whose DER form is standard input, as a text.
pem() {
    echo '-----BEGIN PUBLIC KEY-----'
    base64
    echo '-----END PUBLIC KEY-----'
}
# The key by its parts. $1 is what their lengths have more or less than those of the key, $2 what stands before the modulus.
rsa='\0060\0015\0006\0011\0052\0206\0110\0206\0367\0015\0001\0001\0001\0005\0000'
octal() {
    printf '\\0%03o' "$1"
}
key_with() {
    {
        printf '%b' "\\0060\\0202\\0001$(octal $((34 + $1)))$rsa\\0003\\0202\\0001$(octal $((15 + $1)))\\0000"
        printf '%b' "\\0060\\0202\\0001$(octal $((10 + $1)))\\0002\\0202\\0001$(octal $((1 + $1)))$2"
        cat modulus
        printf '\002\003\001\000\001'
    } | pem
}
key_with 0 '\0000' > rebuilt.pem
signature 0 rebuilt.pem manifest.sig manifest
key_with 1 '\0000\0000' > zero.pem
key_with -1 '' > negative.pem
{ cat der; printf '\000'; } | pem > behind.pem
head -c 293 der | pem > short.pem
for key in zero negative behind short; do
    wrong_key $key.pem 'is no RSA key'
done
{ cat key.pem; echo more; } > text.pem
{ echo; cat key.pem; } > before.pem
sed 's/PUBLIC/RSA PUBLIC/' key.pem > bare.pem
head -n 4 key.pem > half.pem
cat key.pem half.pem > second.pem
for key in empty.txt text.pem before.pem bare.pem half.pem second.pem manifest; do
    wrong_key $key 'is no PEM text of a public key, which begins with -----BEGIN PUBLIC KEY-----'
done
cat key.pem zero.pem > wrong-behind.pem
wrong_key wrong-behind.pem 'is no RSA key'
signature 2 zero.pem key.pem manifest
tells 'signed_cli: the key is no RSA key'

# Words and files.
bytes 65536 > most
bytes 65537 > longer
signature 1 key.pem manifest.sig most
signature 2 key.pem manifest.sig longer
tells 'signed_cli: longer is too long'
for i in 1 2 3 4 5 6 7 8 9 10 11 12 13 14 15 16 17 18; do
    cat keys.pem
done > many.pem
signature 0 many.pem manifest.sig manifest
cat many.pem key.pem > too-many.pem
signature 2 too-many.pem manifest.sig manifest
tells 'signed_cli: too-many.pem is too long'
mkfifo pipe
for file in pipe none.pem payload /dev/zero; do
    signature 2 $file manifest.sig manifest
    tells "signed_cli: $file can't be read"
    signature 2 key.pem $file manifest
    signature 2 key.pem manifest.sig $file
done
ends 2 'no words' signed_cli
tells 'usage: signed_cli KEY MANIFEST SIGNATURE'
ends 2 'a word too many' signed_cli key.pem manifest manifest.sig more
ends 1 'a full standard error' sh -c '"$1" key.pem changed manifest.sig 2> /dev/full' sh "$(program signed_cli)"

# Scenarios.
printf 'row nothing is held\n- show-artifact\n  unknown\n  status 0\n' > right.rows
printf 'row nothing is held\n- show-artifact\n  known\n  status 0\n' > differs.rows
printf 'row nothing is held\n\n- show-artifact\n' > unanswered.rows
ends 0 'a file that is as written' scenario right.rows
says 'right.rows: 1 rows, 1 boots, as written'
ends 1 'a file that says something else' scenario right.rows differs.rows
ends 1 'a file without an answer' scenario unanswered.rows
tells 'unanswered.rows:3: no answer stands here'
ends 2 'no file' scenario
tells 'scenario_cli FILE..'
ends 3 'a file that is not there' scenario none.rows

# A row whose second line is $1 is wrong at that line, for the reason $2.
wrong() {
    printf 'row a wrong line\n%s\n- show-artifact\n' "$1" > wrong.rows
    ends 2 "the line '$1'" scenario right.rows wrong.rows
    tells "wrong.rows:2: $2"
}
wrong 'neds No' 'no line begins with this word'
wrong 'cut x' 'a number is wanting, is none or is out of its range'
wrong 'exits 256' 'a number is wanting, is none or is out of its range'
wrong 'loss 5 before zz' 'a tear is old, new or a byte of two digits of base 16'
wrong 'loss 5 at old' 'a loss is CALL before TEAR, or CALL after TEAR'
wrong 'tree version \0' 'behind \ stands n, or a byte of two digits of base 16'
wrong 'type ' 'a type has 1 to 128 bytes, and no control byte'
wrong 'own Download_Enter_5' "this is no script's name, or one too many"
wrong 'tree a\0ab x' "a path has 1 to 128 bytes, and no control byte; odd begins the line of one that hasn't"
wrong 'odd tree ab x' "a path has 1 to 128 bytes, and no control byte; odd begins the line of one that hasn't"
wrong 'filled data/0000/x 1000000 x' 'a file has fewer than 1000000 bytes'
wrong "file data/0000/x $(bytes 1000000)" 'a file has fewer than 1000000 bytes'
wrong 'area 266240 x' 'the area has 266240 bytes'
wrong 'each fault 0 1' 'this row makes no boot'
printf 'row one\nsupports Yes\nrow two\n- resume\n' > wrong.rows
ends 2 'a row without a boot' scenario wrong.rows
tells 'wrong.rows:1: this row makes no boot'
printf '# a comment\n- resume\n' > wrong.rows
ends 2 'a boot in front of the first row' scenario wrong.rows
tells 'wrong.rows:2: this stands in front of the first row'

sum_up
