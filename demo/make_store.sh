#!/bin/sh
# Writes a store with one finished deployment: slot 0 is picked, and its record of 75 bytes says that the update to
# release-2 was committed. usage: make_store.sh FILE
set -eu
store=$1
head -c 4096 /dev/zero > "$store"
printf 'MUP1\000\002\000\000\005\000\000\000\000\000\000\113' >> "$store"                            # Idle, Committed, n 5; 75 bytes
printf '\000\000' >> "$store"                                                                        # nothing was provided before
printf '\000\002\000\013app.version\000\0012\000\015artifact_name\000\011release-2' >> "$store"      # two pairs since then
printf '\013single-file\000' >> "$store"                                                             # the payload type, no scripts
head -c 262069 /dev/zero >> "$store"
