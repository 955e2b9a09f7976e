#!/bin/sh
# Gives what is noted of boots to the checker of transcripts. Of the rows of losses and of faults, each played at all of its moments with
# further boots behind, the notes are written from what the rows' program tells, boots that were cut off among them; of boots of the
# built client they are its own. No proof reaches either. Part of the gate, behind `statuses.sh`. Where there is no python3 it says so.
# usage: transcripts.sh
# PROGRAMS in the environment is the absolute path of a folder with the programs, where they don't stand in crates/*/out/.
# exit: 0 all notes are as they should be; 1 some aren't
set -u
export LC_ALL=C PYTHONDONTWRITEBYTECODE=1
top=$(cd "$(dirname "$0")/.." && pwd)
cd "$top" || exit 1
. "$top/tools/rows.sh"
if ! command -v python3 > /dev/null; then
    echo 'python3 is missing: no transcript was tried'
    exit 0
fi
rows=crates/scenario_cli/data
python3 tools/campaigns.py "$(program scenario_cli)" "$(program trace_cli)" "$rows/losses.rows" "$rows/faults.rows" "$rows/folder.rows" "$rows/slots.rows" || exit 1
python3 tools/notes.py 200 40 || exit 1
