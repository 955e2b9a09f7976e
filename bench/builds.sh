#!/bin/sh
# Tries each bench that builds code of its own, with as little work as it takes, so that it is seen that the code still builds.
# Run by hand, after a change of the crates that they copy; it proves those anew where nothing of them is kept.
# usage: bench/builds.sh
# exit: 0 each ended well; the last line is 'N passed, M failed'
set -u
cd "$(dirname "$0")" || exit 1
log=$(mktemp)
trap 'rm -f "$log"' EXIT
passed=0
failed=0

tried() {
    if "$@" > "$log" 2>&1; then
        passed=$((passed + 1))
        echo "ok      $*"
    else
        failed=$((failed + 1))
        echo "FAILED  $*"
        tail -n 5 "$log"
    fi
}

tried sh patterns.sh
tried python3 manifest_sums.py 1 1
tried sh prepare.sh 1
tried sh host_device.sh 1
echo "$passed passed, $failed failed"
[ "$failed" = 0 ]
