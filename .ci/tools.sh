#!/bin/sh
# Tries daemons over the loopback and what stands beside the program, on real input: ./tsp, the tools, pages, examples' pictures and
# the package. What this machine lacks is skipped, and said. A check that fails ends this, unless .ci/real-time names it: a machine that
# stands still for some seconds makes one fail that waits in real time. Such a check is run again once the processors aren't taken away, and
# has to pass three times in a row, which is said too. So a fault that one run in three shows hardly passes.
set -eu
cd "$(dirname "$0")/.."

# Prints which share of its time, in percent, the processors of a virtual machine are taken away in five seconds in which all are wanted.
taken_away() {
    {
        cat /proc/stat
        for _ in $(seq "$(nproc)"); do timeout 5 sh -c 'while :; do :; done' & done
        wait
        cat /proc/stat
    } | awk '
        $1 == "cpu" { sign = seen++ ? 1 : -1; for (i = 2; i <= 9; i++) all += sign * $i; taken += sign * $9 }
        END { print all ? int(100 * taken / all) : 0 }'
}

# Waits until the processors aren't taken away any more, ten minutes at the most.
wait_for_calm() {
    for _ in $(seq 60); do
        [ "$(taken_away)" -ge 5 ] || return 0
        sleep 5
    done
}

# Whether this check may be tried again.
waits_in_real_time() {
    grep -qx "$(basename "$1" .sh)" .ci/real-time
}

# Whether a check that failed passes three times in a row.
passes_again() {
    wait_for_calm
    for _ in 1 2 3; do "$1" || return 1; done
}

began=$(date +%s)
again=''
./tsp show </dev/null
for check in .ci/daemon.sh tools/tests/*.sh; do
    [ "$check" != tools/tests/common.sh ] || continue
    "$check" && continue
    waits_in_real_time "$check" || { echo ".ci/tools.sh: $check failed" >&2; exit 1; }
    echo ".ci/tools.sh: $check failed, and has to pass three times now"
    passes_again "$check" || { echo ".ci/tools.sh: $check failed again" >&2; exit 1; }
    again="$again $(basename "$check" .sh)"
done
echo ".ci/tools.sh: all passed in $(($(date +%s) - began)) s${again:+, and passed three times after they had failed once:$again}"
