#!/bin/sh
# What the audit says of claimed traces: of the examples' own, of one with a changed field, of schedules with other traces, of a
# history that breaks each clause of each part, and of inputs at its limits.
. "$(dirname "$0")/common.sh"
./tsp show </dev/null || fail "the program isn't there"
program=crates/tsp_cli/out/tsp_cli

# Wants this answer and this status of the audit of an input. A part's number stands without its letter here.
audits() {
    status=0
    "$program" audit <"$1" >"$out/said" 2>/dev/null || status=$?
    [ "$(sed 's/^fails D/fails /' "$out/said")" = "$2" ] && ! grep -q '^fails [^D]' "$out/said" && [ "$status" -eq "$3" ] || fail "$4: $(head -n 1 "$out/said"), status $status"
}

# An answer's status: 2 where a line is refused, 7 where there is no room for one.
status_of() {
    case $1 in
    bad*) echo 2 ;;
    limit*) echo 7 ;;
    *) echo 0 ;;
    esac
}

# Every run keeps its promises.
for schedule in examples/*.tsp examples/schedules/*.tsp; do
    cat "$schedule" "${schedule%.tsp}.trace" >"$out/input"
    audits "$out/input" holds 0 "$schedule"
done

# One field of the trace changed.
count=0
while IFS='|' read -r line old new answer; do
    case $line in '#'*) continue ;; esac
    line=${line% } answer=${answer# }
    new=${new# } old=${old# }
    sed "${line}s/${old% }/${new% }/" examples/round.trace >"$out/trace"
    if cmp -s examples/round.trace "$out/trace"; then fail "line $line is as before"; fi
    cat examples/round.tsp "$out/trace" >"$out/input"
    audits "$out/input" "$answer" "$(status_of "$answer")" "line $line with '${new% }'"
    count=$((count + 1))
done <tools/tests/audit.cases

# A follower's clock that is moved again, where its master says so too early.
sed '/took 1 adjtime 8 1 b/{/ 82999999 /a\
6 0 0 82999999 correct 1 slew 0
}' examples/correction.trace | cat examples/correction.tsp - >"$out/input"
audits "$out/input" 'fails 14 6' 0 'two corrections within the gap'

# A second candidate is backed within the hold.
sed '/^5 .* took /a\
5 0 0 149999999 back 2' examples/hold.trace | cat examples/hold.tsp - >"$out/input"
audits "$out/input" 'fails 12 5' 0 'two candidates within the hold'

# For each clause of each part a history that breaks it, and one that keeps it.
python3 tools/tests/audit_clauses.py "$program" || fail 'a clause is judged otherwise'

# Nothing is claimed: a boot lacks its line.
audits examples/first.tsp "bad $(($(wc -l <examples/first.tsp) + 1)) history" 2 'a boot without its line'

# So many lines are judged, and one more isn't; likewise events and nodes.
claims() {
    printf 'tsp-schedule 1\ndrift 0\nnode a 0 0 s\nat 0 boot 0 1\nend\n1 0 0 0 boot\n'
    yes '1 0 0 0 arm quiet 80000000' | head -n "$1"
}
claims 19999 >"$out/input"
audits "$out/input" holds 0 '20,000 lines'
claims 20000 >"$out/input"
audits "$out/input" 'limit 20006' 7 '20,001 lines'
turns() {
    printf 'tsp-schedule 1\ndrift 0\nnode a 0 0 s\nat 0 boot 0 1\n'
    yes 'at 0 turn 0' | head -n "$1"
    printf 'end\n1 0 0 0 boot\n'
}
turns 19999 >"$out/input"
audits "$out/input" holds 0 '20,000 events'
turns 20000 >"$out/input"
audits "$out/input" 'limit 20004' 7 '20,001 events'
nodes() {
    printf 'tsp-schedule 1\ndrift 0\n'
    awk -v count="$1" 'BEGIN { for (i = 0; i < count; i++) printf "node n%d 0 0 s\n", i }'
    printf '%s\n' "$2" 'end'
}
nodes 16 'at 0 take 0' >"$out/input"
audits "$out/input" holds 0 '16 nodes'
nodes 16 'node n16 0 0 s' >"$out/input"
audits "$out/input" 'limit 19' 7 '17 nodes'
nodes 16 'node n16 0 x s' >"$out/input"
audits "$out/input" 'bad 19 header' 2 'a seventeenth node that is none'
echo "$check: the examples, $count changed fields, and the limits"
