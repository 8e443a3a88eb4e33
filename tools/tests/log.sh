#!/bin/sh
# What the supervisor's log says, line by line and in a day; and the files of a trace, of which none is lost and which have a bound.
. "$(dirname "$0")/common.sh"
unset TSP_TRACE TSP_OUTPUT TSP_LOG TSP_SELF JOURNAL_STREAM
serving_program
case $program in /*) ;; *) program=$PWD/$program ;; esac

python3 tools/tests/log.py lines || fail 'the log says something else'
mkdir "$out/files"
python3 tools/tests/log.py files "$out/files" || fail 'the files of a trace'

# A day of a network by the rules, of its master and of a slave: with counters 50 parts in a million off, and with rates that are learned.
for drift in 50 0; do
    python3 tools/tsp-sim --nodes 4 --drift "$drift" --until 86400 -p "$program" >"$out/day.tsp" || fail 'there is no schedule of a day'
    "$program" replay <"$out/day.tsp" >"$out/day.trace" 2>"$out/told" || fail "the schedule of a day isn't replayed: $(cat "$out/told")"
    master=$(sed -n 's/^[0-9]* \([0-3]\) 0 [0-9]* become master$/\1/p' "$out/day.trace" | tail -n 1)
    for node in "$master" $(((master + 1) % 4)); do
        # (a replay calls each node by its own number)
        python3 tools/tests/log.py day "$out/day.trace" "$node" n0 n1 n2 n3 >"$out/said" 2>"$out/told" || fail "$(cat "$out/told" "$out/said")"
        lines=${lines:+$lines, }$(wc -l <"$out/said")
    done
done
echo "$check: each kind of line; files; and in a day $lines lines, where the trace has $(grep -c "^[0-9]* $node 0 " "$out/day.trace")"
