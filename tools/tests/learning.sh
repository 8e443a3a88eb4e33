#!/bin/sh
# What hosts learn of their counters' rates, by which they count at once: by made corrections, in a simulation of days with restarts and kills, and of the
# traces of nodes that run by the rules.
. "$(dirname "$0")/common.sh"
program=${TSP_PROGRAM:-crates/tsp_cli/out/tsp_cli}
[ -n "${TSP_PROGRAM:-}" ] || ./tsp show </dev/null || fail "the program isn't there"

# What is learned acts at once, on the page of a daemon that runs.
python3 -B tools/tests/applied.py "$out" >"$out/told" 2>&1 || fail "$(cat "$out/told")"

# Days in small: after a day all counters are within 1 part in a million, and no restart made anything worse.
dev/learning --days 6 --hosts 3,8 --kills 1 >"$out/table" || fail "$(cat "$out/table")"
[ "$(wc -l <"$out/table")" -eq 5 ] || fail "the table is $(cat "$out/table")"
# (a network whose datagrams are late by up to 100 ms doesn't give so much, and that is seen)
! dev/learning --days 5 --hosts 8 --jitter 100000 >"$out/table" 2>"$out/told" || fail 'rates of a poor network are said to be good'
grep -qx "learning: after a day counters aren't within 1 part in a million, or a restart made something worse" "$out/told" || fail "$(cat "$out/told")"
for words in '--days 4' '--hosts 1' '--kills 2' '--rates x' 'more'; do
    # shellcheck disable=SC2086  # words
    ! dev/learning $words >"$out/said" 2>"$out/told" || fail "'$words' is accepted"
    [ "$(wc -l <"$out/told")" -eq 1 ] && [ ! -s "$out/said" ] || fail "'$words': it says $(cat "$out/said" "$out/told")"
done

# Nodes with known rates, four hours by the rules: with what each learns of its own trace all counters run alike, as far as the errors say, and within 1 part
# in a million. A master is killed meanwhile.
tools/tsp-sim --nodes 8 --slaves 5 --drift 150 --until 14400 --reboot 7@4000 --seed 3 --program "$program" >"$out/run.tsp" || fail 'tsp-sim fails'
"$program" replay <"$out/run.tsp" >"$out/run.trace" || fail 'replay fails'
for node in 0 1 2 3 4 5 6 7; do
    awk -v node=$node '$2 == node { $2 = 0; print }' "$out/run.trace" >"$out/node"
    tools/tsp-watch --learn "$out/rate-$node" "$out/node" >/dev/null 2>&1 || fail "the trace of node $node can't be read"
    echo "$(sed -n "s/^node n$node \([^ ]*\) .*/\1/p" "$out/run.tsp") $(head -n 1 "$out/rate-$node")"
done >"$out/rates"
python3 - "$out/rates" <<'END' || fail "counters don't run alike: $(cat "$out/rates")"
import sys
hosts = [[int(word) for word in line.split()] for line in open(sys.argv[1], encoding='ascii')]
fast = [((1 + rate / 1e6) * (1 + learned / 1e9) - 1) * 1e9 for rate, learned, _ in hosts]
assert len(hosts) == 8 and max(rate for rate, *_ in hosts) - min(rate for rate, *_ in hosts) > 100
assert max(fast) - min(fast) <= 1000, fast
assert all(abs(one - other) <= hosts[a][2] + hosts[b][2] for a, one in enumerate(fast) for b, other in enumerate(fast)), fast
END
echo "$check: days with restarts, and eight nodes whose counters run alike within $(awk '{ if ($3 > most) most = $3 } END { print most / 1000 }' "$out/rates") parts in a million"
