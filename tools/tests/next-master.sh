#!/bin/sh
# dev/next-master measures how long it takes until all follow the next master: minutes where daemons are started again for that, and long where they aren't.
. "$(dirname "$0")/common.sh"
./tsp show </dev/null || fail "the program isn't there"
export TSP_PROGRAM=crates/tsp_cli/out/tsp_cli

# The next one leads 1 to 10 minutes after the death. Daemons that are started again ask who leads 80 s later.
dev/next-master --seeds 4 --nodes 6 >"$out/six" || fail "it ends with status $?"
awk -F ' *[|] *' '
    NR > 2 && !($2 == 6 && $4 >= 1 && $5 <= 10.1 && $10 == 0) { exit 1 }
    NR == 3 && !($3 == "`next`" && $6 > 1.3 && $7 < 2.1) { exit 1 }
    NR == 4 && !($3 == "`wait`" && $6 > 5) { exit 1 }
    END { if (NR != 4) exit 1 }
' "$out/six" || fail "six hosts: $(cat "$out/six")"
dev/next-master -s 4 -n 6 | cmp -s - "$out/six" || fail 'the same words give another table'

for words in '--seeds 0' '--nodes 65' '--nodes 1' '--real 51' '--all' '--seeds'; do
    status=0
    # shellcheck disable=SC2086  # words
    dev/next-master $words >"$out/said" 2>"$out/told" || status=$?
    [ "$status" -eq 2 ] && [ "$(wc -l <"$out/told")" -eq 1 ] || fail "'$words' ends with status $status: $(cat "$out/told")"
done
status=0
dev/next-master -s 1 -n 3 -p "$out/none" >"$out/said" 2>"$out/told" || status=$?
[ "$status" -eq 3 ] && [ "$(wc -l <"$out/told")" -eq 1 ] || fail "without a program it ends with status $status: $(cat "$out/told")"
# Daemons that end at once are told of, and not waited for.
if has cc && unshare -r -n -m -p -f --kill-child ip link >"$out/said" 2>&1; then
    status=0
    dev/next-master --real 5 -s 1 -n 3 -p "$(command -v false)" >"$out/said" 2>"$out/told" || status=$?
    [ "$status" -eq 1 ] && grep -qx 'next-master: the supervisor of h[012] ended' "$out/told" || fail "daemons that end: status $status, $(cat "$out/told")"
else
    skip 'there is no cc, or there are no namespaces' 'what becomes of real daemons'
fi
echo "$check: six simulated hosts, and faulty words"
