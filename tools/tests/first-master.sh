#!/bin/sh
# dev/first-master measures how long it takes until somebody leads: one host after what its start makes of it, and none before that.
. "$(dirname "$0")/common.sh"
./tsp show </dev/null || fail "the program isn't there"
export TSP_PROGRAM=crates/tsp_cli/out/tsp_cli

# A host alone leads 390 to 690 s after its start: 80 s of silence, a search of 5 s, 300 to 600 s, and an election of 5 s. Its start is anywhere in these 300 s.
dev/first-master --seeds 20 --nodes 1 --within 1 >"$out/alone" || fail "it ends with status $?"
awk -F ' *[|] *' 'NR == 3 { exit !($2 == 1 && $3 == 1 && $4 >= 6.5 && $4 < 8.5 && $5 > 7.5 && $5 < 10.5 && $6 > 9.5 && $6 <= 11.5 && $7 == 0) }' "$out/alone" ||
    fail "a host alone: $(tail -n 1 "$out/alone")"
[ "$(wc -l <"$out/alone")" -eq 3 ] || fail 'it is no table'

# Hosts that hear of each other much later than they start have an election that is refused: some then wait again.
dev/first-master -s 10 -n 8 -w 0.02 -l 1000000 >"$out/slow" || fail "it ends with status $?"
awk -F ' *[|] *' 'NR == 3 { exit !($4 >= 6.5 && $6 > 11.6) }' "$out/slow" || fail "hosts that collide: $(tail -n 1 "$out/slow")"
dev/first-master -s 10 -n 8 -w 0.02 -l 1000000 | cmp -s - "$out/slow" || fail 'the same words give another table'

for words in '--seeds 0' '--nodes 65' '--within x' '--latency 99' '--all' '--seeds'; do
    status=0
    # shellcheck disable=SC2086  # words
    dev/first-master $words >"$out/said" 2>"$out/told" || status=$?
    [ "$status" -eq 2 ] && [ "$(wc -l <"$out/told")" -eq 1 ] || fail "'$words' ends with status $status: $(cat "$out/told")"
done
status=0
dev/first-master -s 1 -n 1 -w 1 -p "$out/none" >"$out/said" 2>"$out/told" || status=$?
[ "$status" -eq 3 ] && [ "$(wc -l <"$out/told")" -eq 1 ] || fail "without a program it ends with status $status: $(cat "$out/told")"
echo "$check: a host alone, hosts that collide, and faulty words"
