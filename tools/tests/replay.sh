#!/bin/sh
# Replays: of the examples, of what is cut off, and at each limit.
. "$(dirname "$0")/common.sh"
./tsp --path >"$out/path"
program=$(cat "$out/path")

# Replays standard input, and wants this status and this last line.
ends() {
    status=0
    "$program" replay >"$out/trace" 2>"$out/told" || status=$?
    [ "$status" -eq "$1" ] || fail "$3 ends with status $status"
    [ "$(tail -n 1 "$out/trace")" = "$2" ] || fail "$3 gives another last line"
}

# Each example gives the trace that stands beside it.
for schedule in examples/*.tsp examples/schedules/*.tsp; do
    "$program" replay <"$schedule" >"$out/trace" || fail "$schedule ends with status $?"
    cmp -s "$out/trace" "${schedule%.tsp}.trace" || fail "$schedule gives another trace than the one beside it"
done

# Each beginning of the example is refused, but for the whole with or without its last line feed.
octets=$(wc -c <examples/first.tsp)
count=0
while [ "$count" -le "$octets" ]; do
    wanted=2
    [ "$count" -lt $((octets - 1)) ] || wanted=0
    status=0
    head -c "$count" examples/first.tsp | "$program" replay >"$out/trace" 2>"$out/told" || status=$?
    [ "$status" -eq "$wanted" ] || fail "the first $count octets of the example end with status $status"
    count=$((count + 1))
done

# A datagram that was never posted can't be taken; what came before stands.
{
    head -n 8 examples/correction.tsp
    echo 'at 82500000 take 5'
} >"$out/schedule"
ends 2 'bad 9 no-datagram 5 3' 'a datagram that was never posted' <"$out/schedule"
head -n 15 examples/correction.trace >"$out/before"
sed '$d' "$out/trace" | cmp -s "$out/before" - || fail 'a datagram that was never posted loses what came before'

# A world takes 200,000 events and no more.
{
    printf 'tsp-schedule 1\ndrift 0\nnode a 0 0 m\nat 0 boot 0 1\n'
    yes 'at 0 turn 0' | head -n 200000
} >"$out/schedule"
ends 7 'limit 200004' 'a schedule of too many events' <"$out/schedule"

# A node of 64 that boots and then looks for a master posts 63 datagrams. After 15,845 such pairs of events
# there are 998,235 posts, and 1,000,000 leave no room for the 1,792 that a step may put.
awk 'BEGIN {
    printf "tsp-schedule 1\ndrift 0\n"
    for (i = 0; i < 64; i++) printf "node n%d 0 0 s\n", i
    for (i = 0; i < 15846; i++) printf "at %.0f boot 0 %d\nat %.0f turn 0\n", i * 80000000, i, (i + 1) * 80000000
}' >"$out/schedule"
ends 7 'limit 31757' 'a schedule of too many posts' <"$out/schedule"
[ "$(tail -n 2 "$out/trace" | head -n 1)" = '31690 0 0 1267600000000 post 998234 63 masterreq 0 n0' ] || fail 'too many posts end with another post'

# An input of 64 MiB is read to its end, and the line with the octet behind that isn't.
for row in '67108864 2 bad 1 header' '67108865 7 limit 1'; do
    # shellcheck disable=SC2086  # its words
    set -- $row
    octets=$1 wanted=$2
    shift 2
    head -c "$octets" /dev/zero | tr '\0' x >"$out/schedule"
    ends "$wanted" "$*" "an input of $octets octets" <"$out/schedule"
    [ "$(wc -l <"$out/trace")" -eq 1 ] || fail "an input of $octets octets gives more than a line"
done
rm "$out/schedule"

# A node whose rate is above the drift is refused.
printf 'tsp-schedule 1\ndrift 5\nnode a 6 0 m\n' >"$out/schedule"
ends 2 'bad 3 header' 'a rate above the drift' <"$out/schedule"
echo "$check: examples, each beginning of one, and every limit"
