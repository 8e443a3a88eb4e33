#!/bin/sh
# What the round of examples/round.tsp comes to where something comes twice, too late, or forged: acts that were worked out by hand.
. "$(dirname "$0")/common.sh"
./tsp show </dev/null || fail "the program isn't there"

# The acts of the last event, where these events follow the first so many of the example.
acts() {
    events=$1
    shift
    {
        grep -v '^at \|^end' examples/round.tsp
        grep '^at ' examples/round.tsp | head -n "$events"
        printf '%s\n' "$@" end
    } | ./tsp replay >"$out/trace" || fail "$* behind $events events ends with status $?"
    awk -v event=$((events + $#)) '$1 == event { print substr($0, index($0, $5)) }' "$out/trace" | paste -sd ';' | sed 's/;/; /g'
}

gives() {
    wanted=$1
    shift
    found=$(acts "$@")
    [ "$found" = "$wanted" ] || fail "$* gives '$found', not '$wanted'"
    count=$((count + 1))
}

count=0
# A reply that comes again gives no sample, and a correction that comes again is acknowledged alone.
gives 'took 1 reply 10 0 0 629999900' 17 'at 630000801 take 10'
gives 'took 0 adjtime 10 250 a; post 16 0 ack 10 b' 23 'at 638000800 take 14'
# A round that is met too late is given up, and a reply to it gives no sample.
gives 'late probe; abandon' 16 'at 639000001 turn 0'
gives 'took 1 reply 10 0 0 629999900' 16 'at 639000001 turn 0' 'at 639000002 take 10'
# Octets that bear a peer's name make a master stop leading.
gives 'took 1 quit 32769 b; quit 1; post 5 1 ack 32769 a; become follow 1; arm elect 690000100; post 6 1 slaveup 0 a' 10 \
    'at 390000100 bytes 0 1 0d01800100000000000000006200'
# A slave that gave no sample leaves.
gives 'ring close; close 1 0 0 0; correct 0 slew 638000000; leave 1' 15 \
    'at 631000000 turn 0' 'at 632000000 turn 0' 'at 633000000 turn 0' 'at 638000000 turn 0'
# A slave whose clock stands 2^30 seconds off isn't averaged, and is sent the time. One a microsecond nearer is averaged.
for far in '1073742454000400 settime 10 638000000' '1073742454000399 adjtime 10 -1073741823999999'; do
    octets=$(echo "reply 10 0 0 ${far%% *}" | ./tsp pack)
    gives "ring close; close 1 0 0 0; correct 0 slew 638000000; post 14 1 ${far#* } a" 16 "at 630000800 bytes 0 1 $octets" \
        'at 631000000 turn 0' 'at 632000000 turn 0' 'at 633000000 turn 0' 'at 638000000 turn 0'
done
# A round that would move the master's clock past 2^31 seconds is given up: the date was set a little before, and the slave has followed.
octets=$(echo 'setdate 0 2147483401001000 a' | ./tsp pack)
gives 'ring close; abandon' 14 "at 391000000 bytes 0 - $octets" 'at 391000500 take 9' 'at 391001000 take 10' 'at 391001400 take 11' 'at 391001800 take 12' \
    'at 630000000 turn 0' 'at 630000300 take 14' 'at 630000801 take 15' \
    'at 631000000 turn 0' 'at 632000000 turn 0' 'at 633000000 turn 0' 'at 638000000 turn 0'
echo "round: $count rows"
