#!/bin/sh
# Wireshark shows clock stamps and the times of messages by tsp.lua.
. "$(dirname "$0")/common.sh"
has tshark && has text2pcap || { skip 'there is no tshark or no text2pcap' 'tools/tsp.lua'; exit; }

printf '%s\n' 'adjtime 7 -320 c' 'date 1 1000001 x' 'request 1 2' 'reply 5 1 2 -7' 'ack 7 a' | ./tsp pack |
    sed 's/../& /g; s/^/000000 /' | text2pcap -q -u 525,525 - "$out/made.pcap" 2>"$out/told" || fail 'no capture is made'
tshark -X lua_script:tools/tsp.lua -r "$out/made.pcap" -T fields -E separator=, -e tsp_clock.time -e tsp_clock.type -e tsp_clock.ticket -e tsp_clock.word \
    -e tsp_clock.counter -e tsp_clock.reading >"$out/shown" 2>/dev/null || fail 'tshark does not read the capture'
printf '%s\n' '-320,,,,,' '1000001,,,,,' ',128,0,1,2,0' ',129,5,1,2,-7' ',,,,,' | cmp -s - "$out/shown" || fail "tshark shows '$(cat "$out/shown")'"

# What is wrong with a stamp is told in the words of show.
for octets in 80 800100000000000000000001 8001000000000000000000010000000000000002000000000000000000 80020000000000000000000100000000000000020000000000000000 \
    80010001000000000000000100000000000000020000000000000000 81018000000000000000000100000000000000020000000000000000 \
    80010000000000000000000100000000000000020000000000000001 81010005000000000000000100000000000000020007a12000000000 \
    8101000500000000000000010000000000000002fff85ee000000000 8101000500000000000000010000000000000002fff85ee000000001 \
    "81$(printf '%0534d' 0)" "81$(printf '%0536d' 0)"; do
    status=0
    echo "$octets" | crates/tsp_cli/out/tsp_cli show >"$out/said" 2>/dev/null || status=$?
    [ "$status" -eq 0 ] && echo >"$out/wanted" || sed 's/^bad 1 //' "$out/said" >"$out/wanted"
    echo "$octets" | sed 's/../& /g; s/^/000000 /' | text2pcap -q -u 525,525 - "$out/made.pcap" 2>"$out/told" || fail 'no capture is made'
    tshark -X lua_script:tools/tsp.lua -r "$out/made.pcap" -T fields -e tsp_clock.fault >"$out/shown" 2>/dev/null || fail 'tshark does not read the capture'
    cmp -s "$out/wanted" "$out/shown" || fail "tshark shows '$(cat "$out/shown")' of $octets, and show '$(cat "$out/said")'"
    cat "$out/wanted" >>"$out/faults"
done
[ "$(sort -u "$out/faults" | paste -sd ' ')" = ' long reserved short stamp-length time version' ] || fail "the faults are '$(sort -u "$out/faults" | paste -sd ' ')'"
echo "$check: times, stamps and their faults"
