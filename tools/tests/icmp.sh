#!/bin/sh
# Messages that text2pcap makes a capture of are read alike by tshark and by `tsp icmp`: type, code, checksum, identifier, sequence
# number and the three stamps.
. "$(dirname "$0")/common.sh"
has tshark && has text2pcap || { skip 'there is no tshark or no text2pcap' 'icmp beside it'; exit; }
./tsp show </dev/null || fail "the program isn't there"
program=crates/tsp_cli/out/tsp_cli

# The records, two messages each, and what the program says of each.
python3 -B tools/tests/icmp_records.py make 1 300 >"$out/records" || fail 'no records are made'
while IFS= read -r record; do
    echo "$record" | "$program" icmp | head -n 1
done <"$out/records" >"$out/said"

# What tshark reads of the same messages, and what the program must say of that.
cut -d ' ' -f 2,3 "$out/records" | tr ' ' '\n' | sed 's/../& /g; s/^/000000 /' | text2pcap -q -i 1 - "$out/made.pcap" || fail 'no capture is made'
tshark -r "$out/made.pcap" -T fields -E separator=, -e icmp.type -e icmp.code -e icmp.checksum.status -e icmp.ident -e icmp.seq -e icmp.originate_timestamp \
    -e icmp.receive_timestamp -e icmp.transmit_timestamp >"$out/fields" 2>/dev/null || fail 'tshark does not read the capture'
python3 -B tools/tests/icmp_records.py answers "$out/records" "$out/fields" >"$out/wanted" || fail 'what tshark shows is no record'
diff "$out/wanted" "$out/said" >"$out/differ" || fail "tshark and the program differ: $(head -n 3 "$out/differ")"
for answer in ' [-0-9]* [0-9]*$' 'unlike$' 'no-time$' 'late$' 'request code$' 'request kind$' 'request checksum$' 'reply code$' 'reply kind$' 'reply checksum$'; do
    grep -q -- "$answer" "$out/said" || fail "no record was made for '$answer'"
done
echo "$check: $(wc -l <"$out/said") records"
