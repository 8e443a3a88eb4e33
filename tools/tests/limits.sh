#!/bin/sh
# Inputs at the limits that no worked schedule reaches: networks, posts, and a long audit.
. "$(dirname "$0")/common.sh"
program=${TSP_PROGRAM:-crates/tsp_cli/out/tsp_cli}

# The status of a command over an input, and what it writes.
runs() {
    status=0
    "$program" "$1" <"$2" >"$out/written" 2>/dev/null || status=$?
    [ "$status" -eq "$3" ] || fail "$4 ends with status $status"
}

# A header has 64 networks at the most: a node for each, alone on it.
header() {
    awk -v nets="$1" 'BEGIN {
        printf "tsp-schedule 1\ndrift 0\n"
        for (i = 0; i < 64; i++) printf "node n%d 0 0 s\n", i
        for (i = 0; i < nets; i++) printf "net %d\n", i % 64
        printf "end\n"
    }'
}
header 64 >"$out/nets"
runs replay "$out/nets" 0 'a schedule of 64 networks'
header 65 >"$out/nets"
runs replay "$out/nets" 2 'a schedule of 65 networks'
[ "$(cat "$out/written")" = 'bad 131 header' ] || fail 'a schedule of 65 networks is refused in another way'

# Posts and the room of the node that acts may come to 1,000,000, and no further. A boot and a look at the timers 80 s later post a
# datagram to each other node: 61 on the first network, whose nodes want room for 1,744, and 1 on the second, whose nodes want 304.
awk 'BEGIN {
    printf "tsp-schedule 1\ndrift 0\n"
    for (i = 0; i < 64; i++) printf "node n%d 0 0 s\n", i
    printf "net"
    for (i = 0; i < 62; i++) printf " %d", i
    printf "\nnet 62 63\n"
    for (i = 0; i < 16364; i++) printf "at %.0f boot 0 %d\nat %.0f turn 0\n", i * 80000000, i, (i + 1) * 80000000
    for (j = 0; j < 1494; j++) printf "at %.0f boot 62 %d\nat %.0f turn 62\n", (i + j) * 80000000, j, (i + j + 1) * 80000000
}' >"$out/posts"
runs replay "$out/posts" 7 'a schedule of 999,697 posts'
[ "$(tail -n 1 "$out/written")" = 'limit 35783' ] || fail 'posts end at another line'
[ "$(tail -n 2 "$out/written" | head -n 1 | cut -d ' ' -f 5-)" = 'post 999696 63 masterreq 0 n62' ] || fail 'posts end with another post'

# An audit takes an input of more than 32 MiB: a schedule with messages that have names of 255 octets, which a stranger sends and nobody
# answers, and its trace. With that it holds, and what stands behind is read to its end before its first line is refused.
awk 'BEGIN {
    printf "tsp-schedule 1\ndrift 0\nnode a 0 0 s\nat 0 boot 0 1\n"
    hex = "010100000000000000000000"
    for (i = 0; i < 255; i++) hex = hex "c3"
    for (i = 1; i < 19000; i++) printf "at %d bytes 0 - %s00\n", i, hex
    printf "end\n"
}' >"$out/audit"
runs replay "$out/audit" 0 'a schedule of long messages'
cat "$out/written" >>"$out/audit"
runs audit "$out/audit" 0 'an audit of long messages'
[ "$(cat "$out/written")" = holds ] || fail 'an audit of long messages has another verdict'
line=$(($(wc -l <"$out/audit") + 1))
yes | head -c 16777216 >>"$out/audit"
size=$(wc -c <"$out/audit")
[ "$size" -gt 33554432 ] || fail "the input of the audit has $size octets"
runs audit "$out/audit" 2 "an audit of $size octets"
[ "$(cat "$out/written")" = "bad $line line" ] || fail "an audit of $size octets is refused in another way"
echo "$check: 64 networks, 1,000,000 posts, an audit of $size octets"
