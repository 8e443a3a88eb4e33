#!/bin/sh
# What a node on two networks does, in a run that was worked out by hand, and how a port that it lacks is refused.
. "$(dirname "$0")/common.sh"
./tsp show </dev/null || fail "the program isn't there"

cat >"$out/schedule" <<'TEXT'
tsp-schedule 1
drift 0
node g 0 0 s
node a 0 0 s
node b 0 0 s
net 0 1
net 0 2
at 0 boot 0 7
at 80000000 turn 0
at 81000000 bytes 0/1 2 0601000000000000000000006200
at 82000000 bytes 0 1 0601000000000000000000006100
at 83000000 bytes 0/1 2 0101000700000000000000016200
at 84000000 bytes 0 1 01010007000000000000000a6100
TEXT
cat >"$out/wanted" <<'TEXT'
1 0 0 0 boot
1 0 0 0 become starting
1 0 0 0 arm quiet 80000000
1 0 1 0 become starting
1 0 1 0 arm quiet 80000000
2 0 0 80000000 ring quiet
2 0 0 80000000 become loose
2 0 0 80000000 arm search 85000000
2 0 0 80000000 post 0 1 masterreq 0 g
2 0 1 80000000 ring quiet
2 0 1 80000000 become loose
2 0 1 80000000 arm search 85000000
2 0 1 80000000 post 1 2 masterreq 0 g
3 0 1 81000000 took 2 masterup 0 b
3 0 1 81000000 become follow 2
3 0 1 81000000 arm elect 381000007
3 0 1 81000000 post 2 2 slaveup 7 g
4 0 0 82000000 took 1 masterup 0 a
4 0 0 82000000 become follow 1
4 0 0 82000000 arm elect 382000007
4 0 0 82000000 post 3 1 slaveup 7 g
5 0 1 83000000 took 2 adjtime 7 1 b
6 0 0 84000000 took 1 adjtime 7 10 a
6 0 0 84000000 correct 10 slew 84000000
6 0 0 84000000 arm elect 384000007
6 0 0 84000000 post 4 1 ack 7 g
TEXT
{ cat "$out/schedule"; echo end; } | ./tsp replay >"$out/trace" || fail "the run ends with status $?"
cmp -s "$out/wanted" "$out/trace" || fail 'the run gives another trace'
# The node has the ports 0 and 1. What came before a refusal stands.
status=0
{ cat "$out/schedule"; echo 'at 84000000 bytes 0/2 1 00'; } | ./tsp replay >"$out/trace" 2>/dev/null || status=$?
echo 'bad 14 no-node 0 3' >>"$out/wanted"
[ "$status" -eq 2 ] || fail "a port that the node lacks gives the status $status"
cmp -s "$out/wanted" "$out/trace" || fail 'a port that the node lacks gives another trace'
# A daemon has at most four ports.
status=0
./tsp serve 127.0.0.1:525 g m 1 + + + + >"$out/usage" 2>/dev/null || status=$?
[ "$status" -eq 1 ] && [ "$(cat "$out/usage")" = usage ] || fail "five ports of a daemon give the status $status"

# A LOOP of another node goes on to the other network with a hop less, one without hops doesn't, and the own one comes to nothing at a node that doesn't lead.
cat >"$out/schedule" <<'TEXT'
tsp-schedule 1
drift 0
node g 0 0 m
node h 0 0 s
net 0 1
net 0 1
at 0 boot 1 0
at 80000000 turn 1
at 81000000 bytes 1 0 180100000a000000000000006700
at 82000000 bytes 1 0 1801000000000000000000006700
at 83000000 bytes 1/1 0 180100000a000000000000006800
end
TEXT
cat >"$out/wanted" <<'TEXT'
1 1 0 0 boot
1 1 0 0 become starting
1 1 0 0 arm quiet 80000000
1 1 1 0 become starting
1 1 1 0 arm quiet 80000000
2 1 0 80000000 ring quiet
2 1 0 80000000 become loose
2 1 0 80000000 arm search 85000000
2 1 0 80000000 post 0 0 masterreq 0 h
2 1 1 80000000 ring quiet
2 1 1 80000000 become loose
2 1 1 80000000 arm search 85000000
2 1 1 80000000 post 1 0 masterreq 0 h
3 1 0 81000000 took 0 loop 0 10 g
3 1 1 81000000 post 2 0 loop 0 9 g
4 1 0 82000000 took 0 loop 0 0 g
5 1 1 83000000 took 0 loop 0 10 h
TEXT
./tsp replay <"$out/schedule" >"$out/trace" || fail "the run of LOOPs ends with status $?"
cmp -s "$out/wanted" "$out/trace" || fail 'the run of LOOPs gives another trace'
echo 'gateway: two runs on two networks, and two refusals'
