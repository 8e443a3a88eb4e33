#!/bin/sh
# The daemon, and the questions to it, over the loopback: what stands between two processes, which no proof speaks of.
# It takes half a minute at the most, and leaves nothing behind. Usage: .ci/daemon.sh [PROGRAM]
[ $# -eq 0 ] || export TSP_PROGRAM="$1"
# shellcheck source=tools/tests/common.sh
. "$(dirname "$0")/../tools/tests/common.sh"
check=.ci/daemon.sh
began=$(date +%s)
serving_program

# Eight ports of which nobody makes use.
# shellcheck disable=SC2046  # eight words
set -- $(free_ports 8)
alpha=127.0.0.1:$1 beta=127.0.0.1:$2 alone=127.0.0.1:$3 dead=127.0.0.1:$4 nobody=127.0.0.1:$5
west=127.0.0.1:$6 gate=127.0.0.1:$7 east=127.0.0.1:$8

# Sends these octets from one address to another, and prints the octets that come back within a second. Without a
# third word what comes back isn't waited for: it goes to a port that is closed by then.
exchange() {
    python3 - "$@" <<'PYTHON'
import socket, sys
def address(text):
    host, port = text.split(":")
    return host, int(port)
local, to, octets = address(sys.argv[1]), address(sys.argv[2]), bytes.fromhex(sys.argv[3])
with socket.socket(socket.AF_INET, socket.SOCK_DGRAM) as s:
    s.setsockopt(socket.SOL_SOCKET, socket.SO_REUSEADDR, 1)
    s.bind(local)
    s.settimeout(1)
    s.sendto(octets, to)
    if len(sys.argv) > 4:
        print(s.recv(512).hex())
PYTHON
}

# How a command ends that is to end so, and what it writes.
wants() {
    wanted=$1 text=$2
    shift 2
    status=0
    "$program" "$@" >"$out/text" 2>"$out/warning" || status=$?
    [ "$status" -eq "$wanted" ] || fail "'$*' ends with status $status"
    [ "$(cat "$out/text")" = "$text" ] || fail "'$*' writes '$(cat "$out/text")'"
    if [ "$wanted" -eq 0 ]; then
        [ ! -s "$out/warning" ] || fail "'$*' warns"
    else
        grep -q "ended with status $wanted\$" "$out/warning" || fail "'$*' doesn't warn"
        [ "$(wc -l <"$out/warning")" -eq 1 ] || fail "'$*' warns more than once"
    fi
}

# Two daemons that know each other: one takes three turns, and the other is ended from outside.
"$program" serve "$alpha" alpha m 1000 "$beta" >"$out/alpha" 2>"$out/alpha.warning" &
a=$!
note_process
"$program" serve "$beta" beta s 3 "$alpha" >"$out/beta" 2>"$out/beta.warning" &
b=$!
note_process

# Questions that nobody answers wait eight seconds, beside all else.
(status=0; "$program" msite "$nobody" >"$out/nobody" 2>/dev/null || status=$?; echo "$status" >>"$out/nobody") &
silent=$!
note_process
sleep 0.5

# A second daemon doesn't get the port.
wants 5 '' serve "$alpha" gamma m 1

# Stamps and messages are answered in their written spelling.
exchange "$dead" "$alpha" 80010000000000000000000100000000000000020000000000000000 answer >"$out/reply" || fail 'a stamp request has no reply'
exchange "$dead" "$alpha" 1301000300000000000000007800 answer >>"$out/reply" || fail 'a question for the master has no answer'
"$program" show <"$out/reply" >"$out/shown" || fail 'an answer is no datagram'
"$program" pack <"$out/shown" >"$out/packed" || fail 'an answer is no line'
cmp -s "$out/reply" "$out/packed" || fail 'an answer is spelled in another way than it is written'
grep -q '^reply [0-9]* 1 2 -*[0-9]*$' "$out/shown" || fail 'a stamp request has another reply'
[ "$(sed -n 2p "$out/shown")" = 'ack 3 %' ] || fail 'a question for the master has another answer'

# The questions: in the quiet time there is no master, and nobody stands for election.
wants 0 'no master' msite "$alpha"
"$program" clockdiff "$alpha" >"$out/diff" || fail "'clockdiff' ends with status $?"
awk 'NF != 3 || $1 != "clockdiff" || $2 > 10000 || $2 < -10000 || $3 > 1000000 { exit 1 }' "$out/diff" || fail "'clockdiff' writes '$(cat "$out/diff")'"
[ ! -s "$out/alpha" ] || fail 'a daemon writes without being asked'
wants 0 'trace on' trace "$alpha" on
wants 0 'no master' msite "$alpha"
grep -q ' trace on$' "$out/alpha" || fail "the trace doesn't begin"
grep -q ' took - msite [0-9]* timedc$' "$out/alpha" || fail "the trace doesn't show a question"
wants 0 'trace off' trace "$alpha" off

# A daemon whose answers go to a closed port takes its turns: a peer's, from the peer's own port, and a stranger's.
# It stands for election by a majority alone, and answers like any other.
"$program" serve "$alone" alone x 6 "$dead" >"$out/alone" 2>"$out/alone.warning" &
l=$!
note_process
sleep 0.2
exchange "$nobody" "$alone" 80010000000000000000000100000000000000020000000000000000 answer >"$out/reply" || fail 'a daemon of strict elections has no reply'
"$program" show <"$out/reply" | grep -q '^reply [0-9]* 1 2 -*[0-9]*$' || fail 'a daemon of strict elections has another reply'
for from in "$dead" "$nobody" "$dead"; do
    exchange "$from" "$alone" 80010000000000000000000100000000000000020000000000000000
done
wait "$l" || fail "a daemon whose peer is dead ends with status $?"

# A daemon between two networks takes a peer's question on the port whose peer it is, a stranger's on port 0, and answers each.
"$program" serve "$gate" gate m 1000 "$west" + "$east" >"$out/gate" 2>"$out/gate.warning" &
g=$!
note_process
sleep 0.2
wants 0 'trace on' trace "$gate" on
for from in "$west" "$east" "$nobody"; do
    exchange "$from" "$gate" 1301000300000000000000007800 answer >"$out/reply" || fail 'a daemon on two networks has no answer'
    [ "$("$program" show <"$out/reply")" = 'ack 3 %' ] || fail 'a daemon on two networks has another answer'
done
wants 0 'trace off' trace "$gate" off
grep ' took [12-] msite 3 x$' "$out/gate" | cut -d ' ' -f 3,5- >"$out/ports"
printf '%s\n' '0 took 1 msite 3 x' '1 took 2 msite 3 x' '0 took - msite 3 x' | cmp -s - "$out/ports" || fail "a daemon on two networks takes '$(cat "$out/ports")'"

# The turns are over, and SIGTERM ends what has more of them.
wait "$b" || fail "a daemon ends with status $? after its turns"
election=0
"$program" election "$alpha" >"$out/election" 2>/dev/null || election=$?
[ "$election" -eq 6 ] && [ "$(cat "$out/election")" = 'no answer' ] || fail "'election' in the quiet time gives another answer"
kill "$a" "$g"
status=0
wait "$g" 2>/dev/null || status=$?
[ "$status" -eq 143 ] || fail "a daemon on two networks that is told to end ends with status $status"
status=0
wait "$a" 2>/dev/null || status=$?
[ "$status" -eq 143 ] || fail "a daemon that is told to end ends with status $status"
wait "$silent"
[ "$(tr '\n' ' ' <"$out/nobody")" = 'no answer 6 ' ] || fail 'a question to nobody gives another answer'
# (all have ended)
# shellcheck disable=SC2034  # common.sh reads it
running=''

spent=$(($(date +%s) - began))
[ "$spent" -le 30 ] || fail "it took $spent s"
echo "$check: daemons, one of them on two networks, and the questions to them, in $spent s"
