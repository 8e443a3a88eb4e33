#!/bin/sh
# The daemon's edge, where the kernel's own behaviour counts: a link that takes nothing stops no other; what came while the daemon was stopped
# is thrown away; TSP_RATE; a daemon beside a program that has its port at another address; and how long a question waits.
. "$(dirname "$0")/common.sh"
unset TSP_RATE
serving_program
# shellcheck disable=SC2046  # five ports
set -- $(free_ports 5)

# Waits until the daemon at an address answers.
answers() {
    tries=0
    until "$program" msite "$1" >"$out/text" 2>/dev/null; do
        tries=$((tries + 1))
        [ "$tries" -lt 10 ] || fail "a daemon at $1 is not heard"
        sleep 0.2
    done
}

# How far the clock of the daemon at an address is ahead of this machine's, in microseconds: that of ten answers which was the quickest.
ahead() {
    for _ in 1 2 3 4 5 6 7 8 9 10; do
        "$program" clockdiff "$1" || fail "the clock at $1 is not told"
    done | sort -n -k 3 | head -n 1 | cut -d ' ' -f 2
}

# A question to nobody waits eight times for a second. (it does so beside what follows)
(
    began=$(date +%s%N)
    status=0
    "$program" msite "127.0.0.3:$5" >/dev/null 2>&1 || status=$?
    took=$((($(date +%s%N) - began) / 1000000))
    echo "ends after $took ms with status $status" >"$out/asked"
    [ "$status" -eq 6 ] && [ "$took" -ge 7000 ] && [ "$took" -le 9000 ]
) &
asked=$!

# A daemon that is stopped for less than a second takes what came meanwhile. After 3 seconds it doesn't: what came stays out of the trace,
# and the next question is answered. When its turns are done it says how many datagrams it threw away.
"$program" serve "127.0.0.1:$1" a m 20 >"$out/trace" 2>"$out/log" &
note_process
stopped=$!
answers "127.0.0.1:$1"
"$program" trace "127.0.0.1:$1" on >/dev/null
kill -STOP "$stopped"
(sleep 0.3; kill -CONT "$stopped") &
"$program" msite "127.0.0.1:$1" >"$out/text" || fail 'a daemon that is stopped for 0.3 s loses a question'
wait $!
kill -STOP "$stopped"
python3 - "$1" <<'END'
import socket
import sys
import time
link = socket.socket(socket.AF_INET, socket.SOCK_DGRAM)
for number in range(20):
    link.sendto(bytes([17, 1, 3, number]) + bytes(8) + b'late\0', ('127.0.0.1', int(sys.argv[1])))
time.sleep(3)
END
kill -CONT "$stopped"
answers "127.0.0.1:$1"
! grep -q ' late$' "$out/trace" || fail "a daemon takes what came while it was stopped: $(grep ' late$' "$out/trace" | head -n 1)"
grep -q ' took - traceon [0-9]* timedc$' "$out/trace" || fail 'the trace is not on'

# A counter that is 1,000 parts in a million fast comes 1,000 microseconds further in a second, a slow one stays as far behind. What is no
# rate ends the daemon before it has a socket.
TSP_RATE=1000000 "$program" serve "127.0.0.1:$2" b s 100000 >/dev/null 2>&1 &
note_process
TSP_RATE=-1000000 "$program" serve "127.0.0.1:$3" c s 100000 >/dev/null 2>&1 &
note_process
TSP_RATE=0 "$program" serve "127.0.0.1:$5" e m 100000 >/dev/null 2>&1 &
note_process
answers "127.0.0.1:$2"
answers "127.0.0.1:$3"
answers "127.0.0.1:$5"
fast=$(ahead "127.0.0.1:$2") slow=$(ahead "127.0.0.1:$3") plain=$(ahead "127.0.0.1:$5")
sleep 4
fast=$(($(ahead "127.0.0.1:$2") - fast)) slow=$(($(ahead "127.0.0.1:$3") - slow)) plain=$(($(ahead "127.0.0.1:$5") - plain))
[ $((fast - plain)) -ge 2500 ] && [ $((fast - plain)) -le 8000 ] && [ $((plain - slow)) -ge 2500 ] && [ $((plain - slow)) -le 8000 ] || fail "in four seconds counters come $fast, $plain and $slow microseconds further"
for rate in '' 1000001 -1000001 +1 01 -0 1.5 one 99999999999999999999; do
    status=0
    TSP_RATE=$rate "$program" serve "127.0.0.1:$5" a m 1 >"$out/text" 2>"$out/line" || status=$?
    [ "$status" -eq 1 ] && [ "$(cat "$out/text")" = 'bad rate' ] && [ "$(wc -l <"$out/line")" -eq 1 ] || fail "TSP_RATE='$rate' ends with status $status"
done
TSP_RATE=one "$program" msite "127.0.0.1:$5" >"$out/text" || fail 'a question reads TSP_RATE'
status=0
TSP_RATE=0 "$program" serve "127.0.0.1:$5" a m 1 >"$out/text" 2>/dev/null || status=$?
[ "$status" -eq 5 ] || fail "a port that is taken ends with status $status, with a rate of 0"

# A daemon at 127.0.0.2, beside a program that has its port at 127.0.0.1: each gets what is sent to its own address.
python3 - "$4" "$out/bound" <<'END' &
import socket
import sys
link = socket.socket(socket.AF_INET, socket.SOCK_DGRAM)
link.bind(('127.0.0.1', int(sys.argv[1])))
open(sys.argv[2], 'w').close()
link.settimeout(20)
question, asker = link.recvfrom(512)
assert question[0] == 19
link.sendto(b'\2\1' + question[2:4] + bytes(8) + b'other\0', asker)
END
other=$!
until [ -e "$out/bound" ]; do sleep 0.1; done
"$program" serve "127.0.0.2:$4" d s 100000 >/dev/null 2>&1 &
note_process
answers "127.0.0.2:$4"
[ "$(cat "$out/text")" = 'no master' ] || fail "a daemon beside another program says '$(cat "$out/text")'"
[ "$("$program" msite "127.0.0.1:$4")" = 'master other' ] || fail 'the program beside a daemon is not asked'
wait "$other" || fail 'the program beside a daemon got something else'

wait "$asked" || fail "a question to nobody $(cat "$out/asked")"

wait "$stopped" || fail "a daemon whose turns are done ends with status $?"
[ "$(cat "$out/log")" = '[WARN  tsp_cli] threw away 20 datagrams that came while the program was stopped or paused' ] || fail "it says '$(cat "$out/log")' of what it threw away"

# A link that takes nothing.
if has tc && has nsenter && unshare -rn true 2>/dev/null; then
    count=$(unshare -rn tools/tests/stalled.py "$program" 2>"$out/told") || fail "no link was stalled: $(cat "$out/told")"
    slow=${count% *} stalled=${count#* }
    [ "$slow" -ge 15 ] || fail "beside a link that is slow $slow of 20 questions are answered"
    [ "$stalled" -ge 19 ] || fail "beside a link that takes nothing $stalled of 20 questions are answered"
    echo "$check: beside a link that is slow, and one that takes nothing, $slow and $stalled of 20 questions are answered"
else
    skip 'there is no tc, or there are no namespaces' 'a link that takes nothing'
fi
echo "$check: pauses, rates, addresses and waits are as they should be"
