#!/bin/sh
# Daemons that tsp-launch starts on this machine answer tsp-status, trace, and end as they should. (in their first 80 s, in which they are silent otherwise)
. "$(dirname "$0")/common.sh"
unset TSP_HOSTS TSP_SELF TSP_TURNS TSP_WAIT TSP_TRACE
export TSP_SPREAD=0
serving_program
export TSP_PROGRAM="$program"

free_ports 4 >"$out/ports"
read -r one two three four <"$out/ports"
printf '%s\n' "a 127.0.0.1:$one master" "b 127.0.0.1:$two slave" "c 127.0.0.1:$three master" >"$out/hosts"

# Starts a host's daemon.
start() {
    tools/tsp-launch -f "$out/hosts" -s "$1" --trace >"$out/$1.trace" 2>"$out/$1.log" &
    note_process
}
start a
first=$!
start b
start c

# All answer, and nobody leads yet. The clock of each began with this machine's.
tries=0
until { tools/tsp-status -c -t 1 -f "$out/hosts" >"$out/said" 2>"$out/told" || [ "$(cat "$out/told")" = 'tsp-status: nobody leads' ]; } && [ "$(grep -c ' trace on$' "$out/a.trace")" -ge 1 ]; do
    tries=$((tries + 1))
    [ "$tries" -lt 10 ] || fail "$(cat "$out/told" "$out"/*.log)"
    sleep 1
done
[ "$(cut -d , -f 1-3,6 "$out/said" | paste -sd ' ')" = "name,address,master,reached a,127.0.0.1:$one,,yes b,127.0.0.1:$two,,yes c,127.0.0.1:$three,,yes" ] || fail "they answer '$(cat "$out/said")'"
awk -F , 'NR > 1 && ($4 < -1000 || $4 > 1000 || $5 <= 0) { exit 1 }' "$out/said" || fail "their clocks are '$(cat "$out/said")'"

# The trace is that of a node, and says what was asked.
! grep -v '^[1-9][0-9]* 0 0 [0-9]* [a-z]' "$out/a.trace" || fail 'that is no line of a trace'
grep -q ' took - traceon [0-9]* tsp-launch$' "$out/a.trace" || fail 'the question for the trace is not traced'
grep -q ' post [0-9]* - ack [0-9]* a$' "$out/a.trace" || fail 'its answer is not traced'
grep -q 'in the trace peer 0 is b, 1 a, 2 c' "$out/b.log" || fail 'the peers are not named'
"$program" trace "127.0.0.1:$one" off >"$out/said" || fail 'the trace is not switched off'
[ "$(cat "$out/said")" = 'trace off' ] || fail "the trace is switched off by '$(cat "$out/said")'"

# The corrected time of a daemon is still this machine's, which is said to be unsynchronised, and its state is shown by its trace.
status=0
tools/tsp-now --offset -f "$out/hosts" b >"$out/said" || status=$?
[ "$status" -eq 5 ] || fail "tsp-now ends with status $status, and not with 5"
awk '$1 < -1 || $1 > 1 || $2 != "unsynchronised" { exit 1 }' "$out/said" || fail "the corrected time is ahead by $(cat "$out/said") s"
tools/tsp-watch "$out/a.trace" >"$out/said" || fail "tsp-watch ends with status $?"
grep -q '^[0-9.]* the trace is off$' "$out/said" || fail "the trace is shown as '$(cat "$out/said")'"

# A port that is taken, and turns that are done.
status=0
tools/tsp-launch -f "$out/hosts" -s a >"$out/said" 2>"$out/told" || status=$?
[ "$status" -eq 5 ] && [ ! -s "$out/said" ] || fail "a port that is taken ends with status $status"
status=0
tools/tsp-launch --supervise -f "$out/hosts" -s a >"$out/said" 2>"$out/told" || status=$?
[ "$status" -eq 5 ] && grep -qx "tsp-launch: 127.0.0.1:$one can't be bound: Address already in use" "$out/told" || fail "a port that is taken ends with status $status: $(cat "$out/told")"
echo "d 127.0.0.1:$four slave" >"$out/fourth"
tools/tsp-launch -f "$out/fourth" -s d --turns 1 >"$out/said" 2>"$out/told" || fail "a daemon whose turns are done ends with status $?"
[ ! -s "$out/said" ] || fail 'a daemon that does not trace writes something'

# A daemon that is supervised ends with 0, and one by itself as a program that is told to end.
for case in '0 --supervise' '143'; do
    # shellcheck disable=SC2086  # words
    tools/tsp-launch ${case#"${case%% *}"} -f "$out/fourth" -s d >"$out/said" 2>"$out/told" &
    alone=$!
    tries=0
    until tools/tsp-now --offset --timeout 1 -f "$out/fourth" d >"$out/asked" 2>/dev/null || [ -s "$out/asked" ]; do
        tries=$((tries + 1))
        [ "$tries" -lt 10 ] || fail "a daemon doesn't answer: $(cat "$out/told")"
    done
    kill "$alone"
    status=0
    wait "$alone" 2>/dev/null || status=$?
    [ "$status" -eq "${case%% *}" ] || fail "a daemon that is told to end ends with status $status, and not with ${case%% *}"
done

# One whose trace goes into a file does, and is then silent.
kill "$first"
wait "$first" || fail "a daemon that traces, and is told to end, ends with status $?"
status=0
tools/tsp-status -t 1 -f "$out/hosts" >"$out/said" 2>"$out/told" || status=$?
[ "$status" -eq 1 ] && [ "$(paste -sd , "$out/told")" = 'tsp-status: nobody leads,tsp-status: silent: a' ] || fail "a daemon that is gone gives status $status, '$(cat "$out/told")'"
echo "$check: three daemons answer, trace and end"
