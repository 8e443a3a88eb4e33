#!/bin/sh
# tsp-witness puts traces of daemons together, which are then alike and hold, and finds what was changed in them, or is missing. These traces
# are of daemons on networks of dev/network, but for `hand` and `repeated`, which were worked out by hand.
. "$(dirname "$0")/common.sh"
serving_program
export TSP_PROGRAM="$program"
given=tools/tests/witness

# Witnesses the traces of a folder by a hosts file; a daemon's name stands before the dash, and the starts are in the order of their numbers.
witness() {
    hosts=$1 folder=$2
    shift 2
    set -- "$@" --file "$given/$hosts.hosts"
    for trace in "$folder"/*.trace; do
        name=$(basename "$trace")
        set -- "$@" "${name%%-*}=$trace"
    done
    tools/tsp-witness "$@"
}

# Wants this status and this first line of a check.
wants() {
    wanted=$1 line=$2
    shift 2
    status=0
    witness "$@" --check >"$out/said" 2>"$out/besides" || status=$?
    [ "$status" -eq "$wanted" ] && [ "$(head -n 1 "$out/said")" = "$line" ] || fail "$*: status $status, $(cat "$out/said" "$out/besides")"
}

# Wants these texts in what was said, or told besides.
tells() {
    for text; do
        cat "$out/said" "$out/besides" | grep -q -F -- "$text" || fail "'$text' isn't told, but: $(cat "$out/said" "$out/besides")"
    done
}

# How many lines the daemons wrote into the files of a folder.
written() {
    cat "$1"/*.trace | grep -c '^[0-9]'
}

# Copies the traces of a folder to `changed`, with one file changed by a script of sed.
change() {
    rm -rf "$out/changed"
    cp -r "$given/$1" "$out/changed"
    sed "$3" "$given/$1/$2.trace" >"$out/changed/$2.trace"
    ! cmp -s "$given/$1/$2.trace" "$out/changed/$2.trace" || fail "$3 changes nothing in $2"
}

for worked in witness_times distances_worked witness_long witness_wander witness_again progress_worked; do
    status=0
    PYTHONPATH=tools:dev python3 -B "tools/tests/$worked.py" "$TSP_PROGRAM" >"$out/said" 2>"$out/told" || status=$?
    [ "$status" -ne 77 ] || { skip "$(cat "$out/told")" 'how hosts with many peers, and long starts, are judged'; continue; }
    [ "$status" -eq 0 ] || fail "$(cat "$out/told")"
done

# The daemons' own lines are all alike: in a run that was worked out by hand, in one whose SETTIME is repeated right behind its late take,
# with a killed and returned master and a date, in strict elections, with two gateways between the same two networks, whose LOOPs come back, and
# with a host that starts anew within a round, and answers its master before it traces.
for network in hand repeated three strict loops unwritten; do
    wants 0 "$(written "$given/$network") acts alike, holds" "$network" "$given/$network"
    [ ! -s "$out/besides" ] || fail "$network: $(cat "$out/besides")"
done
grep -q ' took [0-9]* loop ' "$given/loops/b-2.trace" || fail 'no LOOP comes back'
first=$(sed -n 's/.* post \([0-9]*\) .*/\1/p' "$given/unwritten/b-3.trace" | head -n 1)
[ "$first" -eq 2 ] || fail "$first datagrams, and not two, were posted before the trace"

# The starts of one host in one journal, with lines of others between.
{
    echo 'Started tsp.service - Clock synchronisation by the Time Synchronization Protocol.'
    for start in a-1 a-4; do
        echo 'tsp-launch: in the trace peer 0 is a, 1 b, 2 c'
        cat "$given/three/$start.trace"
    done
} | sed 's/^/Jan 04 06:00:00 alpha tsp[99]: /' >"$out/journal"
rm -rf "$out/changed"
cp -r "$given/three" "$out/changed"
rm "$out/changed"/a-*
cp "$out/journal" "$out/changed/a-1.trace"
wants 0 "$(written "$given/three") acts alike, holds" three "$out/changed"
sed -i 's/1 b, 2 c$/1 c, 2 b/' "$out/changed/a-1.trace"
wants 3 '' three "$out/changed"
tells 'the daemon was started with the peers 0 a, 1 c, 2 b; by the hosts file they are 0 a, 1 b, 2 c'

# A supervisor left out questions for the clock, and says how many lines that are.
rm -rf "$out/changed"
cp -r "$given/three" "$out/changed"
for trace in "$out/changed"/*.trace; do
    awk '/ took - request | - reply / { left++; next } left { print "... " left " lines of supervisors left out"; left = 0 } { print }' "$trace" >"$out/trace"
    mv "$out/trace" "$trace"
done
grep -q '^\.\.\. 4 lines' "$out/changed"/*.trace || fail 'no question is left out'
wants 0 "$(written "$out/changed") acts alike, holds" three "$out/changed"
[ ! -s "$out/besides" ] || fail "questions that were left out: $(cat "$out/besides")"
sed -i 's/^\.\.\. 4 lines/... 2 lines/' "$out/changed"/*.trace
wants 1 "$(written "$out/changed") acts alike, holds" three "$out/changed"

# Two daemons as the launcher starts them, with what both write in one file as a journal has it; each is asked for its clock.
free_ports 2 >"$out/ports"
read -r one two <"$out/ports"
printf '%s\n' "a 127.0.0.1:$one master" "b 127.0.0.1:$two slave" >"$out/hosts"
mkdir "$out/launched"
for name in a b; do
    tools/tsp-launch --file "$out/hosts" --self "$name" --turns 6 --trace --spread 0 --program "$TSP_PROGRAM" >"$out/launched/$name" 2>&1 &
done
tries=0
until [ "$(cat "$out/launched/a" "$out/launched/b" | grep -c ' trace on$')" -eq 2 ]; do
    tries=$((tries + 1))
    [ "$tries" -lt 50 ] || fail "the daemons don't trace: $(cat "$out/launched/a" "$out/launched/b")"
    sleep 0.1
done
for port in "$one" "$two"; do
    "$TSP_PROGRAM" clockdiff "127.0.0.1:$port" >"$out/clock" || fail "a daemon's clock isn't told"
done
wait
status=0
tools/tsp-witness --check --file "$out/hosts" "a=$out/launched/a" "b=$out/launched/b" >"$out/said" 2>"$out/besides" || status=$?
[ "$(cat "$out/said")" = "$(cat "$out/launched/a" "$out/launched/b" | grep -c '^[0-9]') acts alike, holds" ] && [ "$status" -eq 0 ] || fail "daemons of the launcher: $(cat "$out/said" "$out/besides")"
grep -q ' reply ' "$out/launched/a" || fail 'the trace has no clock'

# Clocks that drift fit no times where they may not, and do else; a schedule has their rates. What contradicts each other is named.
wants 1 "$(written "$given/drifting") acts alike, but no counters within a drift of 0 fit what was taken when" drifting "$given/drifting" --drift 0
tells 'these contradict each other by ' ' parts in a million apart, and may be 0' '  b in turn ' ' takes "' ' posts'
wants 0 "$(written "$given/drifting") acts alike, holds" drifting "$given/drifting"
witness drifting "$given/drifting" --drift 200 --schedule "$out/schedule"
rate=$(sed -n 's/^node b \(-[0-9]*\) .*/\1/p' "$out/schedule")
[ "$rate" -le -95 ] && [ "$rate" -ge -105 ] || fail "a clock that is slow by a ten-thousandth has the rate $rate"
status=0
witness drifting "$given/drifting" --drift 0 --schedule "$out/schedule" 2>"$out/besides" || status=$?
[ "$status" -eq 3 ] || fail "a schedule of clocks that fit none gives the status $status"
grep -q 'no constant rates within a drift of 0 fit' "$out/besides" || fail "of clocks that fit no schedule it says '$(cat "$out/besides")'"

# A host whose wall clock was set between two starts, and one whose counter had a rate and that was started again: all is judged. A schedule
# ends before that start, and an audit with it.
wants 0 "$(written "$given/stepped") acts alike, holds" stepped "$given/stepped"
wants 0 "$(written "$given/rated") acts alike, holds" rated "$given/rated" --drift 1000
wants 1 "$(written "$given/stepped") acts alike, holds; the audit holds" stepped "$given/stepped" --audit
tells 'b (start 2): its wall clock had been stepped by 500'
wants 1 "$(written "$given/rated") acts alike, holds; the audit holds" rated "$given/rated" --drift 1000 --audit
tells 'c (start 2): its counter was 1000000 parts in 10^9 faster than its wall clock'
# (a rate that the daemon took within its life, as learned ones are)
change rated c-2 '2s/ 1000000 / 3 /
3a\
tsp-launch: from tick 8437 on the daemon counts 1000000 parts in 10^9 faster than the machine'
wants 1 "$(written "$given/rated") acts alike, holds; the audit holds" rated "$out/changed" --drift 1000 --audit
tells 'c (start 2): its counter was 3 to 1000000 parts in 10^9 faster than its wall clock'
wants 1 "$(written "$given/rated") acts alike, but no counters within a drift of 100 fit what was taken when" rated "$given/rated"
tells 'with any other counter of c all fits: its counter is beyond the drift'

# A daemon changed an octet of a datagram on its way out: it is named, with what it posted. By what came all is as it should be.
wants 1 "$(written "$given/spoiled") acts alike, holds" spoiled "$given/spoiled"
tells 'took "adjtime 24980 5431 b" of b' 'it posted "adjtime 24980 5430 b"'
wants 0 "$(written "$given/spoiled") acts alike, holds" spoiled "$given/spoiled" --altered

# A datagram that was changed on its way, and equals by chance what was posted three seconds later: it is named, and there is a verdict. (what is
# answered to it is changed likewise)
change three b-3 '/^571 /{s/ request \([0-9]*\) 0$/ request \1 6/;s/ reply \([0-9]*\) \([0-9]*\) 0 / reply \1 \2 6 /;}'
wants 1 "$(written "$out/changed") acts alike, holds" three "$out/changed"
tells 'b took "request 1800000007143483 6" of a in turn 571, which by its trace posted that to it at another time alone'
wants 0 "$(written "$out/changed") acts alike, holds" three "$out/changed" --altered

# Acts that the rules don't give: a correction by another amount, a role that the hosts file doesn't allow.
change three c-2 's/ correct \(-\{0,1\}[0-9]*\)\([0-9]\) slew/ correct \12\2 slew/'
status=0
witness three "$out/changed" --check >"$out/said" 2>"$out/besides" || status=$?
[ "$status" -eq 1 ] || fail "a changed correction gives the status $status"
tells 'acts alike, and then one that differs' 'c, turn ' ': it did "correct ' ', and by the rules it is "correct ' 'the datagram before it: "adjtime '
status=0
witness hand "$given/strict" --check >"$out/said" 2>"$out/besides" || status=$?
[ "$status" -eq 3 ] || fail "traces of another network give the status $status"

# Lines that are lost: of a post in the midst, and of the end of a turn in which a daemon was killed, which the rules give.
change three b-3 '/ post 9 /d'
status=0
witness three "$out/changed" --check >"$out/said" 2>"$out/besides" || status=$?
[ "$status" -eq 1 ] || fail "a lost line gives the status $status"
tells 'b: lines are lost before turn '
change hand a-1 '$d'
wants 0 "$(written "$out/changed") acts alike, holds" hand "$out/changed"

# Traces that end before any line tells a clock: what is known of the words tells enough.
change hand b-2 '/ took 1 settime/,$d'
sed -i '/ took 1 ack /,$d' "$out/changed/a-1.trace"
wants 0 "$(written "$out/changed") acts alike, holds" hand "$out/changed"
sed -i '/ settime /d' "$out/changed/a-1.trace"
wants 0 "$(written "$out/changed") acts alike, holds" hand "$out/changed"

# A network with more hosts than a replay has room for: a daemon runs once more. Where there is no cc for that, times are judged, and it is said whose acts
# aren't. A host's replay has its own networks' alone.
{
    cat "$given/hand.hosts"
    i=3
    while [ "$i" -le 100 ]; do echo "h$i 192.0.2.$i slave"; i=$((i + 1)); done
} >"$out/hosts"
change hand b-2 '/in the trace peer/d'
set -- "a=$given/hand/a-1.trace" "b=$out/changed/b-2.trace"
status=0
PATH=$out/bin tools/tsp-witness --check --file "$out/hosts" "$@" >"$out/said" 2>"$out/besides" || status=$?
many='which has more than 63 peers' without='there is no cc that works, by which a clone makes tsp_again.so'
[ "$status" -eq 1 ] && [ "$(cat "$out/said")" = "0 acts alike, holds so far; not compared: a, $many; b, $many; $without" ] || fail "100 hosts: $(cat "$out/said" "$out/besides")"
if has cc; then
    # (these hosts would post to their other peers too)
    status=0
    tools/tsp-witness --check --file "$out/hosts" "$@" >"$out/said" 2>"$out/besides" || status=$?
    [ "$status" -eq 1 ] && [ "$(head -n 1 "$out/said")" = '6 acts alike, and then one that differs, on each of 2 starts' ] || fail "100 hosts: $(cat "$out/said" "$out/besides")"
    tells 'a, turn 50, tick 80000100: it did "nothing more", and by the rules it is "post 2 2 masterreq 0 a"'
fi
sed 's/^h3 /+\nh3 /' "$out/hosts" >"$out/hosts2"
tools/tsp-witness --check --file "$out/hosts2" "$@" >"$out/said" 2>"$out/besides" || fail "100 hosts in two networks: $(cat "$out/said" "$out/besides")"
[ "$(cat "$out/said")" = "$(written "$given/hand") acts alike, holds" ] || fail "100 hosts in two networks: $(cat "$out/said" "$out/besides")"

# A host without a trace, and a trace that begins late.
rm -rf "$out/changed"
cp -r "$given/three" "$out/changed"
rm "$out/changed/c-2.trace"
wants 1 "$(written "$out/changed") acts alike, holds" three "$out/changed"
tells "b took $(grep -c ' took 2 ' "$out/changed/b-3.trace") datagrams of c, which has no trace here"
change hand b-2 '/ 0 0 1000000 /d'
status=0
witness hand "$out/changed" --check >"$out/said" 2>"$out/besides" || status=$?
tells 'b: the trace begins 80 s after the start'

# What can't be used ends with one line and status 3.
refuses() {
    status=0
    tools/tsp-witness --check "$@" >"$out/said" 2>"$out/besides" || status=$?
    [ "$status" -eq 3 ] && [ ! -s "$out/said" ] && [ "$(wc -l <"$out/besides")" -eq 1 ] || fail "$*: status $status, $(cat "$out/said" "$out/besides")"
}
refuses --file "$out/none" "a=$given/hand/a-1.trace"
refuses --file "$given/hand.hosts" "a=$out/none"
refuses --file "$given/hand.hosts" "x=$given/hand/a-1.trace"
refuses --file "$given/hand.hosts" "a=$given/hand.hosts"
refuses --file "$given/hand.hosts" "a=$given/three/a-1.trace"
for text in 'a 192.0.2.1' 'a 192.0.2.1 leader' 'a 192.0.2.1 master\na 192.0.2.2 master' 'a 192.0.2.1 master\nb 192.0.2.2 strict' \
    'a 192.0.2.1 master\nb 192.0.2.2 slave\n+\nb 192.0.2.2 slave\na 192.0.2.1 master' '+'; do
    printf '%b\n' "$text" >"$out/hosts"
    refuses --file "$out/hosts" "a=$given/hand/a-1.trace"
done
# Hostile traces end within bounds of time and memory, in one line, or in ten of complaints: numbers beyond 64 bits, lines that are too long, a
# start line of 40 MiB, lines without an end, and files without one.
bounded() {
    wanted=$1
    shift
    status=0
    # shellcheck disable=SC2086  # words or none
    timeout 30 $limited tools/tsp-witness --check --file "$given/hand.hosts" "$@" >"$out/said" 2>"$out/besides" || status=$?
    [ "$status" -eq "$wanted" ] && [ "$(wc -l <"$out/besides")" -le 10 ] && ! grep -q Traceback "$out/besides" || fail "$*: status $status, $(head -c 2000 "$out/besides")"
}
# (a program that checks its own memory needs more)
limit_memory() {
    limited=''
    ! has prlimit || ! prlimit "--as=$1" "$program" show </dev/null 2>"$out/told" || limited="prlimit --as=$1"
}
limit_memory 400000000
hand=$given/hand
great=99999999999999999999999999
for line in "5 0 0 $great trace on" "$great 0 0 5 trace on" "5 0 0 5 took - ack $great x" "5 0 0 5 correct $great slew -$great" "5 0 0 5 post 5 1 ack $great a"; do
    { cat "$hand/a-1.trace"; echo "$line"; } >"$out/hostile"
    bounded 1 "a=$out/hostile" "b=$hand/b-2.trace"
    tells 'this line has a number beyond 64 bits, and is passed over'
done
for line in '900 0 0 18446744073709551615 trace on' '9999999 0 0 999999999 took - ack 18446744073709551615 x' '18446744073709551615 0 0 9223372036854775807 correct 5 step -9223372036854775808' \
    '900 0 0 999999999 took - loop 5 18446744073709551615 x' '900 0 0 999999999 arm elect 18446744073709551615' '900 0 0 999999999 took - date 5 9223372036854775807 x'; do
    { cat "$hand/a-1.trace"; echo "$line"; } >"$out/hostile"
    status=0
    timeout 30 tools/tsp-witness --check --file "$given/hand.hosts" "a=$out/hostile" "b=$hand/b-2.trace" >"$out/said" 2>"$out/besides" || status=$?
    case $status in 1 | 3) ;; *) fail "'$line' ends with status $status: $(cat "$out/besides")" ;; esac
    [ "$(wc -l <"$out/besides")" -le 10 ] && ! grep -q Traceback "$out/besides" || fail "'$line': $(cat "$out/besides")"
done
# (as journalctl -r writes them)
awk 'BEGIN { for (i = 104000; i > 0; i--) print i " 0 0 " i * 1000 " trace on" }' >"$out/hostile"
bounded 3 "a=$out/hostile" "b=$hand/b-2.trace"
tells 'there are more than 1000 starts, or the lines stand in the order of `journalctl -r`'
{ cat "$hand/a-1.trace"; printf '5 0 0 5 took - ack 5 '; head -c 3000 /dev/zero | tr '\0' x; echo; } >"$out/hostile"
bounded 0 "a=$out/hostile" "b=$hand/b-2.trace"
{ printf 'tsp-launch: in the trace peer 0 is a'; awk 'BEGIN { for (i = 1; i < 4000000; i++) printf ", 1 bbbbbb" }'; echo; cat "$hand/a-1.trace"; } >"$out/hostile"
[ "$(wc -c <"$out/hostile")" -ge 35000000 ] || fail 'the start line is too short'
bounded 3 "a=$out/hostile" "b=$hand/b-2.trace"
bounded 3 "a=/dev/zero" "b=$hand/b-2.trace"
tells '/dev/zero: no line of a trace is in its first 16 MiB'
bounded 3 --file /dev/zero "a=$hand/a-1.trace"
yes 'nothing at all' | head -c 40000000 >"$out/hostile"
bounded 3 "a=$out/hostile" "b=$hand/b-2.trace"
{ cat "$hand/a-1.trace"; yes '5 0 0 7 become king' | head -c 40000000; } >"$out/hostile"
bounded 1 "a=$out/hostile" "b=$hand/b-2.trace"
[ "$(wc -l <"$out/besides")" -eq 10 ] && grep -q '^tsp-witness: and 19[0-9]* more$' "$out/besides" || fail "of two million bad lines it says '$(tail -n 1 "$out/besides")'"
rm "$out/hostile"
# What can't be written isn't taken for a trace that can't be read.
for case in 'standard output=' '/dev/full=--schedule /dev/full'; do
    status=0
    # shellcheck disable=SC2086  # words
    witness loops "$given/loops" ${case#*=} >/dev/full 2>"$out/besides" || status=$?
    [ "$status" -eq 1 ] && [ "$(cat "$out/besides")" = "tsp-witness: ${case%%=*}: No space left on device" ] || fail "of a full disk it says '$(cat "$out/besides")'"
done
# A file that isn't there, in a line without a number; and a trace that comes by a pipe.
bounded 3 "a=$out/none" "b=$hand/b-2.trace"
[ "$(cat "$out/besides")" = "tsp-witness: $out/none: No such file or directory" ] || fail "of a file that isn't there it says '$(cat "$out/besides")'"
mkfifo "$out/pipe"
cat "$hand/a-1.trace" >"$out/pipe" &
bounded 0 "a=$out/pipe" "b=$hand/b-2.trace"
echo "$check: $(cat "$given"/*/*.trace | wc -l) lines of daemons, and what is changed or missing in them"
