#!/bin/sh
# tsp-watch shows what a daemon's trace tells of its state: in lines, objects, metrics and on a terminal, whatever its input is.
. "$(dirname "$0")/common.sh"
trace=tools/tests/watch.trace

# Wants this status of tsp-watch with these words, under the limit that `limited` sets.
limited=''
ends() {
    wanted=$1
    shift
    status=0
    $limited tools/tsp-watch "$@" >"$out/said" 2>"$out/told" <"$input" || status=$?
    [ "$status" -eq "$wanted" ] || fail "'$*' ends with status $status: $(cat "$out/told")"
}

# Wants these lines of output.
says() {
    printf '%s\n' "$@" | diff - "$out/said" >"$out/differ" || fail "it says otherwise: $(cat "$out/differ")"
}

# Wants this line on standard error, and no other.
tells() {
    [ "$(cat "$out/told")" = "tsp-watch: $1" ] || fail "it tells otherwise: $(cat "$out/told")"
}

# A candidate that is elected, and its first round: of two measurements of a slave the one with the least error counts.
input=$trace
ends 0
says '577.714 stands for election' '582.738 leads' '582.738 round in 4:00' '582.740 b is a slave' \
    '823.795 c is -3.692 ms ahead, give or take 0.732' '825.844 b is -0.575 ms ahead, give or take 1.141' \
    '830.806 a round ends: 3 clocks agree within 3.692 ms, and their mean is -1.423' \
    '830.806 the clock is corrected by -1.423 ms, slewed, and shows 2026-11-27 18:27:03.464 UTC'
[ ! -s "$out/told" ] || fail "$(cat "$out/told")"
cp "$out/said" "$out/lines"
input=/dev/null
ends 0 "$trace"
cmp -s "$out/said" "$out/lines" || fail 'a file gives other lines than standard input'

# What a host that follows does, in a journal's lines: names are those of the launcher, the role is found in the middle of a trace,
# rivals, sends without an answer, late alarms and a switched trace are told; a gateway's lines name the port; a start begins anew.
cat >"$out/journal" <<'END'
Nov 28 09:00:00 east systemd[1]: Started tsp.service.
Nov 28 09:00:01 east tsp[77]: 90 0 0 90000000 took 2 adjtime 7 -1500000 beta
Nov 28 09:00:01 east tsp[77]: 90 0 0 90000000 correct -1500000 slew 1795803775398554
Nov 28 09:00:01 east tsp[77]: 90 0 0 90000000 arm elect 500000000
Nov 28 09:00:03 east tsp[77]: 95 0 0 96000000 late elect
Nov 28 09:00:04 east tsp[77]: 95 0 0 96000000 become loose
Nov 28 09:00:05 east tsp[77]: 96 0 0 99000000 trace off
Nov 28 09:01:00 east tsp[78]: tsp-launch: in the trace peer 0 is gate, 1 alpha, 2 be-ta.example, 3 gamma
Nov 28 09:01:01 east tsp[78]: 1 0 0 1000000 trace on
Nov 28 09:02:30 east tsp[78]: 88 0 1 85000000 post 4 3 slaveup 99 gate
Nov 28 09:02:31 east tsp[78]: 89 0 0 86000000 become master
Nov 28 09:02:32 east tsp[78]: 90 0 0 87000000 rival 2
Nov 28 09:02:33 east tsp[78]: 91 0 0 88000000 gave 2
Nov 28 09:02:34 east tsp[78]: 92 0 0 89000000 abandon
Nov 28 09:02:34 east tsp[78]: 92 0 0 89000000 leave 1
Nov 28 09:02:35 east tsp[78]: 93 0 0 90000000 quit 2
Nov 28 09:02:35 east tsp[78]: 93 0 0 90000000 become follow 2
END
input=$out/journal
ends 0
says '90.000 follows beta' '90.000 the clock is corrected by -1500.000 ms, slewed, and shows 2026-11-27 18:22:55.398 UTC' '90.000 election in 6:50' \
    '96.000 late for election' '96.000 without a master' '99.000 the trace is off' '0.000 the daemon of gate starts' '1.000 the trace is on' \
    '85.000 port 1: follows gamma' '86.000 leads' '87.000 be-ta.example leads too' "88.000 be-ta.example doesn't acknowledge" \
    '89.000 a round is given up' '89.000 alpha is no slave any more' '90.000 be-ta.example tells it to give way' '90.000 follows be-ta.example'
ends 0 --json
python3 - "$out/said" <<'END' || fail 'the JSON says otherwise'
import json, sys
told = [json.loads(line) for line in open(sys.argv[1], encoding='ascii')]
assert len(told) == 16, told
assert told[1] == {'tick_us': 90000000, 'port': 0, 'change': 'correction', 'amount_us': -1500000, 'way': 'slew', 'shown_us': 1795803775398554}, told[1]
assert told[2] == {'tick_us': 90000000, 'port': 0, 'change': 'next', 'alarm': 'elect', 'in_us': 410000000}, told[2]
assert told[6] == {'tick_us': 0, 'port': 0, 'change': 'start', 'name': 'gate', 'peers': ['alpha', 'be-ta.example', 'gamma']}, told[6]
assert told[8] == {'tick_us': 85000000, 'port': 1, 'change': 'role', 'role': 'follow', 'master': 'gamma'}, told[8]
END

# How late looks were, and how long things took: of a file, and of standard input; progress_worked.py has worked traces. (witness.sh runs it)
ends 0 --progress "$trace"
says 'looks at alarms and sends came at most 0.023991 s late: for the alarm window in turn 590 at 582.737788 s' \
    '1 of 1 questions and numbered sends were answered, within at most 0.002192 s' \
    'candidatures: 1, which ended after at most 5.023991 s; by the law at most 5.023991 s' \
    'numbered sends: 1, which ended after at most 0.002192 s; by the law at most 3.023991 s'
cp "$out/said" "$out/progress"
input=$trace
ends 0 --progress -
cmp -s "$out/said" "$out/progress" || fail "of standard input it says '$(cat "$out/said")'"
input=/dev/null
ends 1 --progress -
tells "standard input: no line is one of a daemon's trace"
# (without FILE it is of this machine's unit, also where standard input is no terminal)
TSP_TRACE=$PWD/$trace ends 0 --progress
cmp -s "$out/said" "$out/progress" || fail "of the unit it says '$(cat "$out/said")'"
TSP_TRACE=off ends 3 --progress
tells 'this machine keeps no trace: TSP_TRACE is off'
ends 1 --progress examples/round.trace
tells 'examples/round.trace: a trace of several hosts, as tsp replay writes it, and not one of a daemon'
ends 2 --progress --since today "$trace"
ends 2 --progress --json "$trace"

# Rates: what is measured of a slave, less what corrections moved it and the master since, is its rate. b was -575 us ahead, was sent -848, and
# the master moved by -1423: without a drift it would be 0 us ahead. 5000 us in 240 s are 20.8 parts in a million, and 1141 twice are 9.5. The
# same correction that is sent again counts once. A slave that doesn't acknowledge may have its correction or not, and begins anew.
{ cat "$trace"; cat <<'END'; } >"$out/rounds"
856 0 0 831805781 post 50 1 adjtime 21827 -848 a
1090 0 0 1062737788 ring round
1091 0 0 1063795446 sample 2 5 -3692 732 31331
1098 0 0 1065844282 sample 1 8 5000 1141 21828
1103 0 0 1070805781 close 3 -3692 8692 436
1103 0 0 1070805781 correct 436 slew 1795804263464523
1103 0 0 1070805781 post 59 1 adjtime 21828 -4564 a
1103 0 0 1070805781 post 60 1 adjtime 21829 x a
1103 0 0 1070805781 post 61 1 adjtime
END
input=$out/rounds
ends 0
tail -n 4 "$out/said" >"$out/end" && mv "$out/end" "$out/said"
says '1070.806 a round ends: 3 clocks agree within 8.692 ms, and their mean is +0.436' '1070.806 b is +20.8 parts in a million fast, give or take 9.5' \
    '1070.806 c is -5.9 parts in a million fast, give or take 6.1' \
    '1070.806 the clock is corrected by +0.436 ms, slewed, and shows 2026-11-27 18:31:03.464 UTC'
ends 0 --prometheus "$out/metrics"
for line in 'tsp_daemon_peer_rate_ppm{peer="b"} 20.833' 'tsp_daemon_peer_rate_error_ppm{peer="b"} 9.508' 'tsp_daemon_peer_correction_seconds{peer="b"} -0.004564'; do
    grep -qxF "$line" "$out/metrics" || fail "the metrics lack $line"
done
cp "$out/metrics" "$out/masters"
echo '1104 0 0 1074805781 gave 1' >>"$out/rounds"
ends 0 --prometheus "$out/metrics"
! grep 'rate_ppm{peer="b"}' "$out/metrics" || fail 'a slave that may have its correction or not has a rate'
# A slave's own: 12 ms behind in each of two rounds of 240 s are -50 parts in a million.
printf '%s\n' '5 0 0 1000000 took 1 settime 7 1795803775398554 a' '5 0 0 1000000 correct 5 step 1795803775398554' '9 0 0 200000000 took 1 adjtime 8 300 a' \
    '9 0 0 200000000 correct 300 slew 1795803775398554' '9 0 0 200000000 took 1 settime 9 1795803775398554 a' '9 0 0 200000000 correct -9999999 step 1795803775398554' \
    '10 0 0 440000000 took 1 adjtime 10 12000 a' '10 0 0 440000000 correct 12000 slew 1795803775398554' \
    '11 0 0 680000000 took 1 adjtime 11 12000 a' '11 0 0 680000000 correct 12000 slew 1795803775398554' >"$out/slave"
input=$out/slave
ends 0 --prometheus "$out/metrics"
grep -qxF 'tsp_daemon_rate_ppm -50.0' "$out/metrics" || fail "a slave's own rate is '$(grep rate "$out/metrics")'"
cp "$out/metrics" "$out/slaves"

# A counter's rate is learned of what corrections add up to: 12 ms in 240 s are 50 parts in a million, to which comes what the launcher says
# that the daemon has. A clock that is set, an amount that no rate explains, and another master begin anew. It is kept in a file.
{ echo 'tsp-launch: in the trace peer 0 is b, 1 a, 2 c'; echo 'tsp-launch: the daemon counts -7000 parts in 10^9 faster than the machine'
    echo '5 0 0 1000000 become follow 1'; for round in $(seq 40); do
    tick=$((1000000 + round * 240000000)) amount=12000 word="adjtime $round"
    case $round in 5) word="settime $round" ;; 6) amount=900000 ;; 30) printf '%s\n' "$round 0 0 $((tick - 9)) become follow 2" ;; esac
    printf '%s\n' "$round 0 0 $tick took 1 $word $amount a" "$round 0 0 $tick correct $amount slew 1795803775398554"
done; } >"$out/learning"
input=$out/learning
ends 0 --learn "$out/rate"
grep -o '^.* the counter needs .*' "$out/said" >"$out/needs"
mv "$out/needs" "$out/said"
says '961.000 the counter needs +43.000 parts in a million, give or take 0.006, and has -7.000' \
    '2401.000 the counter needs +43.000 parts in a million, give or take 0.003, and has -7.000' \
    '2641.000 the counter needs +43.000 parts in a million, give or take 0.002, and has -7.000' \
    '3361.000 the counter needs +43.000 parts in a million, give or take 0.001, and has -7.000' \
    '5041.000 the counter needs +43.000 parts in a million, give or take 0.001, and has -7.000'
[ "$(head -n 1 "$out/rate")" = '43000 1' ] || fail "the file has $(head -n 1 "$out/rate")"
[ "$(cat "$out/told")" = "tsp-watch: $out/rate: nothing is learned of the counter's rate yet" ] || fail "it tells $(cat "$out/told")"
ends 0 --prometheus "$out/metrics"
cp "$out/metrics" "$out/learned"
grep -qxF 'tsp_daemon_counter_learned_ppm 43.000' "$out/learned" || fail "the metrics have $(grep counter_ "$out/learned")"
for text in '' '1000001 5' '5' '5 -1' 'x y' '5 6 7'; do
    printf '%s\n' "$text" >"$out/rate"
    ends 0 --learn "$out/rate"
    [ "$(cat "$out/told")" = "tsp-watch: $out/rate: it has no rate from -1000000 to 1000000, and its error; the rate is 0" ] || fail "'$text': $(cat "$out/told")"
done
ends 0 --learn "$out/none/rate"
grep -qxF "tsp-watch: what is learned isn't kept: $out/none/rate: No such file or directory" "$out/told" || fail "it tells $(cat "$out/told")"
[ "$(wc -l <"$out/told")" -eq 2 ] || fail "it tells $(cat "$out/told")"

# Metrics: a file that is always whole, and nothing beside it.
input=$trace
ends 0 --prometheus "$out/metrics"
[ ! -s "$out/said" ] || fail 'metrics are printed too'
for line in 'tsp_daemon_tick_seconds 830.809232' 'tsp_daemon_role{port="0",role="master"} 1' 'tsp_daemon_role{port="0",role="candidate"} 0' \
    'tsp_daemon_slaves{port="0"} 2' 'tsp_daemon_due_seconds{port="0",alarm="round"} 822.737788' 'tsp_daemon_peer_offset_seconds{peer="c"} -0.003692' \
    'tsp_daemon_peer_error_seconds{peer="b"} 0.001141' 'tsp_daemon_correction_seconds -0.001423' 'tsp_daemon_correction_time_seconds 1795804023.464523' \
    'tsp_daemon_corrections_total 1' 'tsp_daemon_late_total 0' '# TYPE tsp_daemon_late_total counter'; do
    grep -qxF "$line" "$out/metrics" || fail "the metrics lack $line"
done
[ "$(find "$out" -name '.metrics*' | wc -l)" -eq 0 ] || fail 'something is left beside the file'

# The page names the metrics that there are, and no others.
cat "$out/metrics" "$out/slaves" "$out/masters" "$out/learned" | sed -n 's/^# TYPE \([a-z_]*\) .*/\1/p' | sort -u >"$out/there"
grep -o 'tsp_daemon_[a-z_]*' man/tsp-watch.1 | sort -u | diff - "$out/there" >"$out/differ" || fail "the page has other metrics: $(cat "$out/differ")"

# Lines come out as they come in, while the input goes on.
mkfifo "$out/pipe"
tools/tsp-watch "$out/pipe" >"$out/live" 2>"$out/told" &
watching=$!
exec 3>"$out/pipe"
head -n 1 "$trace" >&3
tries=0
until [ -s "$out/live" ]; do
    tries=$((tries + 1))
    [ "$tries" -lt 100 ] || fail 'a line is held back'
    sleep 0.1
done
exec 3>&-
wait "$watching" || fail "a pipe ends with status $?"

# On a terminal it draws the state, in as many columns as there are.
if has script; then
    printf '#!/bin/sh\nstty cols 60 rows 7\nexec tools/tsp-watch %s\n' "$trace" >"$out/draw"
    chmod +x "$out/draw"
    script -qec "$out/draw" /dev/null </dev/null | tr -d '\r' | sed 's/\x1b\[[0-9]*[A-Z]//g' | tail -n 6 >"$out/drawn"
    sed 's/ *$//' "$out/drawn" >"$out/said"
    says 'a, 13:50 after its start, at its last line' 'role         leads' 'next         round in 0:00' \
        'correction   -1.423 ms slewed, 0:00 ago, to 2026-11-27 18:2' 'late         never' ''
else
    skip 'there is no script' 'a terminal'
fi

# Where a quiet trace's last line is in time, and the unit's on a terminal: its file was written a minute ago.
said=$(python3 -B tools/tests/placed.py "$out") || fail "the last line is placed otherwise"
echo "$check: a daemon's tick now is found $said"
if has script; then
    cp "$trace" "$out/own"
    touch -d '60 seconds ago' "$out/own"
    printf '#!/bin/sh\nstty cols 60 rows 7\nTSP_TRACE=%s timeout 6 tools/tsp-watch\n' "$out/own" >"$out/draw"
    script -qec "$out/draw" /dev/null </dev/null | tr -d '\r' | sed 's/\x1b\[[0-9]*[A-Z]//g' >"$out/drawn"
    grep -q '^a, 14:5[0-9] after its start *$' "$out/drawn" || fail "of a quiet trace it draws '$(cat "$out/drawn")'"
fi

# Input that is none, or can't be read.
printf 'hello\n1 0 0 x become master\n1 0 0 5 become king\n1 0 9 5 become master\n0 0 0 5 become master\n1 0 0 5 sample 1 2 3\n' >"$out/words"
printf '\377\376\0\0 not text \200\n' >"$out/octets"
: >"$out/empty"
mkdir "$out/folder"
for file in words octets empty; do
    input=$out/$file
    ends 1
    tells "standard input: no line is one of a daemon's trace"
    ends 1 --prometheus "$out/metrics" "$out/$file"
    tells "$out/$file: no line is one of a daemon's trace"
done
input=/dev/null
ends 3 "$out/none"
tells "$out/none: No such file or directory"
ends 3 "$out/folder"
tells "$out/folder: Is a directory"
status=0
tools/tsp-watch <&- >"$out/said" 2>"$out/told" || status=$?
[ "$status" -eq 3 ] || fail "a closed input ends with status $status"
tells 'standard input: Bad file descriptor'
for words in '--all' 'a b' '--json --prometheus x' '--prometheus'; do
    # shellcheck disable=SC2086  # words
    ends 2 $words
    [ "$(wc -l <"$out/told")" -eq 1 ] && [ ! -s "$out/said" ] || fail "'$words': it says '$(cat "$out/said" "$out/told")'"
done

# A line with a name as no daemon writes it, with control characters or octets that are no text, is passed over; a daemon writes such octets by
# their numbers, which is told as it stands; two peers of one name are two series; and a trace of several hosts is no daemon's.
printf '5 0 0 5 took 1 adjtime 1 2 e%%1bvil\n5 0 0 5 took 1 adjtime 1 2 e\033[31mraw\n5 0 0 6 took 2 adjtime 1 2 \377\303\007b\n5 0 0 7 join 1\n5 0 0 7 join 2\n5 0 0 7 sample 1 2 3 4 5\n5 0 0 7 sample 2 2 3 4 5\n' >"$out/odd"
for locale in C C.UTF-8; do
    for form in '' --json; do
        # shellcheck disable=SC2086  # a word or none
        LC_ALL=$locale PYTHONCOERCECLOCALE=0 PYTHONUTF8=0 tools/tsp-watch $form "$out/odd" >"$out/said" || fail 'octets that are no text end it'
        ! LC_ALL=C grep '[^ -~]' "$out/said" || fail 'a control character is printed'
    done
done
grep -q '"e%1bvil", "offset_us"' "$out/said" && ! grep -q raw "$out/said" || fail 'a name with a control character is told in another way'
printf 'tsp-launch: in the trace peer 0 is a, 1 b, 2 b\n' | cat - "$out/odd" >"$out/twice"
LC_ALL=C tools/tsp-watch --prometheus /dev/stdout "$out/twice" | grep -v '^#' | sed 's/ [^ ]*$//' | sort | uniq -d >"$out/said"
[ ! -s "$out/said" ] || fail "there is twice $(cat "$out/said")"
input=/dev/null
printf '1 0 0 5 become loose\n1 1 0 5 become loose\n' >"$out/several"
ends 1 "$out/several"
tells "$out/several: a trace of several hosts, as tsp replay writes it, and not one of a daemon"
ends 1 /dev/zero
tells "/dev/zero: no line is one of a daemon's trace"

# Lines among other octets, one too long, a last one without its line feed, and 64 MiB in little memory.
{ cat "$out/octets"; head -c 3000 /dev/zero | tr '\0' x; printf ' 5 0 0 6 become loose\n5 0 0 7 become loose\r\n6 0 0 8 become candidate'; } >"$out/mixed"
input=$out/mixed
ends 0
says '0.000 without a master' '0.000 stands for election'
head -c 67108864 /dev/zero >"$out/huge"
input=$out/huge
! has prlimit || limited='prlimit --as=400000000'
ends 1
limited=''
tells "standard input: no line is one of a daemon's trace"
rm "$out/huge"

# Output that nobody takes.
status=0
tools/tsp-watch "$trace" >/dev/full 2>"$out/told" || status=$?
[ "$status" -eq 4 ] || fail "a full output ends with status $status"
tells 'standard output: No space left on device'
status=0
tools/tsp-watch "$trace" >&- 2>"$out/told" || status=$?
[ "$status" -eq 4 ] || fail "a closed output ends with status $status"
tells 'standard output: Bad file descriptor'
input=$trace
ends 4 --prometheus "$out/none/metrics"
tells "$out/none/metrics: No such file or directory"
for _ in $(seq 500); do cat "$trace"; done >"$out/long"
{ tools/tsp-watch "$out/long" 2>"$out/told" || :; } | head -n 1 >/dev/null
[ ! -s "$out/told" ] || fail "where nobody reads on it tells $(cat "$out/told")"

# This machine has no trace, neither in a file nor in the journal: --lines says so, and --own says what it waits for, and takes it once it is there.
mkdir "$out/path" "$out/log"
printf '#!/bin/sh\n' >"$out/path/journalctl"
chmod +x "$out/path/journalctl"
cat >"$out/elsewhere" <<'END'
import runpy
import sys
sys.dont_write_bytecode = True
sys.path.insert(0, 'tools')
from tsp_daemon import kept
from tsp_supervise import trail
kept.VARIABLES, trail.PATH, sys.argv = '/nonexistent', sys.argv[1], ['tools/tsp-watch', *sys.argv[2:]]
runpy.run_path('tools/tsp-watch', run_name='__main__')
END
status=0
PATH=$out/path:$PATH TSP_TRACE='' python3 "$out/elsewhere" "$out/log/none/trace" --lines >"$out/said" 2>"$out/told" || status=$?
[ "$status" -eq 3 ] && [ ! -s "$out/said" ] || fail "without a trace --lines ends with $status: $(cat "$out/said")"
tells "there is no trace at $out/log/none/trace"
: >"$out/told"
PATH=$out/path:$PATH TSP_TRACE='' python3 "$out/elsewhere" "$out/log/none/trace" --own >"$out/said" 2>"$out/told" &
note_process
for _ in $(seq 200); do [ ! -s "$out/told" ] || break; sleep 0.1; done
tells "waits for $out/log/none/trace, which isn't there yet"
mkdir "$out/log/none"
cp "$trace" "$out/log/none/trace"
for _ in $(seq 200); do [ ! -s "$out/said" ] || break; sleep 0.1; done
head -n 1 "$out/said" | grep -q '^577.714 stands for election$' || fail "once there is a trace --own says '$(cat "$out/said" "$out/told")'"
end_all

# An interrupt ends it by the signal, without a word.
ended=$(interrupted tools/tsp-watch)
[ "$ended" = "(b'', b'tsp-watch: interrupted\\n') -2" ] || fail "an interrupt ends with $ended"
echo "$check: lines, objects, metrics, a terminal, and bad input"
