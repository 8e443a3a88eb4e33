#!/bin/sh
# tsp-status asks each host of the hosts file, and says which master each names, how its clock stands, and what isn't well.
. "$(dirname "$0")/common.sh"
unset TSP_HOSTS TSP_SELF TSP_TURNS TSP_WAIT TSP_TRACE TSP_PROGRAM
cp tools/tests/launch.hosts "$out/hosts"

# A program that answers a query with what stands in a file of its address, and hangs where there is none. A clock is asked for alone.
cat >"$out/fake" <<'END'
#!/bin/sh
echo "$1 $2" >>"$CALLS"
[ -e "$ANSWERS/$1-$2" ] || exec sleep 30
read -r status answer <"$ANSWERS/$1-$2"
if [ "$1" = clockdiff ]; then
    mkdir "$BUSY" 2>/dev/null || echo "$2" >>"$BUSY-again"
    sleep 0.02
    rmdir "$BUSY"
fi
echo "$answer"
exit "$status"
END
chmod +x "$out/fake"
mkdir "$out/answers"
export CALLS="$out/calls" ANSWERS="$out/answers" BUSY="$out/busy"

# What a host answers to both queries: the master, and the difference with its error.
answers() {
    printf '0 %s\n' "$2" >"$ANSWERS/msite-$1"
    printf '0 clockdiff %s\n' "$3" >"$ANSWERS/clockdiff-$1"
}

# Lets a host be silent: the program says so itself, in its own time.
silence() {
    for query in msite clockdiff; do echo '6 no answer' >"$ANSWERS/$query-$1"; done
}

# Lets the program hang that asks a host, so that it has to be ended.
hang() {
    rm -f "$ANSWERS/msite-$1" "$ANSWERS/clockdiff-$1"
}

# Wants this status of tsp-status with these words. It waits for as long as it does of itself.
ends_in_time() {
    wanted=$1
    shift
    : >"$CALLS"
    status=0
    tools/tsp-status --program "$out/fake" --file "$out/hosts" "$@" >"$out/said" 2>"$out/told" || status=$?
    [ "$status" -eq "$wanted" ] || fail "'$*' ends with status $status: $(cat "$out/said" "$out/told")"
}

# The same, with patience: what an answer says doesn't depend on how fast this machine is.
ends() {
    wanted=$1
    shift
    ends_in_time "$wanted" --timeout 40 "$@"
}

# Wants these lines of output.
says() {
    printf '%s\n' "$@" | diff - "$out/said" >"$out/differ" || fail "it says otherwise: $(cat "$out/differ")"
}

# Wants these lines on standard error, or none.
tells() {
    printf '%s' "${*:+$*
}" | diff - "$out/told" >"$out/differ" || fail "it tells otherwise: $(cat "$out/differ")"
}

# All are reached, and each network has a master. A gateway is asked once, in its first network. It isn't well that this one has no master, and
# that clocks are farther apart than 50 ms.
answers 192.0.2.11:525 'master alpha' '100 401'
answers 192.0.2.12:526 'master alpha' '-1250999 7'
answers 192.0.2.1:525 'no master' '0 1'
answers 198.51.100.7:525 'master gate' '-4503599627370497001 1000'
ends 1
says 'NET  NAME   ADDRESS           ROLE     MASTER              OFFSET ms  ERROR ms' \
    '1    alpha  192.0.2.11:525    master   alpha                  +0.100     0.401  reached' \
    '1    beta   192.0.2.12:526    slave    alpha               -1250.999     0.007  reached' \
    '1    gate   192.0.2.1:525     waiting  -                      +0.000     0.001  reached' \
    '2    gamma  198.51.100.7:525  slave    gate    -4503599627370497.001     1.000  reached'
tells 'tsp-status: no master is known to gate
tsp-status: gamma and alpha may be 4503599627370498.502 ms apart, and 50.000 are allowed'
[ "$(grep -c clockdiff "$CALLS")" -eq 16 ] && [ "$(grep -c msite "$CALLS")" -eq 4 ] || fail 'not each host is asked once who leads, and four times for its clock'
ends 1 -c
head=name,address,master,offset_ms,error_ms,reached,network,role,rate_ppm,rate_error_ppm,corrected_ms
says "$head" alpha,192.0.2.11:525,alpha,0.100,0.401,yes,1,master,,, \
    beta,192.0.2.12:526,alpha,-1250.999,0.007,yes,1,slave,,, gate,192.0.2.1:525,,0.000,0.001,yes,1,waiting,,, \
    gamma,198.51.100.7:525,gate,-4503599627370497.001,1.000,yes,2,slave,,,

# An hour between two clocks, and clocks that are near. The farthest pair counts, with both errors.
answers 192.0.2.1:525 'master alpha' '0 1'
answers 192.0.2.12:526 'master alpha' '50 452'
answers 198.51.100.7:525 'master gate' '3600000000 100'
ends 2 --check
says 'TSP CRITICAL: beta and gamma may be 3600000.502 ms apart, and 50.000 are allowed | reached=4;;;0;4 masters=1 spread=3600000.502ms;;50.000'
answers 198.51.100.7:525 'master gate' '-900 100'
ends 0
tells ''
answers 198.51.100.7:525 'master gate' '-49400 98'
ends 0
answers 198.51.100.7:525 'master gate' '-49400 99'
ends 1
tells 'tsp-status: gamma and beta may be 50.001 ms apart, and 50.000 are allowed'
answers 198.51.100.7:525 'master gate' '-900 100'
ends 0 --within 1.502
ends 1 --within 1.501
tells 'tsp-status: gamma and beta may be 1.502 ms apart, and 1.501 are allowed'
answers 192.0.2.11:525 'master alpha' '100 5000'
ends 1 --within 6.099
tells 'tsp-status: gamma and alpha may be 6.100 ms apart, and 6.099 are allowed'
answers 192.0.2.11:525 'master alpha' '100 401'

# Of four measurements the best one counts; after one that isn't answered no other is tried.
cat >"$out/often" <<'END'
#!/bin/sh
[ "$1-$2" = clockdiff-192.0.2.11:525 ] || exec "$FAKE" "$@"
echo x >>"$CALLS-often"
sed -n "$(wc -l <"$CALLS-often")p" "$ANSWERS/often" | grep . || exit 6
END
chmod +x "$out/often"
export FAKE="$out/fake"
printf 'clockdiff %s\n' '900 2700' '130 380' '120 90' '700 1000' >"$ANSWERS/often"
ends 0 -c --program "$out/often"
[ "$(sed -n 2p "$out/said")" = alpha,192.0.2.11:525,alpha,0.120,0.090,yes,1,master,,, ] || fail "of four measurements it takes '$(sed -n 2p "$out/said")'"
printf 'clockdiff %s\n' '900 2700' '130 380' >"$ANSWERS/often"
rm "$CALLS-often"
ends 0 -c --program "$out/often" -t 1
[ "$(sed -n 2p "$out/said")" = alpha,192.0.2.11:525,alpha,0.130,0.380,yes,1,master,,, ] && [ "$(wc -l <"$CALLS-often")" -eq 3 ] || fail "of two measurements it takes '$(sed -n 2p "$out/said")'"

# As a monitoring plugin.
ends 0 --check
says 'TSP OK: 4 of 4 hosts answer, alpha leads, clocks within 1.502 ms | reached=4;;;0;4 masters=1 spread=1.502ms;;50.000'
ends 2 --check --within 1
says 'TSP CRITICAL: gamma and beta may be 1.502 ms apart, and 1.000 are allowed | reached=4;;;0;4 masters=1 spread=1.502ms;;1.000'
tells ''

# The master's trace tells rates and corrections, and which clock is too fast.
cat tools/tests/watch.trace - >"$out/trace" <<'END'
1090 0 0 1062737788 ring round
1091 0 0 1063795446 sample 2 5 -3692 732 31331
1098 0 0 1065844282 sample 1 8 25000 1141 21828
1103 0 0 1070805781 close 3 -3692 28692 436
1103 0 0 1070805781 correct 436 slew 1795804263464523
1103 0 0 1070805781 post 59 1 adjtime 21828 -24564 a
END
sed 's/ a$/ alpha/; s/ b$/ gamma/; s/ c$/ beta/; 2s/^/tsp-launch: in the trace peer 0 is alpha, 1 gamma, 2 beta\n/' "$out/trace" >"$out/named"
ends 1 --trace "$out/named"
says 'NET  NAME   ADDRESS           ROLE    MASTER  OFFSET ms  ERROR ms  RATE ppm  +/-  CORRECTED' \
    '1    alpha  192.0.2.11:525    master  alpha      +0.100     0.401         -    -     +0.436  reached' \
    '1    beta   192.0.2.12:526    slave   alpha      +0.050     0.452      -5.9  6.1          -  reached' \
    '1    gate   192.0.2.1:525     slave   alpha      +0.000     0.001         -    -          -  reached' \
    '2    gamma  198.51.100.7:525  slave   gate       -0.900     0.100    +104.2  9.5    -24.564  reached'
tells "tsp-status: gamma's clock is +104.2 parts in a million fast, give or take 9.5, and beyond 83 rounds don't average it"
ends 1 --trace "$out/named" --check
ends 1 --trace "$out/named" --csv
[ "$(tail -n 1 "$out/said")" = gamma,198.51.100.7:525,gate,-0.900,0.100,yes,2,slave,104.167,9.508,-24.564 ] || fail "of rates it says '$(tail -n 1 "$out/said")'"
ends 1 --trace "$out/named" --prometheus
for line in 'tsp_host_rate_ppm{network="2",host="gamma"} 104.167' 'tsp_host_rate_error_ppm{network="1",host="beta"} 6.1' 'tsp_host_correction_seconds{network="1",host="alpha"} 0.000436'; do
    grep -qxF "$line" "$out/said" || fail "the metrics lack $line"
done
cp "$out/said" "$out/rates"
# (a follower's trace has no rates, and tells its own correction alone; a plugin has its one line; a gateway's trace has those of its network)
printf '%s\n' 'tsp-launch: in the trace peer 0 is beta, 1 alpha' '5 0 0 86000000 become follow 1' '6 0 0 90000000 took 1 adjtime 7 500 alpha' \
    '6 0 0 90000000 correct 500 slew 1796110603110062' >"$out/follower"
ends 0 --trace "$out/follower"
grep -q '^1    beta .* +0.500  reached$' "$out/said" || fail "of a follower's trace it says '$(cat "$out/said")'"
tells "tsp-status: $out/follower: beta doesn't lead, so it tells its own correction alone; rates are in the trace of alpha"
ends 0 --trace "$out/follower" --check
tells ''
sed 's/peer 0 is beta/peer 0 is gate/; $a 7 0 1 90000000 become master' "$out/follower" >"$out/gateway"
ends 0 --trace "$out/gateway"
tells ''
# (on the machine that leads it is the journal)
mkdir "$out/journal"
printf '#!/bin/sh\ncat %s\n' "$out/named" >"$out/journal/journalctl"
chmod +x "$out/journal/journalctl"
for self in alpha alpha.example.org beta; do
    status=0
    PATH=$out/journal:$PATH TSP_SELF=$self tools/tsp-status --program "$out/fake" --file "$out/hosts" >"$out/said" 2>"$out/told" || status=$?
    [ "$(grep -c 'RATE' "$out/said")$status" -eq "$([ "$self" = beta ] && echo 00 || echo 11)" ] || fail "on $self it says $(cat "$out/said")"
done
# (the name of this machine may be in the unit's variables alone; those of the caller count first)
cat >"$out/by_unit.py" <<'END'
import runpy
import sys
sys.path.insert(0, 'tools')
from tsp_daemon import kept
kept.VARIABLES, sys.argv = sys.argv[1], ['tools/tsp-status', *sys.argv[2:]]
runpy.run_path(sys.argv[0], run_name='__main__')
END
# Wants this of tsp-status if the unit's variables are these lines: whether rates are shown, and the status.
by_unit() {
    printf '%b\n' "$2" >"$out/variables"
    status=0
    PATH=$out/journal:$PATH python3 -B "$out/by_unit.py" "$out/variables" --program "$out/fake" --file "$out/hosts" --timeout 40 >"$out/said" 2>"$out/told" || status=$?
    [ "$(grep -c 'RATE' "$out/said")$status" = "$1" ] || fail "if the unit has '$2' it says $(cat "$out/said" "$out/told")"
}
by_unit 11 'TSP_SELF=alpha'
by_unit 11 'TSP_SELF=beta\n # TSP_SELF=beta\n TSP_SELF = "alpha.example.org" '
by_unit 00 'TSP_SELF=alpha\n#TSP_SELF=alpha\nTSP_SELF=beta'
export TSP_SELF=beta
by_unit 00 'TSP_SELF=alpha'
unset TSP_SELF
# (a journal that the caller may not read is told of, but not beside the one line of a plugin)
cat >"$out/journal/journalctl" <<'END'
#!/bin/sh
printf '%s\n' 'Hint: You are currently not seeing messages from other users.' '      Pass -q to turn off this notice.' >&2
cat "$SEEN"
END
# Wants this status of tsp-status with these words on the machine that leads, whose journal has these lines.
by_journal() {
    wanted=$1 seen=$2
    shift 2
    status=0
    PATH=$out/journal:$PATH SEEN=$seen TSP_SELF=alpha tools/tsp-status --program "$out/fake" --file "$out/hosts" --timeout 40 "$@" >"$out/said" 2>"$out/told" || status=$?
    [ "$status" -eq "$wanted" ] || fail "with the journal $seen it ends with status $status: $(cat "$out/said" "$out/told")"
}
by_journal 0 /dev/null
tells 'tsp-status: no rates are shown: journalctl gives no trace: Hint: You are currently not seeing messages from other users.'
by_journal 0 /dev/null --check
tells ''
by_journal 1 "$out/named"
! grep 'Hint' "$out/told" || fail 'a journal that is read is told of'
: >"$out/none"
for file in none hosts; do
    ends 3 --trace "$out/$file"
    tells "tsp-status: $out/$file: it isn't a daemon's trace"
done
rm "$out/none"
ends 3 --trace "$out/none"

# As JSON and as metrics, and into a file.
ends 0 --json
python3 - "$out/said" <<'END' || fail 'the JSON says otherwise'
import json, sys
told = json.load(open(sys.argv[1], encoding='ascii'))
assert told['spread_us'] == 1502 and told['faults'] == [], told
assert told['hosts'][1] == {'network': 1, 'name': 'beta', 'address': '192.0.2.12:526', 'reached': True, 'role': 'slave', 'master': 'alpha', 'offset_us': 50, 'error_us': 452, 'rate_ppm': None, 'rate_error_ppm': None, 'correction_us': None}, told
END
ends 0 --prometheus --output "$out/metrics"
[ ! -s "$out/said" ] || fail 'what is written to a file is printed too'
for line in 'tsp_host_reached{network="1",host="beta"} 1' 'tsp_host_leads{network="1",host="alpha"} 1' 'tsp_host_leads{network="2",host="gamma"} 0' \
    'tsp_host_has_master{network="2",host="gamma"} 1' 'tsp_host_offset_seconds{network="2",host="gamma"} -0.000900' \
    'tsp_host_error_seconds{network="1",host="beta"} 0.000452' 'tsp_spread_seconds 0.001502' '# TYPE tsp_spread_seconds gauge'; do
    grep -qxF "$line" "$out/metrics" || fail "the metrics lack $line"
done
[ "$(find "$out" -name '.metrics*' | wc -l)" -eq 0 ] || fail 'something is left beside the file'
cat "$out/metrics" "$out/rates" | sed -n 's/^# TYPE \([a-z_]*\) .*/\1/p' | sort -u >"$out/there"
grep -o 'tsp_host_[a-z_]*\|tsp_spread_[a-z_]*' man/tsp-status.8 | sort -u | diff - "$out/there" >"$out/differ" || fail "the page has other metrics: $(cat "$out/differ")"

# A host that hangs is asked as often as that was asked for, and costs no more than the time that an answer is waited for.
hang 192.0.2.12:526
began=$(date +%s)
ends_in_time 1 --csv
took=$(($(date +%s) - began))
[ "$took" -le 15 ] || fail "a silent host costs $took s"
[ "$(sed -n 3p "$out/said")" = beta,192.0.2.12:526,,,,no,1,,,, ] || fail "a silent host is '$(sed -n 3p "$out/said")'"
tells 'tsp-status: silent: beta'
[ "$(grep -c 'msite 192.0.2.12:526' "$CALLS")" -eq 2 ] && ! grep 'clockdiff 192.0.2.12:526' "$CALLS" || fail 'a silent host is not asked twice for its master alone'
ends_in_time 1 -t 1
[ "$(sed -n 3p "$out/said" | tr -s ' ')" = '1 beta 192.0.2.12:526 - - - - silent' ] || fail "a silent host is '$(sed -n 3p "$out/said")'"
[ "$(grep -c 'msite 192.0.2.12:526' "$CALLS")" -eq 1 ] || fail 'a silent host is asked more than once'
silence 192.0.2.12:526
ends 1 --check
says 'TSP WARNING: silent: beta | reached=3;;;0;4 masters=1 spread=1.501ms;;50.000'

# A host to which nothing can be sent, or that nobody answers for, is silent too; one whose clock can't be read is reached.
for status in 5 6; do
    printf '%s no answer\n' "$status" >"$ANSWERS/msite-192.0.2.12:526"
    ends 1
    tells 'tsp-status: silent: beta'
done
printf '0 master alpha\n' >"$ANSWERS/msite-192.0.2.12:526"
ends 1 -c
[ "$(sed -n 3p "$out/said")" = beta,192.0.2.12:526,alpha,,,yes,1,slave,,, ] || fail "a host without a clock is '$(sed -n 3p "$out/said")'"
tells 'tsp-status: no clock was read: beta'
ends 2 --check
says 'TSP CRITICAL: no clock was read: beta | reached=4;;;0;4 masters=1 spread=1.501ms;;50.000'

# Two masters of one network are told of. (each network has its own)
answers 192.0.2.12:526 'master beta' '5 5'
ends 1
tells 'tsp-status: 2 masters are named in network 1: alpha, beta'
sed 5q "$out/hosts" >"$out/one" && mv "$out/one" "$out/hosts"
ends 1
tells 'tsp-status: 2 masters are named: alpha, beta'
ends 2 --check
says 'TSP CRITICAL: 2 masters are named: alpha, beta | reached=3;;;0;3 masters=2 spread=0.502ms;;50.000'

# A master that the hosts file doesn't have, as one that writes a name for a spreadsheet, a plugin's reader or a terminal.
for host in 192.0.2.11:525 192.0.2.12:526 192.0.2.1:525; do answers "$host" 'master stranger' '5 5'; done
ends 2 --check
says "TSP CRITICAL: stranger is named as master, and isn't in the hosts file | reached=3;;;0;3 masters=0 spread=0.010ms;;50.000"
ends 1 -c
tells "tsp-status: stranger is named as master, and isn't in the hosts file"
for host in 192.0.2.11:525 192.0.2.1:525; do answers "$host" 'master alpha' '5 5'; done
answers 192.0.2.12:526 'master a,"b%20' '5 5'
ends 1 -c
[ "$(sed -n 3p "$out/said")" = 'beta,192.0.2.12:526,"a,""b%20",0.005,0.005,yes,1,slave,,,' ] || fail "a name with a comma is '$(sed -n 3p "$out/said")'"
answers 192.0.2.12:526 'master =cmd|x' '5 5'
ends 1 -c
[ "$(sed -n 3p "$out/said")" = "beta,192.0.2.12:526,'=cmd|x,0.005,0.005,yes,1,slave,,," ] || fail "a formula is '$(sed -n 3p "$out/said")'"
ends 2 --check
[ "$(tr -cd '|' <"$out/said")" = '|' ] || fail "a name with a stroke gives '$(cat "$out/said")'"
answers 192.0.2.12:526 "master $(printf 'x\033[31m\377')" '5 5'
for form in '' -c --check; do
    # shellcheck disable=SC2086  # a word or none
    LC_ALL=C PYTHONCOERCECLOCALE=0 PYTHONUTF8=0 tools/tsp-status --program "$out/fake" --file "$out/hosts" $form >"$out/said" 2>&1 || :
    ! LC_ALL=C grep '[^ -~]' "$out/said" && grep -q '31m' "$out/said" || fail "$form: of a name with a control character it says $(cat "$out/said")"
done

# Nobody leads, as in the first minutes; or the one that is named doesn't, or is silent.
for host in 192.0.2.11:525 192.0.2.12:526 192.0.2.1:525; do answers "$host" 'no master' '5 5'; done
ends 1
tells 'tsp-status: nobody leads'
ends 2 --check
answers 192.0.2.12:526 'master alpha' '5 5'
answers 192.0.2.1:525 'master alpha' '5 5'
ends 2 --check
says "TSP CRITICAL: no master is known to alpha; alpha is named as master and doesn't lead | reached=3;;;0;3 masters=0 spread=0.010ms;;50.000"
silence 192.0.2.11:525
ends 2 --check
says "TSP CRITICAL: alpha is named as master and doesn't lead; silent: alpha | reached=2;;;0;3 masters=0 spread=0.010ms;;50.000"
for host in 192.0.2.12:526 192.0.2.1:525; do silence "$host"; done
ends 2 --check
says 'TSP CRITICAL: silent: alpha, beta, gate | reached=0;;;0;3 masters=0'

# A program that answers otherwise, or that doesn't know the queries, and none at all.
for host in 192.0.2.11:525 192.0.2.12:526 192.0.2.1:525; do answers "$host" 'master alpha' '5 5'; done
printf '0 usage\n' >"$ANSWERS/msite-192.0.2.11:525"
ends 3
tells "tsp-status: $out/fake msite 192.0.2.11:525 answers 'usage'"
printf '1 usage\n' >"$ANSWERS/msite-192.0.2.11:525"
ends 3
tells "tsp-status: $out/fake msite 192.0.2.11:525 ends with status 1"
answers 192.0.2.11:525 'master alpha' '1 2 3'
ends 3
tells "tsp-status: $out/fake clockdiff 192.0.2.11:525 answers 'clockdiff 1 2 3'"
answers 192.0.2.11:525 'master alpha' '1 x'
ends 3 --check
says "TSP UNKNOWN: $out/fake clockdiff 192.0.2.11:525 answers 'clockdiff 1 x'"
ends 3 --program "$out/none"
tells "tsp-status: $out/none: No such file or directory"
answers 192.0.2.11:525 'master alpha' '5 5'

# A tsp-launch that can't be run, which lists the hosts.
mkdir "$out/tools"
cp -R tools/tsp-status tools/tsp-launch tools/tsp_texts tools/tsp_daemon tools/tsp_supervise "$out/tools"
chmod -x "$out/tools/tsp-launch"
status=0
"$out/tools/tsp-status" --check --program "$out/fake" --file "$out/hosts" >"$out/said" 2>"$out/told" || status=$?
[ "$status" -eq 3 ] || fail "without tsp-launch it ends with $status: $(cat "$out/told")"
says "TSP UNKNOWN: $out/tools/tsp-launch: Permission denied"

# A faulty hosts file, which is looked at before the program; and faulty words.
: >"$out/empty"
for file in none '' empty .; do
    ends 78 --program "$out/none" --file "$out/$file"
    [ "$(wc -l <"$out/told")" -eq 1 ] && [ ! -s "$out/said" ] || fail "of the file '$file' it says '$(cat "$out/said" "$out/told")'"
done
ends 78 --file ''
ends 78 --file "$out/none"
tells "tsp-status: $out/none: there is no such file"
ends 3 --check --file "$out/none"
says "TSP UNKNOWN: $out/none: there is no such file"
for words in '--tries 0' '--tries x' '--timeout 0' '--timeout nan' '--within -1' '--within inf' '--within' '--all' 'alpha' '--json --csv' '--with 5' '--trace'; do
    # shellcheck disable=SC2086  # words
    ends 2 $words
    [ "$(wc -l <"$out/told")" -eq 1 ] && [ ! -s "$out/said" ] || fail "'$words': it says '$(cat "$out/said" "$out/told")'"
done
ends 3 --check --within x
grep -q '^TSP UNKNOWN: ' "$out/said" || fail 'a plugin with faulty words says nothing'

# Output that nobody takes.
status=0
tools/tsp-status --program "$out/fake" --file "$out/hosts" >/dev/full 2>"$out/told" || status=$?
[ "$status" -eq 4 ] || fail "a full output ends with status $status"
tells 'tsp-status: standard output: No space left on device'
status=0
tools/tsp-status --program "$out/fake" --file "$out/hosts" >&- 2>"$out/told" || status=$?
[ "$status" -eq 4 ] || fail "a closed output ends with status $status"
tells 'tsp-status: standard output: Bad file descriptor'
ends 4 --output "$out/none/file"
tells "tsp-status: $out/none/file: No such file or directory"

# Forty hosts of which half hang: these cost no more together than one, and the others' clocks are asked for one after the other.
awk 'BEGIN { for (i = 1; i <= 40; i++) printf "n%d 10.0.0.%d master\n", i, i }' >"$out/hosts"
for i in $(seq 20); do answers "10.0.0.$i:525" 'master n1' "$i 1"; done
began=$(date +%s)
ends_in_time 1 -c --timeout 6
took=$(($(date +%s) - began))
[ "$took" -le 60 ] || fail "forty hosts take $took s"
[ "$(grep -c ',n1,' "$out/said")" -eq 20 ] || fail 'not each of twenty hosts is reached'
tells 'tsp-status: silent: n21, n22, n23, n24, n25, n26, n27, n28, n29, n30 and 10 more'
[ ! -e "$BUSY-again" ] || fail 'clocks are asked for at the same time'

# This machine stands still while a question is under way that is sent once: it is asked again, and the host isn't silent.
cat >"$out/still" <<'END'
#!/bin/sh
if [ "$1" = msite ] && mkdir "$STILL" 2>/dev/null; then
    # (what asked is stopped for longer than it waits)
    kill -STOP "$PPID"
    sleep 7
    kill -CONT "$PPID"
    exec sleep 30
fi
exec "$FAKE" "$@"
END
chmod +x "$out/still"
export STILL="$out/stood"
echo 'n1 10.0.0.1 master' >"$out/hosts"
ends 0 --check --program "$out/still" --timeout 6 -t 1
says 'TSP OK: 1 of 1 hosts answer, n1 leads | reached=1;;;0;1 masters=1'
[ -d "$STILL" ] || fail 'nothing stood still'

# This machine's wall clock is set by an hour between the clocks of two hosts, which aren't an hour apart for that.
cat >"$out/set" <<'END'
#!/bin/sh
[ "$1" = clockdiff ] || exec "$FAKE" "$@"
[ "$2" != 10.0.0.2:525 ] || : >"$SET"
if [ -e "$SET" ]; then echo 'clockdiff -3600000000 5'; else echo 'clockdiff 0 5'; fi
END
cat >"$out/hour" <<'END'
import os, runpy, sys, time
wall = time.time_ns
time.time_ns = lambda: wall() + os.path.exists(os.environ['SET']) * 3600 * 10 ** 9
sys.argv.pop(0)
runpy.run_path(sys.argv[0], run_name='__main__')
END
chmod +x "$out/set"
printf '%s\n' 'n1 10.0.0.1 master' 'n2 10.0.0.2 master' >"$out/hosts"
SET=$out/is-set python3 -B "$out/hour" tools/tsp-status --check --timeout 40 --program "$out/set" --file "$out/hosts" >"$out/said" 2>"$out/told" || :
says 'TSP OK: 2 of 2 hosts answer, n1 leads, clocks within 0.010 ms | reached=2;;;0;2 masters=1 spread=0.010ms;;50.000'
awk 'BEGIN { for (i = 1; i <= 40; i++) printf "n%d 10.0.0.%d master\n", i, i }' >"$out/hosts"

# If the system has no more threads that is told, and nothing of the network. (their stacks are what there is no room for)
status=0
# shellcheck disable=SC3045  # dash has it, as others do
(ulimit -v 150000 && exec tools/tsp-status --program "$out/fake" --file "$out/hosts" --check) >"$out/said" 2>"$out/told" || status=$?
[ "$status" -eq 3 ] || fail "without threads it ends with status $status: $(cat "$out/said" "$out/told")"
says "TSP UNKNOWN: 40 hosts can't be asked side by side: can't start new thread"
tells

# An interrupt ends it by the signal, without a word.
ended=$(interrupted tools/tsp-status --program "$out/fake" --file "$out/hosts" --timeout 4)
[ "$ended" = "(b'', b'tsp-status: interrupted\\n') -2" ] || fail "an interrupt ends with $ended"
echo "$check: tables, values, faults, a plugin's statuses, and forty hosts, half of them dead, in $took s"
