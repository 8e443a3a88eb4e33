#!/bin/sh
# The profile for AppArmor is one, and lets through the files that a supervisor and its daemon open and run.
. "$(dirname "$0")/common.sh"
unset TSP_HOSTS TSP_SELF TSP_TURNS TSP_WAIT TSP_OUTPUT JOURNAL_STREAM
PATH=$PATH:/usr/sbin:/sbin
has apparmor_parser || { skip 'there is no apparmor_parser' 'the profile'; exit; }
apparmor_parser -Q -K daemon/tsp.apparmor >"$out/said" 2>&1 || fail "the profile: $(cat "$out/said")"
sed 's/^  capability/  capabilities/' daemon/tsp.apparmor >"$out/faulty"
! apparmor_parser -Q -K "$out/faulty" >"$out/said" 2>&1 || fail 'a faulty profile is none'
grep -qx 'AppArmorProfile=-tsp' daemon/tsp.service && grep -q '^profile tsp ' daemon/tsp.apparmor || fail "the unit doesn't name the profile"
[ -d /sys/kernel/security/apparmor ] || skip 'the kernel has no AppArmor' 'what it refuses by the profile'
has strace && strace -qq -o "$out/calls" true 2>/dev/null || { skip 'there is no strace that works' 'what the profile lets through'; exit; }
[ -x /usr/bin/python3 ] || { skip 'there is no /usr/bin/python3' 'what the profile lets through'; exit; }
serving_program
case $program in /*) ;; *) program=$PWD/$program ;; esac

# A start with a name that is looked up, a daemon that is started again, a hosts file that is read again, and the trace in a file.
apparmor_parser -p daemon/tsp.apparmor >"$out/rules" 2>/dev/null
free_ports 1 >"$out/ports"
read -r port <"$out/ports"
mkdir "$out/log" "$out/etc" "$out/run" "$out/lib"
echo "a localhost:$port master" >"$out/etc/hosts"
TSP_SPREAD=1 TSP_RATE=learn TSP_LEARN=$out/lib/rate TSP_CLOCK=$out/run/clock TSP_TRACE=$out/log/trace PATH=/usr/bin:/bin strace -ff -qq -y -s 300 -o "$out/call" \
    tools/tsp-launch -f "$out/etc/hosts" -s a --turns 60 --supervise -p "$program" >"$out/said" 2>"$out/told" &
note_process
for _ in $(seq 100); do
    ! grep -q 'runs and answers' "$out/told" || break
    sleep 0.3
done
pid=$(pgrep -P "$!" | head -n 1)
kill -HUP "$pid"
for _ in $(seq 100); do
    ! grep -q 'was read: the daemon goes on' "$out/told" || break
    sleep 0.3
done
kill "$pid"
wait "$!" || fail "the supervisor: $(cat "$out/told")"
grep -q 'was read: the daemon goes on' "$out/told" || fail "the hosts file isn't read again: $(cat "$out/told")"
# (each process has a file of its own, so that no call is cut in two)
cat "$out"/call.* >"$out/calls"
compare() {
    python3 tools/tests/apparmor.py "$1" "$out/calls" "$PWD/tools/=/usr/share/tsp/" "$program=/usr/lib/tsp/tsp" "$out/log/=/var/log/tsp/" "$out/etc/=/etc/tsp/" \
        "$out/run/=/run/tsp/" "$out/lib/=/var/lib/tsp/"
}
compare "$out/rules" >"$out/said" 2>&1 || fail "$(cat "$out/said")"
told=$(cat "$out/said")
# (without one of its lines it would lack something)
for line in 'lib/tsp/\*' 'share/tsp/\*\*' 'log/{,private/}tsp' 'bin/python3' 'etc/tsp/'; do
    grep -v "^ *[@/][^ ]*$line" "$out/rules" >"$out/few"
    ! compare "$out/few" >"$out/said" 2>&1 || fail "the profile needs no line with $line"
done
echo "$check: $told"
