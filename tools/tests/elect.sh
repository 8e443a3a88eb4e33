#!/bin/sh
# tsp-elect says that a host leads if it does, also if this machine stands still while the election goes on. (failover.sh tries the rest)
. "$(dirname "$0")/common.sh"
unset TSP_HOSTS TSP_SELF TSP_TURNS TSP_WAIT TSP_TRACE TSP_PROGRAM
printf '%s\n' 'alpha 192.0.2.11 master' 'beta 192.0.2.12 slave' >"$out/hosts"

# A program by which alpha hears of an election, and leads from when a file is there on.
cat >"$out/fake" <<'END'
#!/bin/sh
case $1-$2 in
election-192.0.2.11:525) echo 'election heard' ;;
msite-192.0.2.11:525) if [ -e "$LEADS" ]; then echo 'master alpha'; else echo 'no master'; fi ;;
*) exit 6 ;;
esac
END
chmod +x "$out/fake"
export LEADS="$out/leads"

# Half a minute passes while tsp-elect pauses between two questions, in which the file of COMES comes.
cat >"$out/still" <<'END'
import os, runpy, sys, time
monotonic, pause, passed = time.monotonic, time.sleep, []


def still(seconds):
    if seconds < 0.3:
        return pause(seconds)
    passed.append(30)
    open(os.environ['COMES'], 'w').close()


time.monotonic, time.sleep = lambda: monotonic() + sum(passed), still
sys.argv.pop(0)
runpy.run_path(sys.argv[0], run_name='__main__')
END

# Wants this status and these lines.
ends() {
    status=0
    COMES=$1 python3 -B "$out/still" tools/tsp-elect --timeout 40 --program "$out/fake" --file "$out/hosts" alpha >"$out/said" 2>"$out/told" || status=$?
    [ "$status" -eq "$2" ] && grep -q "$3" "$out/said" "$out/told" || fail "status $status: $(cat "$out/said" "$out/told")"
}
ends /dev/null 1 "^tsp-elect: alpha doesn't lead: "
ends "$LEADS" 0 '^alpha leads$'
ends /dev/null 0 '^alpha leads already$'

# A host of this machine leads, and systemctl, which is to restart its daemon, fails: nothing is said to have been done.
cat >"$out/fake" <<'END'
#!/bin/sh
case $1 in msite) echo 'master beta' ;; *) exit 6 ;; esac
END
cat >"$out/bin/systemctl" <<'END'
#!/bin/sh
echo "$*" >"$ASKED"
exit 1
END
chmod +x "$out/bin/systemctl"
status=0
TSP_SELF=beta ASKED=$out/asked tools/tsp-elect --handover --timeout 40 --program "$out/fake" --file "$out/hosts" alpha >"$out/said" 2>"$out/told" || status=$?
[ "$status" -eq 3 ] && [ "$(cat "$out/asked")" = 'restart tsp' ] || fail "if systemctl fails, --handover ends with status $status: $(cat "$out/told")"
[ "$(cat "$out/said")" = 'beta leads, and its daemon is being started again' ] && [ "$(cat "$out/told")" = 'tsp-elect: systemctl restart tsp ends with status 1' ] ||
    fail "if systemctl fails, --handover says '$(cat "$out/said" "$out/told")'"
echo "$check: an election in which the machine stands still, and a daemon that can't be started again"
