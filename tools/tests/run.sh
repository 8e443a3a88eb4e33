#!/bin/sh
# tsp-run leads programs by the network's shown time, while it slews and after the page is gone; and says why it can't.
. "$(dirname "$0")/common.sh"
export TSP_CLOCK="$out/page"
unset TSP_FAKETIME

# Writes a page whose clock is ahead by so many microseconds, of which so many are still to be slewed, with a status, and in which life.
page() { python3 tools/tests/made_page.py "$out/page" "$3" "$1" "$2" ${4+"$4"}; }

# Wants this status and this line.
refuses() {
    wanted=$1 line=$2
    shift 2
    status=0
    "$@" >"$out/said" 2>"$out/told" || status=$?
    [ "$status" -eq "$wanted" ] && [ "$(cat "$out/told")" = "tsp-run: $line" ] || fail "'$*': status $status, $(cat "$out/told")"
}
refuses 2 'COMMAND, or --status (tsp-run --help says more)' tools/tsp-run
refuses 2 'COMMAND, or --status (tsp-run --help says more)' tools/tsp-run --all
export TSP_FAKETIME="$out/none"
refuses 125 "there is no $out/none: install libfaketime, or name it by TSP_FAKETIME" tools/tsp-run true
TSP_FAKETIME=/dev/null refuses 125 '/dev/null is no library, so no program would be led' tools/tsp-run true
unset TSP_FAKETIME
tools/tsp-run --help | grep -q '^usage: tsp-run ' || fail 'there is no help'

# A disk that gets full: the command runs on, and its status is that of tsp-run. (any library will do)
if unshare -rm true 2>/dev/null && cc -shared -o "$out/any.so" -x c /dev/null 2>"$out/told"; then
    page 7200000000 15000 2
    mkdir "$out/small"
    status=0
    # shellcheck disable=SC2016  # for the shells that are begun
    TSP_FAKETIME="$out/any.so" TMPDIR="$out/small" unshare -rm sh -c 'mount -t tmpfs -o size=1m none "$TMPDIR" && exec tools/tsp-run "$@"' sh \
        sh -c '! cp /dev/zero "$TMPDIR/other" 2>/dev/null; sleep 1; exit 7' >"$out/said" 2>"$out/told" || status=$?
    [ "$status" -eq 7 ] && [ ! -s "$out/told" ] || fail "on a full disk it ends with $status: $(cat "$out/told")"
    # (no file may have an octet)
    status=0
    told=$(ulimit -f 0 && TSP_FAKETIME="$out/any.so" exec tools/tsp-run true 2>&1) || status=$?
    case $status:$told in 125:'tsp-run: there is no folder for a small file: '*) ;; *) fail "without room it ends with $status: $told" ;; esac
else
    skip 'there are no namespaces, or no cc' 'a disk that gets full'
fi

# SIGTERM at some moments of the start and later ends it and its command, and nothing is left.
if cc -shared -o "$out/any.so" -x c /dev/null 2>"$out/told"; then
    mkdir "$out/files"
    for moment in 0.05 0.1 0.15 0.2 0.25 0.3 0.4 0.5 0.7 1 2; do
        rm -f "$out/begun"
        TSP_FAKETIME="$out/any.so" TMPDIR="$out/files" tools/tsp-run sh -c "echo \$\$ >$out/begun; exec sleep 30" 2>"$out/told" &
        told=$!
        sleep "$moment"
        kill "$told"
        status=0
        wait "$told" 2>/dev/null || status=$?
        [ "$status" -eq 143 ] && [ -z "$(ls "$out/files")" ] || fail "SIGTERM after $moment s ends it with $status, and $(ls "$out/files") is left: $(cat "$out/told")"
        [ ! -s "$out/begun" ] || ! kill -0 "$(cat "$out/begun")" 2>/dev/null || fail "SIGTERM after $moment s leaves the command"
    done
else
    skip 'there is no cc' 'SIGTERM at a start'
fi

page 7200000000 0 2
status=0
tools/tsp-run --status >"$out/said" 2>"$out/told" || status=$?
if grep -q 'install libfaketime' "$out/told"; then
    skip 'there is no libfaketime' 'a program under the time of the network'
    echo "$check: it says what is missing"
    exit
fi
[ "$status" -eq 0 ] && [ "$(wc -l <"$out/said")" -eq 2 ] && grep -qx "$out/page: synchronised, ahead by 7[12][09][09]\.[0-9]* s" "$out/said" || fail "status $status: $(cat "$out/said" "$out/told")"
rm "$out/page"
refuses 125 "there is no page of the network's time at $out/page" tools/tsp-run true
page 0 0 1
refuses 125 "$out/page: no master yet" tools/tsp-run true
status=0
tools/tsp-run --status >"$out/said" 2>"$out/told" || status=$?
[ "$status" -eq 125 ] && [ "$(tail -n 1 "$out/said")" = "$out/page: no master yet, so nothing would be run" ] || fail "without a master --status ends with $status: $(cat "$out/said" "$out/told")"

# A program's status, also by a signal, and one that isn't there or can't be run.
page 7200000000 0 2
refuses 127 "$out/none: No such file or directory" tools/tsp-run "$out/none"
refuses 126 "$out/page: Permission denied" tools/tsp-run "$out/page"
for case in 'exit 7=7' 'kill -TERM $$=143'; do
    status=0
    tools/tsp-run sh -c "${case%=*}" || status=$?
    [ "$status" -eq "${case#*=}" ] || fail "'${case%=*}' ends with $status"
done
away=$(($(tools/tsp-run date +%s) - $(date +%s)))
[ "$away" -ge 7195 ] && [ "$away" -le 7200 ] || fail "date is ahead by $away s"

# What programs read is the page's shown time, within two milliseconds, while 15 ms are slewed, and doesn't fall; also when the page is no more.
cat >"$out/compare" <<'END'
import sys, time
sys.path.insert(0, 'tools')
import tsp_clock
clock, worst, last, count = tsp_clock.Clock(), 0, 0, 0
until = time.monotonic() + 2
while time.monotonic() < until:
    before, wall, after = clock.now(), time.time_ns() // 1000, clock.now()
    if wall < last:
        sys.exit(f'it falls by {last - wall} us')
    if None not in (before.shown, after.shown) and after.shown - before.shown < 500:
        worst, count = max(worst, before.shown - wall, wall - after.shown), count + 1
    last = wall
    time.sleep(0.001)
if worst > 2000 or count < 100:
    sys.exit(f'{worst} us away, at {count} moments')
print(worst, 'us at most at', count, 'moments')
END
for rest in 15000 -15000; do
    page -3000000 "$rest" 2
    tools/tsp-run python3 -B "$out/compare" >"$out/said" 2>"$out/told" || fail "$(cat "$out/told")"
done
# The same while the daemon ends and starts again, with a clock that is five seconds ahead of the last one's, both of which are behind the wall clock, or ahead
# of it; and where the wall clock is set.
cat >"$out/falls.c" <<'END'
#include <stdio.h>
#include <time.h>
/* Looks at the wall clock each millisecond for 8 seconds by the monotonic one; it ends with 1 if it falls, or doesn't rise by 9 at last. */
int main(void)
{
    struct timespec begun, now, wall, pause = {0, 1000000};
    double first = 0, last = 0, read;
    clock_gettime(CLOCK_MONOTONIC, &begun);
    puts("begun");
    fflush(stdout);
    do {
        clock_gettime(CLOCK_REALTIME, &wall);
        read = wall.tv_sec + wall.tv_nsec / 1e9;
        if (read < last)
            return printf("it falls by %.3f s\n", last - read), 1;
        last = read;
        first = first ? first : read;
        nanosleep(&pause, NULL);
        clock_gettime(CLOCK_MONOTONIC, &now);
    } while (now.tv_sec - begun.tv_sec < 8);
    return last - first > 9 ? 0 : (printf("it rises by %.3f s\n", last - first), 1);
}
END
for ahead in -3000000 3000000; do
    page "$ahead" 0 2
    { sleep 0.6; page "$ahead" 0 0; sleep 0.5; page $((ahead + 5000000)) 3000 2 2; } &
    tools/tsp-run python3 -B "$out/compare" >"$out/restarted" 2>"$out/told" || fail "a restart, $ahead us ahead: $(cat "$out/told")"
    wait
    # (by some ways libfaketime answers in our place, so a program in C tries it too)
    cc -O2 -Wall -o "$out/falls" "$out/falls.c" 2>"$out/told" || { skip 'there is no cc' 'a restart as a program in C sees it'; continue; }
    page "$ahead" 0 2
    : >"$out/said"
    { until [ -s "$out/said" ]; do sleep 0.1; done; sleep 0.5; page "$ahead" 0 0; sleep 0.5; page $((ahead + 5000000)) 3000 2 2; } &
    tools/tsp-run "$out/falls" >"$out/said" 2>&1 || fail "a restart, $ahead us ahead, for a program in C: $(cat "$out/said")"
    wait
done
if cc -O2 -Wall -shared -fPIC -o "$out/stepped.so" tools/tsp_fast.c 2>"$out/told"; then
    # Runs a command whose wall clock is set by an hour 1.5 seconds later.
    stepped() {
        now=$(python3 -c 'import time; print("FAST_FROM=%d FAST_WALL=%d" % (time.monotonic_ns(), time.time_ns()))')
        # shellcheck disable=SC2086  # words
        env LD_PRELOAD="$out/stepped.so" $now FAST_STEP=3600000000000 FAST_AT=1500000000 "$@"
    }
    page -3000000 -15000 2
    stepped python3 -c 'import time; first = time.time(); time.sleep(2); raise SystemExit(not 3601 < time.time() - first < 3610)' || fail 'no wall clock is set'
    stepped tools/tsp-run python3 -B "$out/compare" >"$out/set" 2>"$out/told" || fail "a wall clock that is set: $(cat "$out/told")"
else
    skip 'there is no cc' 'a wall clock that is set'
fi
if has sqlite3; then
    page 7200000000 0 2
    away=$(($(tools/tsp-run sqlite3 :memory: "select strftime('%s', 'now')") - $(date +%s)))
    [ "$away" -ge 7195 ] && [ "$away" -le 7201 ] || fail "sqlite3 is ahead by $away s"
else
    skip 'there is no sqlite3' 'a database'
fi
page -3000000 0 2
first=$(tools/tsp-run sh -c 'date +%s%3N; rm "$TSP_CLOCK"; sleep 0.3; date +%s%3N')
[ "$(echo "$first" | tail -n 1)" -ge "$(($(echo "$first" | head -n 1) + 300))" ] || fail 'the time falls when the page is gone'

# make builds the tree of the examples by the time of the network, which is 50 minutes ahead, while 15 ms are slewed; and then nothing again.
page 3000000000 -15000 2
cp -r examples/build "$out/tree"
for _ in first again; do
    tools/tsp-run make -s -C "$out/tree" >"$out/made" 2>&1 || fail "make fails: $(cat "$out/made")"
    awk -v now="$(date +%s)" '{ if ($1 > now + 3010 || $1 < now + 2940 || $1 <= last) exit 1; last = $1 } END { exit NR != 3 }' "$out/tree/build.log" ||
        fail "make ran at $(paste -sd ' ' "$out/tree/build.log")"
done
built=$(sed -n "s/^built at \(.*\) by the network's time\$/\1/p" "$out/made")
away=$(($(date -d "$built" +%s) - $(date +%s)))
[ "$away" -ge 2940 ] && [ "$away" -le 3010 ] || fail "the compiler looked at the clock at $built"
echo "$check: programs under the time of the network, $(cat "$out/said")"
