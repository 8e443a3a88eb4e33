#!/bin/sh
# tsp-demo: three hosts elect a master, lose it and go on, as lines and drawn on a terminal; and what it says if it can't run them.
. "$(dirname "$0")/common.sh"
has cc || { skip 'there is no cc' 'the demonstration'; exit; }
serving_program
export TSP_PROGRAM="$program"
timeout 150 tools/tsp-demo --speed 50 >"$out/said" 2>"$out/told" || fail "it ends with status $?: $(tail -n 3 "$out/said" "$out/told")"
[ ! -s "$out/told" ] || fail "it says $(cat "$out/told")"
# Two hosts lead one after the other, each leads a round, and the first one is killed in between.
grep -o '[a-z]* is elected\|[a-z]* is killed\|a round is over' "$out/said" >"$out/seen"
first=$(sed -n '1s/ .*//p' "$out/seen")
second=$(sed -n '4s/ .*//p' "$out/seen")
printf '%s\n' "$first is elected" 'a round is over' "$first is killed" "$second is elected" 'a round is over' | cmp -s - "$out/seen" && [ "$first" != "$second" ] ||
    fail "it shows $(cat "$out/said")"
tail -n 1 "$out/said" | grep -qE '^tsp-demo: seen: clocks 4[0-9]{3}\.[0-9]{3} ms apart; .* in all of [1-9][0-9]+ readings the master.s clock lay in the interval$' ||
    fail "its last line is $(tail -n 1 "$out/said")"
# Its last line has the times of the list.
seconds_of() { echo "$1" | awk -F : '{ for (i = 1; i <= NF; i++) seconds = 60 * seconds + $i } END { print seconds }'; }
time_of() { sed -n "s/^ *\([0-9:]*\)  $1.*/\1/p" "$out/said" | head -n 1; }
[ "$(tail -n 1 "$out/said" | sed -n 's/.* led after \([0-9:]*\),.*/\1/p')" = "$(time_of "$first is elected")" ] || fail "$first led at another time: $(cat "$out/said")"
later=$(seconds_of "$(tail -n 1 "$out/said" | sed -n 's/.* led \([0-9:]*\) later,.*/\1/p')")
listed=$(($(seconds_of "$(time_of "$second is elected")") - $(seconds_of "$(time_of "$first is killed")")))
[ "$later" -ge $((listed - 1)) ] && [ "$later" -le "$listed" ] || fail "$second led $listed s after $first was killed, and not $later: $(cat "$out/said")"
# On a terminal no line is wider than it.
cat >"$out/terminal.py" <<'END'
import os
import pty
import re
import sys
import time
child, terminal = pty.fork()
if not child:
    os.execvp('tools/tsp-demo', ['tools/tsp-demo', '--speed', '10'])
seen, until = b'', time.monotonic() + 6
while time.monotonic() < until:
    seen += os.read(terminal, 65536)
os.kill(child, 2)
try:
    while os.read(terminal, 65536):
        pass
except OSError:
    pass
status = os.waitpid(child, 0)[1]
last = seen.rpartition(b'\x1b[H')[0].rpartition(b'\x1b[H')[2].decode()
lines = [re.sub('\x1b\\[[KJ]', '', line.rstrip('\r')) for line in last.split('\n')]
print(max(map(len, lines)) <= 80, all(any(line.startswith(name) for line in lines) for name in ('ada', 'bea', 'cyd')), any('|' in line for line in lines), status)
END
python3 "$out/terminal.py" >"$out/said"
[ "$(cat "$out/said")" = 'True True True 2' ] || fail "on a terminal: $(cat "$out/said")"
# No daemon of it is left, whatever ended it.
sleep 1
! pgrep -f 'serve 127.0.0.1:[0-9]* (ada|bea|cyd) ' >"$out/left" || fail "these run on: $(cat "$out/left")"
# Wants this status and this line.
refuses() {
    wanted=$1 line=$2
    shift 2
    status=0
    "$@" >"$out/said" 2>"$out/told" </dev/null || status=$?
    [ "$status" -eq "$wanted" ] && grep -q "^tsp-demo: $line" "$out/told" && [ "$(wc -l <"$out/told")" -eq 1 ] || fail "'$*': status $status, $(cat "$out/told")"
}
refuses 2 '.*--speed.*a whole number from 10 to 100' tools/tsp-demo --speed 5
refuses 2 '.*unrecognized arguments: a' tools/tsp-demo a
refuses 3 '[a-z]* ended: ' tools/tsp-demo --program /bin/false
refuses 3 '[a-z]* ended: .*no-such-program' tools/tsp-demo --program "$out/no-such-program"
mkdir "$out/few"
for name in python3 env sh; do ln -s "$(command -v "$name")" "$out/few"; done
refuses 3 'there is no cc that works, by which a clone makes tsp_fast.so' env PATH="$out/few" tools/tsp-demo
echo "$check: three hosts, as lines and on a terminal"
