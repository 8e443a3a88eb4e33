#!/bin/sh
# tsp-feed: the loop of a fed clock in a model, each fault with made pages, what chronyd's sources make of it, and a chronyd of the system's that is fed.
# No clock is touched: chronyd runs with -x.
. "$(dirname "$0")/common.sh"
unset TSP_CLOCK
python3 -B tools/tests/feed_model.py >"$out/said" 2>"$out/told" || fail "the loop: $(tail -n 1 "$out/told")"
echo "$check: $(cat "$out/said")"
mkdir "$out/faults"
python3 -B tools/tests/feed_faults.py "$out/faults" || fail 'at a fault it does something else'

# Wants this status of tsp-feed with these words, and sets what it said.
ends() {
    wanted=$1
    shift
    status=0
    TSP_CLOCK=$out/page timeout 60 tools/tsp-feed "$@" >"$out/said" 2>"$out/told" || status=$?
    [ "$status" -eq "$wanted" ] || fail "'$*' ends with status $status: $(cat "$out/said" "$out/told")"
    said=$(cat "$out/said") told=$(cat "$out/told")
}
# Wants it to refuse with this status and this line, with --status and without.
refuses() {
    wanted=$1 line=$2
    for form in --status --socket="$out/socket"; do
        ends "$wanted" "$form" --socket "$out/socket"
        [ "$told" = "tsp-feed: $line" ] && [ -z "$said" ] || fail "it tells '$said$told', and not '$line'"
    done
}

# The sources, by a chronyc that prints what stands in a file, or ends with status 1.
cat >"$out/bin/chronyc" <<'OF'
#!/bin/sh
case $* in *tracking) cat "$SOURCES.tracking" 2>/dev/null; exit ;; esac
echo "$*" >"$SOURCES.words"
[ -e "$SOURCES" ] || { echo '506 Cannot talk to daemon'; exit 1; }
cat "$SOURCES"
OF
chmod +x "$out/bin/chronyc"
export SOURCES="$out/sources"
own='#,*,TSP,0,4,377,5,0.000001,0.000002,0.0005'
python3 - "$out/socket" <<'OF'
import socket
import sys
socket.socket(socket.AF_UNIX, socket.SOCK_DGRAM).bind(sys.argv[1])
OF
refuses 6 "chronyd doesn't run, or says nothing: 506 Cannot talk to daemon"
echo "$own" >"$SOURCES"
ends 0 --status --socket "$out/socket"
[ "$said" = "it would wait: nobody writes a page of the network's time at $out/page" ] || fail "without a page it says '$said'"
[ "$(cat "$SOURCES.words")" = '-n -c sources' ] || fail "it asks chronyc for '$(cat "$SOURCES.words")'"
ends 0 --status --socket "$out/socket" --chronyd 192.0.2.1
[ "$(cat "$SOURCES.words")" = '-h 192.0.2.1 -n -c sources' ] || fail "it asks chronyc for '$(cat "$SOURCES.words")'"
python3 tools/tests/made_page.py "$out/page" 1 0
ends 0 --status --socket "$out/socket"
[ "$said" = 'it would wait: the daemon waits for a master and its correction: nothing is sent' ] || fail "of a page without a master it says '$said'"
python3 tools/tests/made_page.py "$out/page" -2000:5000 3000
ends 0 --status --socket "$out/socket"
echo "$said" | grep -qx "it would send samples to $out/socket: b leads, and the network's time is +0\.00[345][0-9]* s ahead of this machine's clock" || fail "of a page it says '$said'"
# Other sources: one that is followed, one that is heard, and one that never was.
for other in '^,+,192.0.2.1,2,6,377' '^,-,192.0.2.1,2,6,1' '^,*,192.0.2.1,2,6,0' '=,x,192.0.2.1,2,6,4'; do
    printf '%s\n' "$other,20,0.0,0.0,0.1" "$own" >"$SOURCES"
    refuses 5 'chronyd has another source, 192.0.2.1: one clock doesn'\''t follow two'
done
printf '%s\n' '^,?,192.0.2.1,0,6,0,-1,0.0,0.0,0.1' "$own" >"$SOURCES"
ends 0 --status --socket "$out/socket"
# Its own clock, by `local`; and another one, as it is while it is fed.
own_clock='1796110410.793896048,0.000000000,0.000000000,0.000000000,0.000,0.000,0.000,0.000000000,0.000000000,0.0,Normal'
echo "7F7F0101,,10,$own_clock" >"$SOURCES.tracking"
refuses 5 'chronyd goes by its own clock, as a line `local` of its file says: take that out'
echo "54535000,TSP,1,$own_clock" >"$SOURCES.tracking"
ends 0 --status --socket "$out/socket"
rm "$SOURCES.tracking"
# None to feed, and what isn't known.
: >"$SOURCES"
refuses 6 'chronyd has no reference clock TSP: examples/chrony.conf of the package has its line'
echo 'what?' >"$SOURCES"
refuses 6 "chronyc says of its sources what isn't known here: 'what?'"
echo "$own" >"$SOURCES"
rm "$out/socket"
refuses 6 "$out/socket: No such file or directory; chronyd makes it by its line \`refclock SOCK\`"
: >"$out/socket"
refuses 6 "$out/socket: it is no socket"
rm "$out/socket" "$out/bin/chronyc"

# The unit and the example: the unit is off until it is turned on, asks chronyd with all rights, and has none itself.
unit=daemon/tsp-feed.service
for line in 'ExecCondition=+/usr/sbin/tsp-feed --status' 'ExecStart=/usr/sbin/tsp-feed --asked' 'User=root' 'CapabilityBoundingSet=' 'ProtectSystem=strict' 'PrivateNetwork=yes' 'RestrictAddressFamilies=AF_UNIX' 'SystemCallFilter=@system-service' 'RestartSec=30' 'After=chrony.service tsp.service'; do
    grep -qx -e "$line" "$unit" || fail "$unit hasn't '$line'"
done
grep -q "^refclock SOCK $(python3 -B -c 'import sys; sys.path.insert(0, "tools"); from tsp_daemon import chrony; print(chrony.SOCKET, "refid", chrony.REFID)') " daemon/tsp-chrony.conf || fail 'the example has another socket'
if has systemd-analyze && systemd-analyze --help | grep -q -e --root; then
    root=$out/root
    install -d "$root/usr/lib/systemd/system" "$root/usr/sbin"
    install -m 644 "$unit" "$root/usr/lib/systemd/system"
    install -m 755 /dev/null "$root/usr/sbin/tsp-feed"
    for units in /usr/lib/systemd/system /lib/systemd/system; do
        [ ! -d "$units" ] || { cp -r "$units"/*.target "$root/usr/lib/systemd/system" 2>/dev/null || :; }
    done
    systemd-analyze --no-pager verify --man=no --root="$root" tsp-feed.service >"$out/told" 2>&1 || :
    [ ! -s "$out/told" ] || fail "$(head -n 1 "$out/told")"
    systemd-analyze --no-pager security --offline=true --threshold=25 "$unit" >"$out/told" 2>&1 || fail "$(tail -n 1 "$out/told")"
else
    skip 'there is no systemd-analyze, or it knows no other root' "what systemd says of $unit"
fi

# A chronyd with its own socket, which opens no port and sets no clock (-x), by the example's lines.
PATH=$PATH:/usr/sbin
has chronyd && has chronyc || { skip 'there is no chronyd' 'whether it is fed'; exit; }
mkdir -m 770 "$out/chrony"
mkdir "$out/log"
cat >"$out/chrony.conf" <<OF
$(sed "/^#/d; s|/run/chrony.tsp.sock|$out/fed|; s/poll 4/poll 0/" daemon/tsp-chrony.conf)
refclock SOCK $out/other refid GPS poll 0 filter 1
pidfile $out/chrony/pid
port 0
cmdport 0
bindcmdaddress $out/chrony/chronyd.sock
log refclocks
logdir $out/log
OF
chronyd -x -d -U -u "$(id -un)" -f "$out/chrony.conf" >"$out/chronyd" 2>&1 &
note_process
chronyd=$!
tries=0
until [ -S "$out/fed" ] && chronyc -h "$out/chrony/chronyd.sock" -n -c sources >"$out/sources" 2>&1; do
    tries=$((tries + 1))
    kill -0 "$chronyd" 2>/dev/null || { skip "chronyd doesn't run here: $(tail -n 1 "$out/chronyd")" 'whether it is fed'; exit; }
    [ "$tries" -lt 100 ] || fail "chronyd doesn't answer: $(cat "$out/sources" "$out/chronyd")"
    sleep 0.1
done
grep -q 'Disabled control of system clock' "$out/chronyd" || fail 'chronyd has control of the clock'
rm -f "$out/page"
python3 -B tools/tests/feed_looks.py "$out/page" 100 &
note_process
TSP_CLOCK=$out/page tools/tsp-feed --socket "$out/fed" --chronyd "$out/chrony/chronyd.sock" 2>"$out/feed" &
note_process
tries=0
until chronyc -h "$out/chrony/chronyd.sock" -n -c sources | grep -q '^#,\*,TSP,'; do
    tries=$((tries + 1))
    [ "$tries" -lt 300 ] || fail "chronyd doesn't follow the feed: $(cat "$out/chronyd" "$out/feed")"
    sleep 0.1
done
grep -q 'Selected source TSP' "$out/chronyd" || fail "chronyd says '$(cat "$out/chronyd")'"
# (the seventh column is the offset of a sample as it came)
awk '$3 == "TSP" && $7 != "-" { count++; if ($7 < 0.0025 || $7 > 0.0035) wrong = $0 } END { if (!count || wrong) { print wrong; exit 1 } }' "$out/log/refclocks.log" >"$out/wrong" || fail "chronyd has other offsets: '$(cat "$out/wrong" "$out/log/refclocks.log")'"
ends 0 --status --socket "$out/fed" --chronyd "$out/chrony/chronyd.sock"
# Its own clock, which a chronyd that was never fed goes by.
mkdir -m 770 "$out/lone"
sed "s|$out/chrony/|$out/lone/|; s|$out/fed|$out/fed.lone|; /^log\|^refclock SOCK .* GPS/d" "$out/chrony.conf" >"$out/lone.conf"
echo 'local stratum 10 orphan' >>"$out/lone.conf"
chronyd -x -d -U -u "$(id -un)" -f "$out/lone.conf" >"$out/lone.said" 2>&1 &
note_process
tries=0
until [ -S "$out/fed.lone" ] && chronyc -h "$out/lone/chronyd.sock" -n -c sources >"$out/sources" 2>&1; do
    tries=$((tries + 1))
    [ "$tries" -lt 100 ] || fail "a chronyd with \`local\` doesn't answer: $(cat "$out/sources" "$out/lone.said")"
    sleep 0.1
done
ends 5 --status --socket "$out/fed.lone" --chronyd "$out/lone/chronyd.sock"
[ "$told" = 'tsp-feed: chronyd goes by its own clock, as a line `local` of its file says: take that out' ] || fail "of its own clock it tells '$told'"
# Another source beside it.
python3 -B tools/tests/feed_other.py "$out/other" 8 || fail 'the other source ends'
ends 5 --status --socket "$out/fed" --chronyd "$out/chrony/chronyd.sock"
[ "$told" = "tsp-feed: chronyd has another source, GPS: one clock doesn't follow two" ] || fail "of another source it tells '$told'"
end_all
ends 6 --status --socket "$out/fed" --chronyd "$out/chrony/chronyd.sock"
echo "$check: the loop, the faults, the sources, the unit, and a chronyd that is fed"
