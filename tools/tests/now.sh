#!/bin/sh
# tsp-now prints a daemon's corrected time in each form, and sets a network's date through any of its daemons.
. "$(dirname "$0")/common.sh"
unset TSP_HOSTS TSP_SELF TSP_TURNS TSP_WAIT TSP_TRACE TSP_PROGRAM
export TSP_CLOCK="$out/page"
printf '%s\n' 'alpha 192.0.2.11 master' 'beta 192.0.2.12:526 slave' >"$out/hosts"

# A program that answers a query with what stands in a file of its address, and is silent where there is none. Once a date
# is set, the clock of alpha is as far ahead as BEHIND leaves of it.
cat >"$out/fake" <<'END'
#!/bin/sh
echo "$*" >>"$CALLS"
if [ "$1-$2" = clockdiff-192.0.2.11:525 ] && [ -n "$BEHIND" ]; then
    set -- $(grep '^date' "$CALLS" | tail -n 1)
    echo "clockdiff $(($3 - $(date +%s%6N) - BEHIND)) 250"
    exit
fi
[ -e "$ANSWERS/$1-$2" ] || exit 6
cat "$ANSWERS/$1-$2"
END
chmod +x "$out/fake"
mkdir "$out/answers"
export CALLS="$out/calls" ANSWERS="$out/answers" BEHIND='' TZ=UTC-5:30

# Wants this status of tsp-now with these words.
ends() {
    wanted=$1
    shift
    : >"$CALLS"
    status=0
    tools/tsp-now --program "$out/fake" --file "$out/hosts" "$@" >"$out/said" 2>"$out/told" || status=$?
    [ "$status" -eq "$wanted" ] || fail "'$*' ends with status $status: $(cat "$out/said" "$out/told")"
    said=$(cat "$out/said") told=$(cat "$out/told")
}

# Wants a time that was printed to be an hour ahead of this machine's, and no more than ten seconds later.
is_an_hour_ahead() {
    ahead=$(($(date -d "$1" +%s) - $(date +%s)))
    [ "$ahead" -ge 3589 ] && [ "$ahead" -le 3600 ] || fail "'$1' is $ahead s ahead"
}

# A clock that is an hour ahead, in each form, of a host, an address with and without its port, and this host.
echo 'clockdiff 3600000000 1500' >"$ANSWERS/clockdiff-192.0.2.11:525"
echo 'master alpha' >"$ANSWERS/msite-192.0.2.11:525"
for host in alpha 192.0.2.11 192.0.2.11:525; do
    ends 0 "$host"
    echo "$said" | grep -qx '20[0-9][0-9]-[0-9][0-9]-[0-9][0-9]T[0-9][0-9]:[0-9][0-9]:[0-9][0-9]\.[0-9]\{6\}+05:30 +/- 0\.001500' || fail "$host: it says '$said'"
    is_an_hour_ahead "${said%% *}"
    [ "$(paste -sd , "$CALLS")" = 'clockdiff 192.0.2.11:525,msite 192.0.2.11:525' ] || fail "$host: it asks '$(cat "$CALLS")'"
done
ends 0 --interval --utc alpha
first=${said%% *} last=${said#* }
[ $(($(date -d "$last" +%s%6N) - $(date -d "$first" +%s%6N))) -eq 3000 ] || fail "the interval is '$said'"

# A clock that no calendar has: ten thousand years ahead or behind, or as far as 64 bits go.
for years in 315576000000000000 -315576000000000000 9000000000000000000; do
    echo "clockdiff $years 1500" >"$ANSWERS/clockdiff-192.0.2.11:525"
    for form in '' --utc; do
        # shellcheck disable=SC2086  # a word or none
        ends 0 $form alpha
        shown=${said#@} shown=${shown%%.*}
        [ "${said#* }" = '+/- 0.001500' ] && [ $((shown - years / 1000000 - $(date +%s))) -le 1 ] && [ $((shown - years / 1000000 - $(date +%s))) -ge -10 ] || fail "$form: of a clock that is $years us ahead it says '$said'"
    done
done
echo 'clockdiff 3600000000 1500' >"$ANSWERS/clockdiff-192.0.2.11:525"

# A host that follows: how far its clock may be from its master's, which is asked too. One that knows no master belongs to nobody.
echo 'clockdiff 3599990000 200' >"$ANSWERS/clockdiff-192.0.2.12:526"
echo 'master alpha' >"$ANSWERS/msite-192.0.2.12:526"
for host in beta 192.0.2.12:526; do
    ends 0 "$host"
    [ "${said#* }" = '+/- 0.011700' ] || fail "$host: it says '$said'"
    [ "$(paste -sd , "$CALLS")" = 'clockdiff 192.0.2.12:526,msite 192.0.2.12:526,clockdiff 192.0.2.11:525' ] || fail "$host: it asks '$(cat "$CALLS")'"
done
echo 'no master' >"$ANSWERS/msite-192.0.2.12:526"
ends 5 beta
[ "${said#* }" = unsynchronised ] || fail "without a master it says '$said'"
ends 5 beta +%s
is_an_hour_ahead "@$said"
echo 'master delta' >"$ANSWERS/msite-192.0.2.12:526"
ends 78 beta
[ "$told" = "tsp-now: its master, delta, is no host of the hosts file, so nobody can say how far its clock is from that one's" ] || fail "it tells '$told'"
echo 'master alpha' >"$ANSWERS/msite-192.0.2.12:526"
ends 78 --file "$out/none" 192.0.2.12:526
[ "$told" = "tsp-now: $out/none: there is no such file; a hosts file is still needed for the address of its master, alpha" ] || fail "without a hosts file it tells '$told'"
rm "$ANSWERS"/*-192.0.2.12:526
ends 0 -u alpha
case ${said%% *} in *Z) is_an_hour_ahead "${said%% *}" ;; *) fail "in UTC it says '$said'" ;; esac
ends 0 alpha '+%s'
is_an_hour_ahead "@$said"
ends 0 '+%Y-%m-%dT%H:%M:%S.%6N%z' alpha --utc
is_an_hour_ahead "$said"
[ "${said#*+}" = 0000 ] || fail "a format in UTC gives '$said'"
ends 0 --offset alpha
[ "$said" = +3600.000000 ] || fail "the offset is '$said'"
echo 'clockdiff -1 0' >"$ANSWERS/clockdiff-192.0.2.12:526"
echo 'no master' >"$ANSWERS/msite-192.0.2.12:526"
ends 5 --offset beta
[ "$said" = '-0.000001 unsynchronised' ] || fail "without a master the offset is '$said'"
echo 'master alpha' >"$ANSWERS/msite-192.0.2.12:526"
ends 0 --offset beta
[ "$said" = -0.000001 ] || fail "a small offset is '$said'"
TSP_SELF=beta.example.org
export TSP_SELF
ends 0 --offset
[ "$said" = -0.000001 ] || fail "the offset of this host is '$said'"

# A gateway with another address in each network listens at all of them, and is asked over the loopback on its own machine.
printf '%s\n' + 'beta 198.51.100.12:526 slave' >>"$out/hosts"
echo 'clockdiff 7 0' >"$ANSWERS/clockdiff-127.0.0.1:526"
echo 'master alpha' >"$ANSWERS/msite-127.0.0.1:526"
ends 0 --offset
[ "$said" = +0.000007 ] || fail "the offset of a gateway is '$said', asked by '$(cat "$CALLS")'"
sed -i '/^+$/,$d' "$out/hosts"

# A date is set at the host that leads, in each spelling, and as this machine's clock: at the moment of the try, and no more than some seconds later.
echo 'date set' >"$ANSWERS/date-192.0.2.11:525"
BEHIND=-1000
for case in 2026-11-28T09:41:02.5Z=1795858862500000 '2026-11-28 15:11:02+05:30=1795858862000000' 1969-12-31T23:59:59.75-00:30=1799750000 @-1.25=-1250000 now=; do
    ends 0 --set "${case%=*}" alpha
    date=${case##*=}
    later=$(($(sed -n 's/^date 192.0.2.11:525 //p' "$CALLS") - ${date:-$(date +%s%6N)}))
    [ "$later" -le 3000000 ] && [ "$later" -ge "$([ -n "$date" ] && echo 0 || echo -3000000)" ] || fail "${case%=*} is set $later us later: '$(cat "$CALLS")'"
    # (the fake's clock stands at the date for as long as it is looked at)
    echo "$said" | grep -qx "date set at alpha, which leads: its clock is [0-3]\.[0-9]* s [a-z ]* that date, give or take 0\.000250" || fail "of a date that is set it says '$said'"
done
[ "$(sed 's/ .*//' "$CALLS" | paste -sd ' ')" = 'msite date clockdiff clockdiff clockdiff clockdiff' ] || fail "of a date it asks '$(cat "$CALLS")'"

# Whoever leads is asked for: by a host that follows, through a gateway, and, where no host is named, by all of the first network.
cp "$out/hosts" "$out/flat"
printf '%s\n' + 'gate 198.51.100.1 slave' 'gamma 198.51.100.2 slave' >>"$out/hosts"
sed -i '2a gate 192.0.2.13 slave' "$out/hosts"
echo 'master alpha' >"$ANSWERS/msite-192.0.2.12:526"
echo 'master alpha' >"$ANSWERS/msite-192.0.2.13:525"
echo 'master gate' >"$ANSWERS/msite-198.51.100.2:525"
for host in beta gamma 192.0.2.12:526 ''; do
    ends 0 --set now $host
    [ "$(grep ^date "$CALLS" | cut -d ' ' -f 1-2)" = 'date 192.0.2.11:525' ] || fail "${host:-nobody}: it sets the date by '$(cat "$CALLS")'"
done
echo 'no master' >"$ANSWERS/msite-192.0.2.11:525"
ends 1 --set now
[ "$told" = 'tsp-now: nobody leads: tsp-status says how the hosts are' ] && ! grep date "$CALLS" || fail "where nobody leads it tells '$told'"
echo 'master gate' >"$ANSWERS/msite-192.0.2.13:525"
echo 'master alpha' >"$ANSWERS/msite-192.0.2.11:525"
ends 1 --set now
[ "$told" = 'tsp-now: alpha and gate lead at one time: tsp-status says how the hosts are' ] && ! grep date "$CALLS" || fail "where two lead it tells '$told'"
echo 'master beta' >"$ANSWERS/msite-192.0.2.11:525"
echo 'master beta' >"$ANSWERS/msite-192.0.2.13:525"
ends 1 --set now beta
[ "$told" = 'tsp-now: nobody leads: tsp-status says how the hosts are' ] && ! grep date "$CALLS" || fail "where two name each other it tells '$told'"
echo 'master alpha' >"$ANSWERS/msite-192.0.2.11:525"
mv "$out/flat" "$out/hosts"
echo 'no master' >"$ANSWERS/msite-192.0.2.12:526"
ends 0 --set now beta
echo 'master delta' >"$ANSWERS/msite-192.0.2.12:526"
echo 'master delta' >"$ANSWERS/msite-192.0.2.12:526"
ends 78 --set @5 beta
[ "$told" = "tsp-now: 'delta' is no host of the hosts file" ] || fail "of a stranger as master it tells '$told'"

# A clock that isn't near afterwards; a master that takes no date, with each try at its own moment, and the reason; and one whose answer is lost.
BEHIND=60000000
ends 1 --set 2026-11-28T09:41:02.5Z alpha
echo "$told" | grep -qx "tsp-now: the date isn't set: alpha's clock is [56][0-9]\.[0-9]* s behind that date, give or take 0\.000250" || fail "of a date that isn't set it tells '$told'"
mv "$ANSWERS/date-192.0.2.11:525" "$out/set"
ends 1 --set 2026-11-28T09:41:02.5Z alpha
[ "$told" = "tsp-now: the date isn't set: alpha leads, and takes none now, since a correction that it sent in the last 70 s isn't acknowledged; no master takes a date then. Try again in 70 s" ] || fail "of a date that isn't taken it tells '$told'"
later=$(grep ^date "$CALLS" | awk 'NR == 1 { one = $3 } END { print $3 - one }')
[ "$(grep -c ^date "$CALLS")" -eq 2 ] && [ "$later" -ge 1000000 ] || fail "two tries have dates $later us apart"
BEHIND=-1000
ends 0 --set now -t 1 alpha
echo "$said" | grep -q "^alpha, which leads, doesn't say that it set the date; its clock is [0-3]\.[0-9]* s " || fail "of an answer that is lost it says '$said'"
mv "$out/set" "$ANSWERS/date-192.0.2.11:525"
BEHIND=''

# The page of this machine, which is read without a question: one that leads, one that follows, one without a master, and one that nobody writes.
page() { python3 tools/tests/made_page.py "$out/page" "$1" 7200000000; }
page 2
ends 0
[ "${said#* }" = '+/- 0.000000' ] && [ ! -s "$CALLS" ] || fail "a page of a host that leads gives '$said'"
page -2000:5000
ends 0 -u
[ "${said#* }" = '+/- 0.005002' ] || fail "a page of a host that follows gives '$said'"
ends 0 --offset
awk -v said="$said" 'BEGIN { exit !(said > 7199 && said < 7201) }' || fail "the offset of a page is '$said'"
ends 0 --interval
[ $(($(date -d "${said#* }" +%s%6N) - $(date -d "${said%% *}" +%s%6N))) -eq 7004 ] || fail "the interval of a page is '$said'"
ends 0 --wait
ends 0 --wait 6 --timeout 0.2
ends 1 --wait 5 --timeout 0.2
[ "$told" = 'tsp-now: not synchronised within 5 ms in that time' ] || fail "a wait tells '$told'"
ends 0 --after
until=$(($(date -d "$said" +%s%6N) - 7200000000))
[ "$(date +%s%6N)" -ge $((until + 2000)) ] || fail 'a stamp is given before it is over'
ends 0 --after 300
[ "$(date +%s%6N)" -ge $(($(date -d "$said" +%s%6N) - 7200000000 + 302000)) ] || fail 'a stamp is given before so many milliseconds more are over'
# If another life's clock counts when the wait is over, another stamp is taken.
page -9000000:9000000
{ sleep 1; python3 tools/tests/made_page.py "$out/page" 2 7300000000 0 9; } &
ends 0 --after
awk -v ahead=$(($(date -d "$said" +%s%6N) - $(date +%s%6N))) 'BEGIN { exit !(ahead > 7290e6 && ahead <= 7300e6) }' || fail "a stamp is of a clock that counts no more: '$said'"
wait
page 1
ends 5
[ "${said#* }" = unsynchronised ] || fail "a page without a master gives '$said'"
ends 5 --offset
case $said in *' unsynchronised') ;; *) fail "the offset of a page without a master is '$said'" ;; esac
ends 1 --wait --timeout 0.2
[ "$told" = 'tsp-now: not synchronised in that time' ] || fail "a wait tells '$told'"
# A long wait says once what it waits for.
for words in --wait --after; do
    ends 1 "$words" --timeout 6
    [ "$told" = "tsp-now: waits for the network's time: status waiting
tsp-now: not synchronised in that time" ] || fail "a long $words tells '$told'"
done
page -9000000:9000000
ends 1 --after --timeout 6
[ "$told" = "tsp-now: waits for the network's time: status synchronised
tsp-now: the network's time wasn't surely after the stamp in that time" ] || fail "a long wait for a stamp tells '$told'"
page 0
ends 1
[ "$told" = "tsp-now: the daemon of this host doesn't run, by $out/page" ] || fail "a page that nobody writes gives '$said$told'"
for form in --tracking '--tracking --json'; do
    # shellcheck disable=SC2086  # words
    ends 1 $form
    [ "$told" = "tsp-now: the daemon of this host doesn't run, by $out/page" ] && [ -z "$said" ] || fail "a page that nobody writes gives '$said$told'"
done
ends 0 --prometheus
stale=$said
[ "$(echo "$stale" | grep -v '^#')" = "$(printf 'tsp_clock_status{status="%s"} %s\n' stale 1 waiting 0 synchronised 0 holding 0)" ] || fail "the metrics of a page that nobody writes are '$stale'"
rm "$out/page"
ends 1 --tracking
[ "$told" = "tsp-now: there is no page of the network's time at $out/page" ] && [ -z "$said" ] || fail "without a page it tells '$said$told'"
ends 0 --prometheus
[ "$said" = "$stale" ] || fail "the metrics without a page are '$said'"

# What the page says of this host, beside what is reckoned of the page's numbers; into a file too, by a rename.
python3 -B tools/tests/tracking.py "$out/page" 14 || fail 'a page is told in another way than it says'
page -2000:5000
echo old >"$out/tracked"
ln "$out/tracked" "$out/before"
for form in --tracking '--tracking --json' --prometheus; do
    # shellcheck disable=SC2086  # words
    ends 0 $form -o "$out/tracked"
    [ -z "$said" ] && [ "$(cat "$out/before")" = old ] && grep -q 'synchronised' "$out/tracked" || fail "$form: the file has '$(cat "$out/tracked")'"
done
[ "$(find "$out" -name '.tracked*' | wc -l)" -eq 0 ] || fail 'something is left beside the file'
ends 4 --tracking --output "$out/none/tracked"
grep -o 'tsp_clock_[a-z_]*' man/tsp-now.1 | sort -u >"$out/told"
sed -n 's/^# TYPE \([a-z_]*\) .*/\1/p' "$out/tracked" | sort -u | diff "$out/told" - >"$out/differ" || fail "the page has other metrics: $(cat "$out/differ")"
rm "$out/page"
ends 1 --after
[ "$told" = "tsp-now: there is no page of the network's time at $out/page" ] || fail "without a page it tells '$told'"
for words in '' --interval --offset; do
    # shellcheck disable=SC2086  # a word or none
    ends 78 --file "$out/none" $words
    [ "$told" = "tsp-now: there is no page of the network's time at $out/page (TSP_CLOCK names another one), and no hosts file to ask by ($out/none: there is no such file)" ] || fail "without a page and a hosts file it tells '$told'"
done
[ ! -s "$CALLS" ] || fail "with a page it asks '$(cat "$CALLS")'"

# Nobody answers, or something else does; faulty words, files and outputs.
rm "$ANSWERS"/*-192.0.2.11:525
for words in alpha '--offset alpha' '--set @5 alpha'; do
    # shellcheck disable=SC2086  # words
    ends 1 $words
    [ "$told" = "tsp-now: 192.0.2.11:525 doesn't answer" ] || fail "of a silent host it tells '$told'"
done
echo 'clockdiff 1' >"$ANSWERS/clockdiff-192.0.2.11:525"
ends 3 alpha
[ "$told" = "tsp-now: $out/fake clockdiff 192.0.2.11:525 answers 'clockdiff 1'" ] || fail "of another answer it tells '$told'"
ends 3 --program "$out/none" alpha
ends 78 delta
ends 78 --program "$out/none" --file "$out/none" alpha
TSP_SELF='delta'
ends 78
[ "$told" = "tsp-now: $out/hosts: no line for this host, delta" ] || fail "of a host that isn't there it tells '$told'"
for words in '--set x alpha' '--set 2026-02-30T00:00:00Z' '--set 2026-11-28T09:41:02' '--set @9999999999' '--set' 'a b' '+%s +%T' '--offset +%s' '--all' '--set @5 --offset' '--wait 1 alpha' '--after alpha' '--wait -1' '--interval +%s' '--tracking alpha' '--prometheus alpha' '--tracking +%s' --json '--offset --json' '--output x' '--prometheus --json' '--tracking --prometheus' '--tracking --wait' 127.0.0.1:0 300.1.1.1 1.2.3 ::1 '[::1]:525' 01.2.3.4 224.0.0.1 1.2.3.4:70000 alpha:525; do
    # shellcheck disable=SC2086  # words
    ends 2 $words
    [ "$(wc -l <"$out/told")" -eq 1 ] && [ -z "$said" ] && [ ! -s "$CALLS" ] || fail "'$words': it says '$said$told'"
done
for case in 127.0.0.1:0='a port is a number' 300.1.1.1='four numbers up to 255' ::1='no address of IPv4'; do
    ends 2 "${case%%=*}"
    case $told in *"${case#*=}"*) ;; *) fail "of ${case%%=*} it tells '$told'" ;; esac
done
ends 2 --set '' alpha
echo 'clockdiff 1 1' >"$ANSWERS/clockdiff-192.0.2.11:525"
echo 'master alpha' >"$ANSWERS/msite-192.0.2.11:525"
for into in '>/dev/full' '>&-'; do
    status=0
    eval "tools/tsp-now --program '$out/fake' --file '$out/hosts' 192.0.2.11 $into" 2>"$out/told" || status=$?
    [ "$status" -eq 4 ] && [ "$(wc -l <"$out/told")" -eq 1 ] || fail "$into: status $status, '$(cat "$out/told")'"
done
printf '#!/bin/sh\nexec sleep 30\n' >"$out/fake"
ended=$(interrupted tools/tsp-now --program "$out/fake" --timeout 20 192.0.2.11)
[ "$ended" = "(b'', b'tsp-now: interrupted\\n') -2" ] || fail "an interrupt ends with $ended"
echo "$check: forms of the time, dates that are set and handed on, and bad input"
