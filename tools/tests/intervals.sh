#!/bin/sh
# What programs read of two hosts' pages has the master's clock in its interval, in a short form of dev/intervals, in which time runs fast.
. "$(dirname "$0")/common.sh"
has cc && unshare -r -n -m -p -f --kill-child ip link >"$out/said" 2>&1 || { skip 'there is no cc, or there are no namespaces' 'the interval that programs read'; exit; }
serving_program
status=0
dev/intervals --rate 40 --minutes 15 --hosts 2 --quiet "$program" >"$out/said" 2>"$out/told" || status=$?
[ "$status" -eq 0 ] || fail "$(cat "$out/said" "$out/told")"
awk 'NR > 1 && ($2 < 10000 || $3 != 0 || $6 != 0) { exit 1 } END { exit NR != 3 }' "$out/said" || fail "$(cat "$out/said")"
# Where CLOCK_MONOTONIC is slewed, as chrony may do, nothing changes; and the check would see if daemons counted by that clock.
for counter in raw monotonic; do
    status=0
    dev/intervals --rate 40 --minutes 15 --hosts 2 --quiet --slewed 83333 --counter "$counter" "$program" >"$out/$counter" 2>"$out/told" || status=$?
    [ "$status" -eq 0 ] || fail "by the $counter counter: $(cat "$out/$counter" "$out/told")"
done
awk 'NR > 1 && ($2 < 10000 || $3 != 0) { exit 1 }' "$out/raw" || fail "a slewed clock is seen: $(cat "$out/raw")"
awk '$3 > 1000 { found = 1 } END { exit !found }' "$out/monotonic" || fail "a slewed counter isn't seen: $(cat "$out/monotonic")"
# Clocks that are wrong by more than readers are told aren't always in the interval: such a run finds that.
dev/intervals --rate 40 --minutes 15 --hosts 2 --quiet --drift 300 --told 10 "$program" >"$out/less" 2>"$out/told" || fail "a drift that is told too small: $(cat "$out/less" "$out/told")"
awk 'NR > 1 { outside += $3 } END { exit outside < 1000 }' "$out/less" || fail "$(cat "$out/less")"
for words in '--hosts 1' '--rate 51' 'a b'; do
    status=0
    # shellcheck disable=SC2086  # words
    dev/intervals $words >"$out/text" 2>"$out/told" || status=$?
    [ "$status" -eq 2 ] && [ "$(wc -l <"$out/told")" -eq 1 ] && [ ! -s "$out/text" ] || fail "'$words': status $status, $(cat "$out/told")"
done
echo "$check: $(awk 'NR > 1 { sum += $2 } END { print sum }' "$out/said") readings of two hosts, none outside, and with a slewed counter some"
