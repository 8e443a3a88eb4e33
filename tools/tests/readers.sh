#!/bin/sh
# A reader of the trace that is slow or stuck leaves a daemon its answers, in a short form of dev/readers.
. "$(dirname "$0")/common.sh"
has cc || { skip 'there is no cc' 'what a slow reader costs a daemon'; exit; }
serving_program
dev/readers --rate 20000 --seconds 1 "$program" >"$out/said" || fail "$(cat "$out/said")"
[ "$(wc -l <"$out/said")" -eq 4 ] || fail "$(cat "$out/said")"
for words in '--rate 0' '--least 2' 'a b'; do
    status=0
    # shellcheck disable=SC2086  # words
    dev/readers $words >"$out/text" 2>"$out/told" || status=$?
    [ "$status" -eq 2 ] && [ "$(wc -l <"$out/told")" -eq 1 ] && [ ! -s "$out/text" ] || fail "'$words': status $status, $(cat "$out/told")"
done
echo "$check: $(awk '{ print $1, $6 }' "$out/said" | paste -sd ',' | sed 's/,/, /g')"
