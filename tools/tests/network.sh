#!/bin/sh
# Three daemons on a network that loses, delays and repeats elect one master at a time, agree on the time, and do what the rules say. Time
# runs so fast there that a machine which stands still for a twentieth of a second is late for an alarm.
. "$(dirname "$0")/common.sh"
serving_program
# A run that fails keeps what it names.
if has cc; then
    status=0
    TMPDIR=$out dev/network "$(command -v false)" >"$out/said" 2>"$out/told" || status=$?
    kept=$(sed -n 's/^network: what was written is kept in //p' "$out/said")
    [ "$status" -eq 1 ] && [ -d "${kept:-none}" ] && [ -e "$(echo "$kept"/*.trace)" ] || fail "a run that fails keeps '$kept': $(cat "$out/said" "$out/told")"
fi
dev/network "$program"
