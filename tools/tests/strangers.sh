#!/bin/sh
# What one datagram of a stranger makes a network send is what OPERATOR has of that.
. "$(dirname "$0")/common.sh"
serving_program
python3 -B tools/tests/strangers.py "$program" >"$out/said" 2>"$out/told" || fail "$(cat "$out/told")"
echo "$check: $(cat "$out/said")"
