#!/bin/sh
# What ./tsp foretells of a proof, on runs of machines that are made up.
. "$(dirname "$0")/common.sh"

python3 tools/tests/forecast.py >"$out/said" 2>"$out/told" || fail "$(cat "$out/told")"
echo "$check: $(cat "$out/said")"
