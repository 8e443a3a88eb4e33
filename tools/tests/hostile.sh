#!/bin/sh
# What a node does with octets of every sort, in each role, from whomever.
. "$(dirname "$0")/common.sh"
./tsp show </dev/null || fail "the program isn't there"
python3 tools/tests/hostile.py crates/tsp_cli/out/tsp_cli
