#!/bin/sh
# Each tool ends with a documented status and one line on standard error where its input is bad, and leaves nothing behind.
. "$(dirname "$0")/common.sh"
./tsp show </dev/null || fail "the program isn't there"
unset TSP_HOSTS TSP_SELF TSP_TURNS TSP_WAIT TSP_TRACE TSP_SPREAD
export TSP_PROGRAM="$PWD/crates/tsp_cli/out/tsp_cli"
[ "$(id -u)" -ne 0 ] || has setpriv || skip 'root reads every file, and there is no setpriv' 'a file without permission'
mkdir "$out/inputs"
python3 -B tools/tests/bad_inputs.py tools/tests/bad_inputs.rows "$out/inputs" >"$out/said" || fail 'a tool does something else with bad input than its row says'
echo "$check: $(cat "$out/said")"
