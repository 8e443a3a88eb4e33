#!/bin/sh
# Lines of examples/logger.py and writes of examples/store.py on three hosts sort as they happened, though their master is killed meanwhile. TSP_SEED
# is the seed of clocks and of which host does what; 1 if left out.
. "$(dirname "$0")/common.sh"
apart='unshare -r -n -m -p -f --kill-child'
has cc && $apart ip link >"$out/said" 2>&1 || { skip 'there is no cc, or there are no namespaces' 'the order of what three hosts log and write'; exit; }
serving_program
$apart python3 tools/tests/ordered.py "$(realpath "$program")" "$out" "${TSP_SEED:-1}" >"$out/said" 2>"$out/told" || fail "$(tail -n 3 "$out/told")"
echo "$check: $(cat "$out/said")"
