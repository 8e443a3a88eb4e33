#!/bin/sh
# Daemons of two versions on one network, in fast time: each version leads the other's hosts, measures and corrects them, and answers its questions.
. "$(dirname "$0")/common.sh"
[ -n "${TSP_OTHER:-}" ] || { skip 'TSP_OTHER names no program of another version' 'two versions on one network'; exit; }
has cc || { skip 'there is no cc' 'two versions on one network'; exit; }
serving_program
case $program in /*) ;; *) program=$PWD/$program ;; esac
"$TSP_OTHER" show </dev/null || fail "TSP_OTHER: $TSP_OTHER can't be run"
python3 tools/tests/mixed.py "$program" "$TSP_OTHER" "$out" >"$out/said" 2>"$out/told" || fail "$(cat "$out/told")"
echo "$check: $(cat "$out/said")"
