#!/bin/sh
# Three daemons in fast time, as an operator meets them: nobody leads, clocks are an hour apart, one is to lead in another's place, one is dead, and
# a date is set. tsp-status alarms by itself, tsp-elect and tsp-now --set say what came of it and why.
. "$(dirname "$0")/common.sh"
has cc || { skip 'there is no cc' 'a failover in fast time'; exit; }
serving_program
case $program in /*) ;; *) program=$PWD/$program ;; esac
began=$(date +%s)
python3 tools/tests/failover.py "$program" "$out" >"$out/told" 2>&1 || fail "$(cat "$out/told")"
echo "$check: an hour between clocks, a handover, a dead host, dates and a dead master, in $(($(date +%s) - began)) s"
