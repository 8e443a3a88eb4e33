#!/bin/sh
# What befalls a daemon under the supervisor: a reader that takes nothing, signals, a sleep of the machine, an address that goes, and more.
. "$(dirname "$0")/common.sh"
serving_program
case $program in /*) ;; *) program=$PWD/$program ;; esac

# Runs cases, each in a folder of its own.
cases() {
    for case; do
        mkdir "$out/$case"
        $before python3 tools/tests/supervise.py "$program" "$out/$case" "$case" >>"$out/took" || fail "$case fails"
    done
}

before=''
cases stuck blocked traced emptied full renewed piped lost threads switched notified busy slept stood followed killed interrupted turned ended told_first replaced learned reloaded retold trailed prioritised hung_up told_twice rated
if [ -d /run/tsp ]; then skip 'there is a place for a page' 'a daemon without one'; else cases pageless; fi
if has logrotate; then cases rotated; else skip 'there is no logrotate' 'its example'; fi
if unshare -rn true 2>/dev/null && has ip; then
    before='unshare -rn'
    cases gone away
else
    skip 'there are no network namespaces' 'an address that goes, and a name server that is away'
fi
echo "$check: $(paste -sd ',' "$out/took" | sed 's/,/, /g')"
