#!/bin/sh
# dev/machines, as far as it can be tried without machines: its words, what it says where something is missing, and what it reckons of samples.
. "$(dirname "$0")/common.sh"
python3 -B tools/tests/machines.py || fail 'distances are reckoned otherwise than by hand'

# Wants this status of it, and this one line on standard error.
says() {
    status=0
    wanted=$1 line=$2
    shift 2
    "$@" >"$out/said" 2>"$out/told" || status=$?
    [ "$status" -eq "$wanted" ] && [ "$(wc -l <"$out/told")" -eq 1 ] && grep -q "$line" "$out/told" || fail "status $status, $(cat "$out/told")"
}
says 2 '^machines: which scenarios? ' dev/machines
says 2 "^machines: 'no-such' is no scenario: " dev/machines install no-such
says 2 "^machines: 'x' is no scenario: " dev/machines install+x
says 2 '^machines: argument -n/--count' dev/machines --count 6 install
says 2 '^machines: argument -H/--hours' dev/machines --hours 0 day
says 2 '^machines: argument -s/--seed' dev/machines --seed -1 day
dev/machines --list >"$out/list" || fail 'it lists nothing'
[ "$(grep -c '^[a-z_]* *[A-Z]' "$out/list")" -eq "$(wc -l <"$out/list")" ] || fail 'a scenario has no text'
# (a PATH with nothing in it that the lab needs but python3)
mkdir "$out/empty"
ln -s "$(command -v python3)" "$out/empty/python3"
says 1 '^machines: this needs .*qemu-system-x86_64 (Debian.s qemu-system-x86), .*mmdebstrap' env PATH="$out/empty" "$(command -v python3)" -B dev/machines -d README.md -f "$out/lab" install
[ ! -e "$out/lab" ] || fail 'a folder is made though it can not run'
echo "$check: $(wc -l <"$out/list") scenarios, what is missing, and distances as by hand"
