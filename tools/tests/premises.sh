#!/bin/sh
# tsp-lint --premises says which premises of the promises a schedule keeps, and the first line that breaks each, as their
# definitions say that stand in the test.
. "$(dirname "$0")/common.sh"
./tsp show </dev/null || fail "the program isn't there"
program=crates/tsp_cli/out/tsp_cli

broken=$(python3 -B tools/tests/premises_random.py "$program" 1 50) || fail 'tsp-lint says something else of premises than their definitions'
python3 -B tools/tests/premises_random.py "$program" 1 0 examples/*.tsp >"$out/said" || fail 'tsp-lint says something else of the premises of an example'

# What breaks each is told in words. (b's ACK of an ADJTIME is taken 30 s after it was posted, and then a microsecond later)
premises() {
    status=0
    tools/tsp-lint --program "$program" --premises "$out/schedule" >"$out/said" 2>"$out/told" || status=$?
    [ "$status" -eq "$1" ] || fail "status $status, not $1: $(cat "$out/said" "$out/told")"
    shift
    printf '%s\n' "$@" | cmp -s - "$out/said" || fail "tsp-lint says '$(cat "$out/said")'"
}
sed 's/^at 638000700 take/at 668000400 take/' examples/round.tsp >"$out/schedule"
premises 0 'Sealed holds' 'Prompt holds' 'Apart holds' 'Short holds' 'NamesDiffer holds'
sed '3s/ a / b /; s/^at 638000700 take/at 668000401 take/; s/^end/at 668000401 bytes 1 0 00\nat 668000401 boot 1 0\nend/' examples/round.tsp >"$out/schedule"
premises 5 "Sealed fails: $out/schedule:28: octets come in from outside in the name of peer 0" \
    "Prompt fails: $out/schedule:27: datagram 15 is taken 30000001 microseconds after it was posted, and at most 30000000 is prompt" \
    "Apart fails: $out/schedule:29: this boot has the word of the one on line 5" 'Short holds' \
    "NamesDiffer fails: $out/schedule:4: this node has the name of the one on line 3"

# A schedule that is refused has no premises, and a program that posts nothing no say in them.
sed 's/ turn 0/ turn 9/' examples/round.tsp >"$out/schedule"
status=0
tools/tsp-lint --program "$program" --premises "$out/schedule" >"$out/said" || status=$?
[ "$status" -eq 1 ] && ! grep -e holds -e fails "$out/said" || fail "a schedule that is refused ends with status $status"
cp examples/round.tsp "$out/schedule"
printf '#!/bin/sh\ncat >/dev/null\n' >"$out/silent"
chmod +x "$out/silent"
status=0
tools/tsp-lint --program "$out/silent" --premises "$out/schedule" >"$out/said" 2>"$out/told" || status=$?
[ "$status" -eq 70 ] && [ ! -s "$out/said" ] && [ "$(wc -l <"$out/told")" -eq 1 ] || fail "a program that posts nothing ends with status $status"
echo "$check: of 50 random schedules were accepted, and broke each premise: $broken"
