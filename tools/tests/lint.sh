#!/bin/sh
# tsp-lint refuses what `replay` refuses, with the same line, and names the field; it accepts what `replay` accepts.
. "$(dirname "$0")/common.sh"
./tsp show </dev/null || fail "the program isn't there"
export TSP_PROGRAM=crates/tsp_cli/out/tsp_cli

for schedule in tools/tests/lint.tsp tools/tests/nets.tsp examples/*.tsp examples/schedules/*.tsp; do
    tools/tsp-lint "$schedule" >"$out/said" || fail "$schedule is refused"
    [ ! -s "$out/said" ] || fail "something is said of $schedule"
done

count=0
# Tries each case of a file on the schedule beside it.
try_cases() {
    good=$1 cases=$2
    while IFS= read -r case; do
        case $case in '#'*) continue ;; esac
        script=${case%% | *} rest=${case#* | }
        wanted=${rest%% |*} hint=${rest#* | }
        sed "$script" "$good" >"$out/broken.tsp"
        status=0
        "$TSP_PROGRAM" replay <"$out/broken.tsp" >"$out/trace" 2>"$out/warning" || status=$?
        if [ "$wanted" = ok ]; then
            [ "$status" -eq 0 ] || fail "$script: replay ends with status $status"
            tools/tsp-lint "$out/broken.tsp" >"$out/said" || fail "$script: tsp-lint ends with status $?"
            continue
        fi
        [ "$status" -eq 2 ] || fail "$script: replay ends with status $status"
        [ "$(tail -n 1 "$out/trace")" = "$wanted" ] || fail "$script: replay ends with '$(tail -n 1 "$out/trace")'"
        status=0
        tools/tsp-lint "$out/broken.tsp" >"$out/said" || status=$?
        [ "$status" -eq 1 ] || fail "$script: tsp-lint ends with status $status"
        [ "$(head -n 1 "$out/said")" = "$wanted" ] || fail "$script: tsp-lint says '$(head -n 1 "$out/said")'"
        [ "$(sed -n 2p "$out/said")" = "$out/broken.tsp:$hint" ] || fail "$script: tsp-lint says '$(sed -n 2p "$out/said")'"
        count=$((count + 1))
    done <"$cases"
}
try_cases tools/tests/lint.tsp tools/tests/lint.cases
try_cases tools/tests/nets.tsp tools/tests/nets.cases
[ "$count" -ge 20 ] || fail "only $count cases were tried"

# Both refuse standard input with this status and this last and first line.
refuses() {
    wanted=$1 verdict=$2
    cat >"$out/large.tsp"
    status=0
    "$TSP_PROGRAM" replay <"$out/large.tsp" 2>"$out/warning" | tail -n 1 >"$out/last"
    [ "$(cat "$out/last")" = "$verdict" ] || fail "replay ends with '$(cat "$out/last")', not '$verdict'"
    tools/tsp-lint - <"$out/large.tsp" >"$out/said" || status=$?
    [ "$status" -eq "$wanted" ] || fail "$verdict: tsp-lint ends with status $status"
    [ "$(head -n 1 "$out/said")" = "$verdict" ] || fail "tsp-lint says '$(head -n 1 "$out/said")', not '$verdict'"
}

# A header of this many nodes that may not be master; each boots with the word 0.
nodes() {
    printf 'tsp-schedule 1\ndrift 0\n'
    seq 0 $(($1 - 1)) | sed 's/.*/node n& 0 0 s/'
    seq 0 $(($1 - 1)) | sed 's/.*/at 0 boot & 0/'
}

# Line 67 is the 65th node.
nodes 65 | refuses 1 'bad 67 header'

# With 3 lines of header, the event behind 200,000 stands on line 200,004.
{
    nodes 1
    yes 'at 0 turn 0' | head -n 200000
} | refuses 7 'limit 200004'

# 64 nodes search for a master again and again. Each search of each posts 63 datagrams, first at 80 s and then every 305 s from
# 385 s on; 5 s later it is over. 24 * 64 + 256 datagrams must be left of 1,000,000, so 998,208 may have been posted, which are
# 15,844 searches and a part: after 15,845 there is no room. That is 247 times 64 and 37, and a time has 128 lines behind the 130 of
# the header and boots, so it is the turn of node 37 on line 130 + 247 * 128 + 38.
{
    nodes 64
    awk 'BEGIN {
        for (time = 0; time < 248; time++) {
            at = time ? 385 + 305 * (time - 1) : 80
            for (node = 0; node < 64; node++) print "at " at "000000 turn " node
            for (node = 0; node < 64; node++) print "at " at + 5 "000000 turn " node
        }
        print "end"
    }'
} | refuses 7 'limit 31784'

# An octet behind 64 MiB, in the first line.
head -c 67108865 /dev/zero | tr '\0' x | refuses 7 'limit 1'

# Schedules that are spoiled at random.
spoiled=$(PYTHONPATH=tools python3 -B tools/tests/lint_random.py "$TSP_PROGRAM" 1 400) || fail 'replay and the verdict on a text differ'

# A program that says something else than the text does is told of.
printf '#!/bin/sh\ncat >/dev/null\necho bad 5 line\nexit 2\n' >"$out/other"
chmod +x "$out/other"
status=0
tools/tsp-lint --program "$out/other" tools/tests/lint.tsp >"$out/said" 2>&1 || status=$?
[ "$status" -eq 70 ] || fail "a program that refuses a good schedule ends with status $status"

# Other words, and a file that isn't there.
status=0
tools/tsp-lint a b 2>/dev/null || status=$?
[ "$status" -eq 2 ] || fail "two files end with status $status"
status=0
tools/tsp-lint "$out/none" 2>/dev/null || status=$?
[ "$status" -eq 3 ] || fail "a file that isn't there ends with status $status"
echo "$check: $count broken schedules, $spoiled spoiled at random, and those of examples/"
