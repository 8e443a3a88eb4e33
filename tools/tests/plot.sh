#!/bin/sh
# tsp-plot reads off a run what was worked out by hand, and draws each example as the picture that stands beside it.
. "$(dirname "$0")/common.sh"

PYTHONPATH=tools python3 -B tools/tests/plot_worked.py 2>"$out/worked" || { cat "$out/worked" >&2; fail 'a run is read in another way'; }

# How many elements there are in a picture that have this text.
drawn() {
    grep -c -- "$1" "$out/picture.svg" || :
}

has xmllint || skip 'there is no xmllint' 'whether pictures are XML'
examples/draw "$out/drawn" || fail 'the examples are not drawn'
count=0
for schedule in examples/*.tsp examples/schedules/*.tsp tools/tests/plot/*.tsp; do
    trace=${schedule%.tsp}.trace
    cp "$out/drawn/${schedule%.tsp}.svg" "$out/picture.svg" || fail "$schedule isn't drawn"
    cmp -s "$out/picture.svg" "${schedule%.tsp}.svg" || fail "$schedule gives another picture than the one beside it"
    ! has xmllint || xmllint --noout "$out/picture.svg" || fail "the picture of $schedule isn't XML"

    # A circle for each correction, a box for each group, and a cross for each datagram to a peer that is never taken.
    [ "$(drawn '<circle .*<title>')" -eq "$(grep -c '^[0-9]* [0-9]* [0-9]* [0-9]* correct ' "$trace")" ] || fail "$schedule: not each correction is drawn"
    [ "$(drawn '<title>the group of ')" -eq "$(grep -c '^[0-9]* [0-9]* [0-9]* [0-9]* close ' "$trace")" ] || fail "$schedule: not each group is drawn"
    never=$(awk '
        FNR == NR { if ($3 == "take") taken[$4] = 1; next }
        $5 == "post" && $7 != "-" && !($6 in taken) { never++ }
        END { print never + 0 }
    ' "$schedule" "$trace")
    [ "$(drawn 'never taken</title>')" -eq "$never" ] || fail "$schedule: $never datagrams are never taken, and $(drawn 'never taken</title>') are drawn so"
    # Whatever fonts a machine has, they have these letters.
    ! sed 's/µ//g' "$out/picture.svg" | LC_ALL=C grep -q '[^ -~]' || fail "$schedule: the picture has a letter that a font may lack"
    grep -q 'so time isn.t even\|true time, in minutes<' "$out/picture.svg" && grep -q 'clock less true time' "$out/picture.svg" || fail "$schedule: an axis has no name"
    count=$((count + 1))
done

# On linear scales rounded times and values stand evenly, with their units.
python3 - <<'END' || fail 'linear scales are not linear, or their marks not rounded'
import re
text = open('examples/together.svg', encoding='utf-8').read()
times = [(float(label), float(x)) for x, label in re.findall(r'<text x="([0-9.]+)" y="[0-9.]+" text-anchor="middle">([0-9.]+)</text>', text)]
values = [(float(label or 0), float(y)) for y, label in re.findall(r'<text x="118.0" y="([0-9.]+)" text-anchor="end">(?:0|([-+][0-9]+) ms)</text>', text)]
panels = [[mark for mark in values if mark[1] < 270], [mark for mark in values if mark[1] > 270]]
for marks in [times, *panels]:
    gaps = [(other[0] - one[0], other[1] - one[1]) for one, other in zip(marks, marks[1:])]
    assert len(marks) >= 4 and len({gap[0] for gap in gaps}) == 1 and abs(gaps[0][0]) in (1, 2, 5, 10, 20, 50), marks
    assert max(gap[1] for gap in gaps) - min(gap[1] for gap in gaps) < .3, marks
assert times[0][0] == 0 and 'true time, in minutes<' in text
END
# A legend has what occurs, and where no clock moves there is no panel.
for name in slew step 'never taken'; do
    [ "$(grep -c ">$name</text>" examples/election.svg)" -eq "$([ "$name" = 'never taken' ] && echo 1 || echo 0)" ] || fail "the legend of an election: $name"
    [ "$(grep -c ">$name</text>" examples/together.svg)" -eq "$([ "$name" = 'never taken' ] && echo 0 || echo 1)" ] || fail "the legend of two clocks: $name"
done
! grep -q '<polyline' examples/first.svg && grep -q 'the same throughout: a +1,000 ' examples/first.svg || fail 'a panel is drawn in which nothing moves'

# A measurement is seen, however far the clocks are from true time: each of the gateway's is drawn 5 high or more.
sed -n 's/^<line .*y1="\([0-9.]*\)" .*y2="\([0-9.]*\)" .*<title>.*measured by.*/\1 \2/p' examples/gateway.svg |
    awk '$1 - $2 < 5 { exit 1 } END { exit NR != 8 }' || fail 'the measurements of a gateway are not seen'

# What rounds bound: of the gateway's clock 402 and twice a microsecond, of the clock below it 196 and as much besides. By a drift of 5 the
# gateway's reading, which is 6.9997 and then 34.4217 s old, has 36 and then 174 in the place of the microsecond.
bounded() {
    tools/tsp-plot --bounds "$@" >"$out/picture.svg" || fail "'$*' isn't drawn with its bounds"
    ! has xmllint || xmllint --noout "$out/picture.svg" || fail "the picture of '$*' with bounds isn't XML"
}
bounded examples/gateway.tsp examples/gateway.trace
[ "$(drawn '<title>1 gate: by Agreed within 404 to 404 .* of 0 a</title>')" -eq 1 ] || fail 'a bound by one round is another'
[ "$(drawn '<title>2 b: by Chained within 602 to 602 .* of 0 a</title>')" -eq 1 ] || fail 'a bound by two rounds is another'
bounded --drift 5 examples/gateway.tsp examples/gateway.trace
[ "$(drawn '<title>1 gate: by Agreed within 474 to 750 .* of 0 a</title>')" -eq 1 ] || fail 'a bound by another drift is another'
bounded examples/first.tsp examples/first.trace
[ "$(drawn 'no round has corrected a follower')" -eq 1 ] || fail 'it is not said that nothing is bounded'
# (of the round's schedule in which octets come in a peer's name, nothing is promised)
sed '/^end$/i at 638000700 bytes 0 1 00' tools/tests/plot/round.tsp >"$out/forged.tsp"
{ cat tools/tests/plot/round.trace; echo '24 0 0 638000700 took 1 refused short'; } >"$out/forged.trace"
bounded "$out/forged.tsp" "$out/forged.trace"
[ "$(drawn 'nothing is promised: Sealed fails on line 28')" -eq 1 ] || fail 'it is not said why nothing is promised'
for words in '--drift 1001' '--drift -1' '--drift' '--drift 0 examples/schedules/corrected-followers.tsp'; do
    status=0
    # shellcheck disable=SC2086  # words
    tools/tsp-plot $words >"$out/picture.svg" 2>"$out/told" || status=$?
    [ "$status" -eq 2 ] && [ "$(wc -l <"$out/told")" -eq 1 ] || fail "'$words' ends with status $status: $(cat "$out/told")"
done

# With more than eight lanes each has its own clock beside its role, and all are there.
awk 'BEGIN {
    print "tsp-schedule 1\ndrift 0"
    for (i = 0; i < 24; i++) print "node n" i " 0 " i * 1000 " " (i ? "s" : "m")
    for (i = 0; i < 24; i++) print "at 0 boot " i " 0"
    for (i = 0; i < 24; i++) print "at 80000000 turn " i
    print "at 85000000 turn 0\nat 385000000 turn 0\nat 387000000 turn 0\nat 389000000 turn 0\nat 390000000 turn 0"
    for (i = 1; i < 24; i++) print "at 390000100 take " 24 * 23 + 3 * 23 + i - 1
    print "at 400000000 turn 0\nend"
}' >"$out/many.tsp"
./tsp replay <"$out/many.tsp" >"$out/many.trace" || fail 'twenty-four nodes are not run'
tools/tsp-plot "$out/many.tsp" "$out/many.trace" >"$out/picture.svg" || fail 'twenty-four nodes are not drawn'
[ "$(grep -c '^<rect .*<title>.* follow 0 n0, ' "$out/picture.svg")" -eq "$(grep -c ' become follow 0$' "$out/many.trace")" ] || fail 'not each follower of many is drawn'
[ "$(grep -c ' become follow 0$' "$out/many.trace")" -eq 23 ] || fail 'not all follow'
[ "$(drawn "in each lane: its clock less its master.s, from -")" -eq 1 ] || fail 'it is not said what is in a lane'

# What lies on one pixel of a crowded picture is drawn once: 12,000 octets from outside at one time, and 3 at another, are two triangles.
{
    printf 'tsp-schedule 1\ndrift 0\nnode a 0 0 m\nat 0 boot 0 0\n'
    yes 'at 1000000 bytes 0 - 00' | head -n 12000
    yes 'at 2000000 bytes 0 - 00' | head -n 3
    echo end
} >"$out/crowded.tsp"
./tsp replay <"$out/crowded.tsp" >"$out/crowded.trace" || fail 'what comes from outside is not run'
tools/tsp-plot --strangers "$out/crowded.tsp" "$out/crowded.trace" >"$out/picture.svg" || fail 'a crowded picture is not drawn'
! has xmllint || xmllint --noout "$out/picture.svg" || fail 'a crowded picture isn.t XML'
triangle='M[0-9]* [0-9]*l-3 -6h6z'
[ "$(drawn "<path d=\"$triangle$triangle\" fill=\"#555\"><title>octets from outside</title></path>")" -eq 1 ] && [ "$(drawn 'octets from outside</title>')" -eq 1 ] ||
    fail 'what lies on one pixel is drawn more than once'

# A network that was witnessed: its clocks are decades from true time, which is subtracted and named, so that what they differ by is seen. What
# strangers sent is drawn where that is asked for. No two texts in one line of the picture stand over each other.
set -- --file tools/tests/witness/three.hosts
for name in a-1 a-4 b-3 c-2; do set -- "$@" "${name%-*}=tools/tests/witness/three/$name.trace"; done
TSP_PROGRAM=$(./tsp --path) tools/tsp-witness --schedule "$out/witnessed.tsp" --claims "$out/witnessed.trace" "$@" || fail 'a network is not witnessed'
tools/tsp-plot -o "$out/picture.svg" "$out/witnessed.tsp" "$out/witnessed.trace" || fail 'a witnessed network is not drawn'
grep -q 'clock less true time and less 999,999,99[0-9]\.[0-9]* s, which all have in common, ' "$out/picture.svg" || fail 'what the clocks have in common is not named'
grep -q 'in seconds since 2027-01-15 08:00:0[0-9] UTC; ' "$out/picture.svg" || fail 'it is not said when the run was'
python3 - "$out/picture.svg" <<'END' || fail 'the clocks of a witnessed network are not seen, or labels stand over each other'
import re, sys
text = open(sys.argv[1], encoding='utf-8').read()
clocks = [set(re.findall(r',([0-9.]+)', found)) for found in re.findall(r'<polyline points="([^"]*)" fill="none" stroke="#[0-9a-f]*" stroke-width="1.6"', text)]
heights = {round(float(height)) for found in clocks for height in found}
assert len(clocks) == 3 and len(heights) >= 4, heights
labels = {}
for x, y, more, words in re.findall(r'<text x="([-0-9.]+)" y="([-0-9.]+)"([^>]*)>([^<]*)</text>', text):
    wide, x = 5.5 * len(words), float(x)
    begin = x - wide if '"end"' in more else x - wide / 2 if '"middle"' in more else x
    labels.setdefault(y, []).append((begin, begin + wide, words))
for found in labels.values():
    found.sort()
    for one, other in zip(found, found[1:]):
        assert one[1] <= other[0] + 1, (one, other)
END
strangers=$(grep -c ' bytes [0-9/]* - ' "$out/witnessed.tsp")
[ "$strangers" -ge 5 ] && [ "$(drawn 'octets from outside</title>')" -eq 0 ] || fail 'strangers are drawn, and nobody asked for them'
tools/tsp-plot --strangers -o "$out/picture.svg" "$out/witnessed.tsp" "$out/witnessed.trace" || fail 'strangers are not drawn'
[ "$(drawn 'octets from outside</title>')" -eq "$strangers" ] || fail 'not all strangers are drawn, where that is asked for'

# A PNG is made, or it is said that it can't be; other pictures are refused. An event of two million lines is refused within bounds.
status=0
tools/tsp-plot -o "$out/picture.png" examples/election.tsp examples/election.trace 2>"$out/told" || status=$?
if has rsvg-convert; then
    [ "$status" -eq 0 ] && [ "$(head -c 4 "$out/picture.png" | tail -c 3)" = PNG ] || fail "no PNG is made: $(cat "$out/told")"
else
    [ "$status" -eq 1 ] && grep -q '^tsp-plot: a PNG is made by rsvg-convert, which isn.t here' "$out/told" && [ ! -e "$out/picture.png" ] || fail "of a PNG it says '$(cat "$out/told")'"
fi
mkdir "$out/unmade"
status=0
PATH=$out/bin tools/tsp-plot -o "$out/unmade/picture.png" examples/election.tsp examples/election.trace 2>"$out/told" || status=$?
[ "$status" -ne 0 ] && [ ! -e "$out/unmade/picture.png" ] || fail 'without a program that makes a PNG there is one'
status=0
tools/tsp-plot -o "$out/picture.jpg" examples/election.tsp examples/election.trace 2>"$out/told" || status=$?
[ "$status" -eq 2 ] && [ "$(cat "$out/told")" = "tsp-plot: $out/picture.jpg: a picture is .svg, .html or .png" ] || fail "of a JPEG it says '$(cat "$out/told")'"
printf 'tsp-schedule 1\ndrift 0\nnode a 0 0 m\nat 0 boot 0 5\nend\n' >"$out/one.tsp"
{ printf '1 0 0 0 boot\n'; yes '1 0 0 0 trace on' | head -n 2000000; } >"$out/one.trace"
status=0
limited=''
! has prlimit || limited='prlimit --as=1000000000'
$limited timeout 60 tools/tsp-plot "$out/one.tsp" "$out/one.trace" >"$out/picture.svg" 2>"$out/told" || status=$?
[ "$status" -eq 1 ] && [ "$(cat "$out/told")" = "tsp-plot: $out/one.trace: line 500001: a trace of more than 500000 lines isn't drawn" ] || fail "of two million lines it says '$(cat "$out/told")', status $status"
rm "$out/one.trace"

# Without a trace the program is run.
./tsp show </dev/null || fail "the program isn't there"
tools/tsp-plot --strangers examples/first.tsp -o "$out/picture.svg" || fail 'a schedule without a trace is not drawn'
cmp -s "$out/picture.svg" examples/first.svg || fail 'a schedule without a trace gives another picture'
for case in 'false|replay of examples/first.tsp ends with status 1; tsp-lint says more' 'true|the run of examples/first.tsp: line 1: event 1 of this schedule has no line' \
    'yes|the run of examples/first.tsp: line 1: it is no line of a trace'; do
    status=0
    tools/tsp-plot -p "${case%%|*}" examples/first.tsp >"$out/picture.svg" 2>"$out/told" || status=$?
    [ "$status" -eq 1 ] && [ "$(cat "$out/told")" = "tsp-plot: ${case#*|}" ] || fail "the program ${case%%|*}: $(cat "$out/told")"
done

# What isn't a schedule is refused.
sed 3d examples/first.tsp >"$out/broken.tsp"
! tools/tsp-plot "$out/broken.tsp" examples/first.trace >"$out/picture.svg" 2>"$out/told" || fail 'a schedule without a node is drawn'
grep -q 'line 3' "$out/told" || fail 'it is not said where a schedule is broken'

# A file is written as a whole or stays as it is; a link's file is, and a mode stays.
cp examples/first.svg "$out/old.svg"
chmod 640 "$out/old.svg"
ln -s old.svg "$out/link.svg"
tools/tsp-plot examples/election.tsp examples/election.trace -o "$out/link.svg" || fail 'a picture is not put in the place of another'
cmp -s "$out/old.svg" examples/election.svg && [ -L "$out/link.svg" ] && [ "$(stat -c %a "$out/old.svg")" = 640 ] || fail 'a picture is written beside a link, or with another mode'
# Fails, with this said.
unwritten() {
    said=$1
    shift
    status=0
    "$@" >"$out/picture.svg" 2>"$out/told" || status=$?
    [ "$status" -eq 1 ] && [ "$(cat "$out/told")" = "tsp-plot: $said" ] || fail "$*: status $status, $(cat "$out/told")"
}
unwritten "$out/none/a.svg: No such file or directory" tools/tsp-plot examples/first.tsp examples/first.trace -o "$out/none/a.svg"
unwritten "$out: Is a directory" tools/tsp-plot examples/first.tsp examples/first.trace -o "$out"
unwritten '/dev/full: No space left on device' tools/tsp-plot examples/first.tsp examples/first.trace -o /dev/full
unwritten "$out/old.svg: File too large" sh -c 'ulimit -f 1; exec tools/tsp-plot examples/round.tsp examples/round.trace -o "$1"' sh "$out/old.svg"
cmp -s "$out/old.svg" examples/election.svg || fail 'a picture that was not written leaves a part'
! find "$out" -name '.*.svg*' | grep . || fail 'a picture that was not written leaves a file'

# What isn't a trace of this schedule is refused, with the line.
others=0
while IFS='|' read -r script line why; do
    sed "$script" examples/round.trace >"$out/other.trace"
    status=0
    tools/tsp-plot examples/round.tsp "$out/other.trace" >"$out/picture.svg" 2>"$out/told" || status=$?
    [ "$status" -eq 1 ] && [ ! -s "$out/picture.svg" ] || fail "a trace with '$script' is drawn"
    [ "$(cat "$out/told")" = "tsp-plot: $out/other.trace: line $line: $why" ] || fail "a trace with '$script': $(cat "$out/told")"
    others=$((others + 1))
done <tools/tests/plot.cases
for trace in examples/*.trace examples/schedules/*.trace; do
    [ "$trace" = examples/round.trace ] || ! tools/tsp-plot examples/round.tsp "$trace" >"$out/picture.svg" 2>"$out/told" || fail "round.tsp is drawn with $trace"
done
echo "$check: $count pictures, and $others traces that are none"
