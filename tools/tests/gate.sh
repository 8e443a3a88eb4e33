#!/bin/sh
# What the gate costs: ways down from crates by hand, and the page that is written of a command, in a small repository.
. "$(dirname "$0")/common.sh"

repository=$out/repository
mkdir -p "$repository/dev" "$repository/docs"
cp dev/gate-times dev/crate-paths "$repository/dev/"
printf '%s\n' '# crates' 'low: arrayvec' 'left: low' 'right: low  # the other side' 'top: left right low' 'program staticlib: top left' >"$repository/crates.txt"

# low 1, left and right 2 each, top 1 + 2 + 2 + 1, program 1 + 6 + 2.
"$repository/dev/crate-paths" | awk '{ print $1, $2 }' >"$out/ways"
printf '%s\n' '1 low' '2 left' '2 right' '6 top' '9 program' | cmp -s - "$out/ways" || fail "the ways are $(cat "$out/ways")"

# A crate below itself, and a file that isn't there.
printf '%s\n' 'one: two' 'two: one' >"$out/circle"
for row in "$out/circle:one stands below itself" "$out/none:there is no file $out/none"; do
    status=0
    dev/crate-paths "${row%%:*}" >"$out/said" 2>"$out/told" || status=$?
    [ "$status" -eq 2 ] && [ "$(cat "$out/told")" = "crate-paths: ${row#*:}" ] && [ ! -s "$out/said" ] || fail "status $status: $(cat "$out/said" "$out/told")"
done

# Each edit says what it guards, and so does its row of the page.
! grep -L '^guards: .' crates/*/must-fail/*.edit | grep . || fail 'an edit does not say what it guards'
for edit in crates/*/must-fail/*.edit; do
    crate=${edit#crates/}
    grep -qxF "| \`${crate%%/*}\` | \`$(basename "$edit" .edit)\` | $(sed -n 's/^guards: //p' "$edit") |" docs/GATE.md || fail "docs/GATE.md has no row of $edit"
done
mkdir -p "$repository/crates/left/must-fail"
printf '%s\n' 'guards: that it is so' 'file: src/lib.rt' 'old: true' 'new: false' >"$repository/crates/left/must-fail/is_not_so.edit"

# The page keeps the figures that it has, of crates and of commands, and gets a row for the command, whose status is handed on.
printf '%s\n' '| `sh -c exit 3` | 5 | 7 | '"$(nproc)"' |' '| `low` | 60 | 7 | 30 | 97 |' '| `left` | 120 |  |  | 120 |' '| `right` | 30 |  |  | 30 |' '| `gone` | 9000 |  |  | 9000 |' >"$repository/docs/GATE.md"
status=0
"$repository/dev/gate-times" sh -c 'exit 3' || status=$?
[ "$status" -eq 3 ] || fail "a command with status 3 gives status $status"
page=$repository/docs/GATE.md
for line in '| `sh -c exit 3` | 5 | 7 | '"$(nproc)"' |' '| `sh -c exit 3` | 0 | 0 | '"$(nproc)"' |' '| `low` | 60 | 7 | 30 | 97 | 1 |' '| `left` | 120 |  |  | 120 | 2 |' '| `program` |  |  |  | 0 | 9 |' '| `left` | `is_not_so` | that it is so |' \
    'In all, in minutes of one processor: proof 4, tests 0, edits 0, together 4.' \
    'If each proof had one processor, no run would be faster than the longest chain of proofs, which takes 3 minutes:'; do
    grep -qxF -- "$line" "$page" || fail "the page lacks: $line"
done
! grep -q gone "$page" || fail 'the page has a crate that is gone'
[ "$(grep '^1\. ' "$page" | head -n 2 | tr '\n' ' ')" = '1. `low` 1. `left` ' ] || fail 'the longest chain is another one'
cp "$page" "$out/page"
"$repository/dev/gate-times" sh -c 'exit 3' || :
cmp -s "$page" "$out/page" || fail 'a second run of the same writes another page'
# A process below may have words that aren't UTF-8.
status=0
"$repository/dev/gate-times" sh -c 'sh -c "sleep 1; exit 3" "$(printf "\377")"' 2>"$out/told" || status=$?
[ "$status" -eq 3 ] && [ ! -s "$out/told" ] || fail "words that aren't UTF-8: status $status: $(cat "$out/told")"
status=0
"$repository/dev/gate-times" >"$out/said" 2>"$out/told" || status=$?
[ "$status" -eq 1 ] && grep -q '^usage: ' "$out/told" || fail "without a command: status $status"
echo "$check: ways down from crates, and the page of a command"
