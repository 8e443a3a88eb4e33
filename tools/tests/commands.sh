#!/bin/sh
# The commands that convert lines, on lines that were worked out by hand, and words that are no command.
. "$(dirname "$0")/common.sh"
program=$(./tsp --path)

# Wants a command to write this of standard input.
writes() {
    "$program" "$1" >"$out/written" || fail "$1 refuses its input"
    [ "$(cat "$out/written")" = "$2" ] || fail "$1 writes: $(cat "$out/written")"
}

# What `show` writes, `pack` reads back.
printf '0101000700000000000004d2616c70686100\n' | writes show 'adjtime 7 1234 alpha'
printf '81010005000000000000000100000000000000020000000000000400\n' >"$out/hex"
writes show 'reply 5 1 2 1024' <"$out/hex"
mv "$out/written" "$out/shown"
writes pack "$(cat "$out/hex")" <"$out/shown"

# An exchange of timestamps gives its clock's offset, the group and a correction.
printf 'host-1 0d00eb74cb21e91d01dd516e0000000000000000 0e0040c2cb21e91d01dd516e01dd52fc01dd52fc 31282321\n' | writes icmp 'host-1 -3 403
group 2 -3000 3000 -1500
correct host-1 1500'

# Words that are no command: none, and a second word behind or before one.
for words in '' 'replay x' 'x replay'; do
    status=0
    # shellcheck disable=SC2086  # its words
    "$program" $words <examples/first.tsp >"$out/written" 2>"$out/told" || status=$?
    [ "$status" -eq 1 ] && [ "$(cat "$out/written")" = usage ] || fail "the words '$words' give another answer than usage"
done
echo "$check: show, pack, icmp, and words that are no command"
