#!/bin/sh
# dev/worst-cases finds nothing in random networks that takes longer than the laws of progress say, and tells if something does.
. "$(dirname "$0")/common.sh"
program=${TSP_PROGRAM:-crates/tsp_cli/out/tsp_cli}
[ -n "${TSP_PROGRAM:-}" ] || ./tsp show </dev/null || fail "the program isn't there"

dev/worst-cases --seeds 25 --program "$program" >"$out/said" 2>"$out/told" || fail "$(cat "$out/said" "$out/told")"
for row in 'quiet times' 'searches for a master' candidatures rounds 'numbered sends' 'a node that hears nothing stands for election' 'it leads'; do
    grep -q "^| $row | " "$out/said" || fail "there is no row '$row': $(cat "$out/said")"
done
# Looks that are later by a tenth reach the bounds of those alarms that are armed as far ahead as the law says.
dev/worst-cases --seeds 10 --late 0.1 --long 0.01 --program "$program" >"$out/said" || fail "$(cat "$out/said")"
for row in 'searches for a master .* 5.100 s | 5.100' 'candidatures .* 5.100 s | 5.100' 'times from round to round .* 240.100 s | 240.100'; do
    grep -q "^| $row s |$" "$out/said" || fail "no row is like '$row': $(cat "$out/said")"
done
# Bounds that are a microsecond less aren't kept.
mkdir -p "$out/other/dev"
ln -s "$PWD/tools" "$out/other/tools"
ln -s "$PWD/dev/lab" "$out/other/dev/lab"
sed 's/, bound + late$/, bound + late - 1/' dev/worst-cases >"$out/other/dev/worst-cases"
! cmp -s dev/worst-cases "$out/other/dev/worst-cases" || fail 'nothing is changed'
status=0
python3 -B "$out/other/dev/worst-cases" --seeds 25 --program "$program" >"$out/said" 2>"$out/told" || status=$?
[ "$status" -eq 1 ] && [ "$(cat "$out/told")" = 'worst-cases: something took longer than the law says' ] || fail "of bounds that aren't kept it says '$(cat "$out/told")', status $status"
# Whole networks, once they are calm.
dev/worst-cases --whole --seeds 12 --program "$program" >"$out/said" 2>"$out/told" || fail "$(cat "$out/said" "$out/told")"
for row in 'a network has no master' 'not all follow the only master, since it is that' 'clocks are apart between rounds, once all follow'; do
    grep -q "^| $row | [1-9]" "$out/said" || fail "there is no row '$row': $(cat "$out/said")"
done
sed 's/2160, 0, 8/2, 0, 8/' dev/worst-cases >"$out/other/dev/worst-cases"
! cmp -s dev/worst-cases "$out/other/dev/worst-cases" || fail 'nothing is changed'
! python3 -B "$out/other/dev/worst-cases" --whole --seeds 12 --program "$program" >"$out/said" 2>"$out/told" || fail "networks have a master within seconds: $(cat "$out/said")"
for words in '--seeds 0' '--late 1.1' '--long x' 'more'; do
    # shellcheck disable=SC2086  # words
    ! dev/worst-cases $words >"$out/said" 2>"$out/told" || fail "'$words' is accepted"
    [ "$(wc -l <"$out/told")" -eq 1 ] && [ ! -s "$out/said" ] || fail "'$words': it says $(cat "$out/said" "$out/told")"
done
! dev/worst-cases --program "$out/none" >"$out/said" 2>"$out/told" || fail 'a program that is not there can be run'
[ "$(cat "$out/told")" = "worst-cases: $out/none: No such file or directory" ] || fail "of no program it says '$(cat "$out/told")'"
echo "$check: nothing in 47 networks takes longer than the laws say"
