#!/bin/sh
# tsp-sim writes schedules that replay accepts, and that have the losses, cuts and boots that were asked for.
. "$(dirname "$0")/common.sh"
./tsp show </dev/null || fail "the program isn't there"
export TSP_PROGRAM=crates/tsp_cli/out/tsp_cli

# Runs tsp-sim, and replays what it wrote.
simulate() {
    tools/tsp-sim "$@" >"$out/run.tsp" || fail "$*: tsp-sim ends with status $?"
    "$TSP_PROGRAM" replay <"$out/run.tsp" >"$out/run.trace" || fail "$*: replay ends with status $?"
}

# Of each datagram that was posted to a node: its number, poster, addressee, post time and time of its first take or `-`.
datagrams() {
    awk '
        FNR == 1 { file++ }
        file == 1 && $1 == "at" { at[++events] = $2; if ($3 == "take" && !($4 in taken)) taken[$4] = $2; next }
        file == 2 && $5 == "post" && $7 != "-" { print $6, $2, $7, at[$1], ($6 in taken ? taken[$6] : "-") }
    ' "$out/run.tsp" "$out/run.trace"
}

count() {
    awk "$1 { n++ } END { print n + 0 }"
}

# One seed gives one schedule, and another another.
simulate --seed 5 --until 700
cp "$out/run.tsp" "$out/first.tsp"
simulate --seed 5 --until 700
cmp -s "$out/first.tsp" "$out/run.tsp" || fail 'one seed gives two schedules'
simulate --seed 6 --until 700
! cmp -s "$out/first.tsp" "$out/run.tsp" || fail 'two seeds give one schedule'

# Without losses each datagram comes in, within its latency, but for those that are still on their way at the end.
simulate --seed 7 --nodes 4 --slaves 1 --latency 200 900 --until 1000
[ "$(grep -c '^node ' "$out/run.tsp")" -eq 4 ] || fail 'there are not four nodes'
[ "$(grep -c '^node .* s$' "$out/run.tsp")" -eq 1 ] || fail 'there is not one slave'
[ "$(datagrams | wc -l)" -ge 10 ] || fail 'nothing happens'
[ "$(datagrams | count '$5 != "-" && ($5 - $4 < 200 || $5 - $4 > 900)')" -eq 0 ] || fail 'a datagram is not as long on its way as was asked'
[ "$(datagrams | count '$5 == "-" && $4 < 999999100')" -eq 0 ] || fail 'a datagram is lost'
grep -q ' become master$' "$out/run.trace" || fail 'nobody is elected'

# An alarm is met in time, since nodes are turned when it is due.
! grep -q ' late ' "$out/run.trace" || fail 'an alarm is late'

# With losses alone: of a hundred or more datagrams a third, by and large.
simulate --seed 9 --nodes 8 --loss 0.3 --until 1500
lost=$(datagrams | count '$5 == "-"') all=$(datagrams | wc -l)
[ "$all" -ge 100 ] || fail "only $all datagrams are posted"
[ "$((lost * 10))" -gt "$((all * 2))" ] && [ "$((lost * 10))" -lt "$((all * 4))" ] || fail "$lost of $all datagrams are lost"

# With losses, repeats, a cut and a boot.
simulate --seed 8 --nodes 5 --loss 0.3 --twice 0.2 --cut 2@50-420.5 --reboot 1@500 --until 1500
[ "$(grep -c ' boot ' "$out/run.tsp")" -eq 6 ] || fail 'there are not six boots'
grep -q '^at 500000000 boot 1 ' "$out/run.tsp" || fail 'node 1 does not boot again when it was asked to'
[ "$(awk '$3 == "take" { print $4 }' "$out/run.tsp" | sort | uniq -d | wc -l)" -gt 0 ] || fail 'no datagram comes twice'
[ "$(datagrams | count '$5 != "-" && ($2 == 2 || $3 == 2) && ($4 >= 50000000 && $4 < 420500000)')" -eq 0 ] || fail 'a node hears or is heard while it is cut off'
[ "$(datagrams | count '$5 != "-" && ($2 == 2 || $3 == 2) && $4 >= 420500000')" -gt 0 ] || fail 'a node stays cut off'
tools/tsp-lint "$out/run.tsp" || fail 'tsp-lint refuses a schedule of tsp-sim'

# A gateway between two others hears both, on a port each; these don't hear each other.
simulate --seed 3 --nodes 3 --net 0,1 --net 1,2 --until 1200
[ "$(grep -c '^net ' "$out/run.tsp")" -eq 2 ] || fail 'there are not two networks'
for port in 0 1; do
    [ "$(awk -v port="$port" '$2 == 1 && $3 == port && $5 == "took" && $6 != "-"' "$out/run.trace" | wc -l)" -gt 0 ] || fail "port $port of the gateway hears nobody"
done
[ "$(datagrams | count '($2 == 0 && $3 == 2) || ($2 == 2 && $3 == 0)')" -eq 0 ] || fail 'two nodes without a network between them send to each other'
tools/tsp-lint "$out/run.tsp" || fail 'tsp-lint refuses a schedule with networks'

# Prints how many seconds after another node leads than node 0, which is gone, all of five follow it, and how many boots there were.
succession() {
    awk '
        FNR == 1 { file++ }
        file == 1 && $1 == "at" { at[++events] = $2 / 1000000; boots += $3 == "boot"; next }
        file == 2 && $5 == "become" && $2 != 0 && at[$1] > 800 {
            role[$2] = $6 == "follow" ? $7 : $6
            if ($6 == "master" && leader == "") { leader = $2; led = at[$1] }
            count = 0
            for (node in role) count += leader != "" && role[node] == leader
            if (count == 3 && !joined) joined = at[$1] - led
        }
        END { print int(joined), boots + 0 }
    ' "$out/run.tsp" "$out/run.trace"
}

# With supervisors, all others follow the next master soon after it leads, each of them started again once. Without, some wait for their own elections.
simulate --follow --seed 2 --nodes 5 --cut 0@800-5000 --until 3000
succession >"$out/joined"
read -r joined boots <"$out/joined"
[ "$joined" -gt 80 ] && [ "$joined" -lt 120 ] && [ "$boots" -eq 8 ] || fail "with supervisors all follow after $joined s, by $boots boots"
tools/tsp-lint "$out/run.tsp" || fail 'tsp-lint refuses a schedule with supervisors'
simulate --seed 2 --nodes 5 --cut 0@800-5000 --until 3000
succession >"$out/joined"
read -r joined boots <"$out/joined"
[ "$joined" -gt 300 ] && [ "$boots" -eq 5 ] || fail "without supervisors all follow after $joined s, by $boots boots"
# Whoever hears no answer of its master doesn't start again while nobody else leads.
simulate --follow --seed 2 --nodes 5 --loss 0.3 --until 1500
[ "$(grep -c ' boot ' "$out/run.tsp")" -eq 5 ] || fail 'a node starts again though nobody else leads'

# Faulty words are refused.
for words in '--nodes 0' '--loss 2' '--reboot 3@5' '--cut 0@9-8' '--latency 9 8' '--net 0,1' '--net 0,1,2,3' '--follow --net 0,1,2'; do
    # shellcheck disable=SC2086  # words
    ! tools/tsp-sim $words >/dev/null 2>&1 || fail "$words is accepted"
done

# Where nobody reads on, or the program ends too early, no more is said than that.
{ tools/tsp-sim 2>"$out/told" || :; } | head -n 1 >/dev/null
[ ! -s "$out/told" ] || fail "$(cat "$out/told")"
printf '#!/bin/sh\nhead -n 3 >/dev/null\nexit 8\n' >"$out/ends"
chmod +x "$out/ends"
! tools/tsp-sim --program "$out/ends" >/dev/null 2>"$out/told" || fail 'a program that ends too early is not told of'
[ "$(cat "$out/told")" = 'tsp-sim: the program ended with status 8' ] || fail "$(cat "$out/told")"
echo "$check: losses, repeats, a cut and a boot replay with status 0"
