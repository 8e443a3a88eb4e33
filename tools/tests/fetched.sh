#!/bin/sh
# tsp-watch and tsp-witness find this machine's trace where TSP_TRACE says: in files, some of them compressed, or in the journal; and tsp-witness fetches others by
# ssh. Stored traces are judged as if they were named.
. "$(dirname "$0")/common.sh"
unset TSP_HOSTS TSP_SELF TSP_TRACE TSP_OUTPUT
serving_program
case $program in /*) ;; *) program=$PWD/$program ;; esac
given=tools/tests/witness

# Each host has a folder, in which its trace is in two files, with times between its lines.
for host in a b c; do
    mkdir -p "$out/$host"
    for file in "$given/three/$host"-*.trace; do
        echo '... it is 2026-11-27T08:00:00Z'
        cat "$file"
    done >"$out/$host/whole"
    count=$(($(wc -l <"$out/$host/whole") / 2))
    head -n "$count" "$out/$host/whole" | gzip >"$out/$host/trace.000007.gz"
    tail -n "+$((count + 1))" "$out/$host/whole" >"$out/$host/trace"
    TSP_TRACE=$out/$host/trace tools/tsp-watch --lines | cmp -s - "$out/$host/whole" || fail "the lines of $host are others"
done
# (logrotate numbers files the other way round)
mkdir "$out/daily"
split -n l/3 -d -a 1 "$out/a/whole" "$out/daily/part"
gzip -c "$out/daily/part0" >"$out/daily/trace.2.gz"
mv "$out/daily/part1" "$out/daily/trace.1"
mv "$out/daily/part2" "$out/daily/trace"
TSP_OUTPUT=$out/daily/trace tools/tsp-watch --lines | cmp -s - "$out/a/whole" || fail 'files of logrotate stand in another order'

# The journal, from the last start on; it is told since when.
mkdir "$out/path"
cat >"$out/path/journalctl" <<END
#!/bin/sh
echo "\$*" >>"$out/asked"
case "\$*" in *short-unix*) echo '1795766000.123 a tsp[5]: tsp-launch: in the trace peer 0 is a' ;; *) cat "$out/a/whole" ;; esac
END
# A way to other hosts, which runs a command there.
cat >"$out/path/ssh" <<END
#!/bin/sh
[ "\$1 \$2" = '-o BatchMode=yes' ] && shift 2
[ "\$1" != far ] || { echo 'ssh: connect to host far port 22: No route to host' >&2; exit 255; }
host=\$1
shift
TSP_TRACE=$out/\$host/trace PATH=$PWD/tools:\$PATH sh -c "\$*"
END
chmod +x "$out/path/journalctl" "$out/path/ssh"
PATH=$out/path:$PATH
TZ=UTC
export TZ
TSP_TRACE=journal tools/tsp-watch --lines --since 2026-11-27T08:30 | cmp -s - "$out/a/whole" || fail "the journal's lines are others"
[ "$(wc -l <"$out/asked")" -eq 2 ] && tail -n 1 "$out/asked" | grep -q -e '-u tsp -o cat --no-pager --since @1795766000$' || fail "the journal is asked $(cat "$out/asked")"
grep -q -e '--until @1795768200$' "$out/asked" || fail "the journal is asked $(cat "$out/asked")"

# Wants this status of a tool with these words, and puts what it says into `said` and `told`.
ends() {
    wanted=$1
    shift
    status=0
    "$@" >"$out/said" 2>"$out/told" || status=$?
    [ "$status" -eq "$wanted" ] || fail "'$*' ends with status $status: $(cat "$out/said" "$out/told")"
}

# The verdict is that of the traces, whoever is named, and however they are reached.
ends 0 tools/tsp-witness -p "$program" -f "$given/three.hosts" --check a="$out/a/whole" b="$out/b/whole" c="$out/c/whole"
cp "$out/said" "$out/verdict"
grep -q ' acts alike, holds' "$out/verdict" || fail "the traces are judged '$(cat "$out/verdict")'"
export TSP_SELF=b TSP_TRACE="$out/b/trace"
for words in '' 'a b c' "--since 2026-11-27 a=$out/a/whole b c"; do
    # shellcheck disable=SC2086  # words
    ends 0 tools/tsp-witness -p "$program" -f "$given/three.hosts" --check $words
    cmp -s "$out/said" "$out/verdict" || fail "with the words '$words' the verdict is $(cat "$out/said")"
done
ends 0 tools/tsp-witness -p "$program" -f "$given/three.hosts" --check --ssh "$out/path/ssh"
cmp -s "$out/said" "$out/verdict" || fail "by --ssh the verdict is $(cat "$out/said")"

# What can't be had is named.
sed 's/^c /far /' "$given/three.hosts" >"$out/hosts"
ends 3 tools/tsp-witness -p "$program" -f "$out/hosts" --check
[ "$(cat "$out/told")" = "tsp-witness: far: its trace can't be fetched: ssh: connect to host far port 22: No route to host" ] || fail "of a host that is away it says $(cat "$out/told")"
TSP_TRACE=off ends 3 tools/tsp-watch --lines
[ "$(cat "$out/told")" = 'tsp-watch: this machine keeps no trace: TSP_TRACE is off' ] || fail "without a trace it says $(cat "$out/told")"
TSP_TRACE=$out/none/trace ends 3 tools/tsp-watch --lines
[ "$(cat "$out/told")" = "tsp-watch: $out/none/trace: No such file or directory" ] || fail "without a folder it says $(cat "$out/told")"
TSP_TRACE=$out/daily/other ends 3 tools/tsp-watch --lines
[ "$(cat "$out/told")" = "tsp-watch: $out/daily/other: there is no trace" ] || fail "without a file it says $(cat "$out/told")"
for words in '--since today' '--lines --own x' '--lines --since noon' '--lines x' '--lines --json'; do
    # shellcheck disable=SC2086  # words
    ends 2 tools/tsp-watch $words
done
ends 2 tools/tsp-witness --since noon

# A trace is followed from its file into the next one.
cp "$out/b/trace" "$out/b/followed"
TSP_TRACE=$out/b/followed tools/tsp-watch --own >"$out/lines" 2>"$out/told" &
note_process
for _ in $(seq 100); do
    [ ! -s "$out/lines" ] || break
    sleep 0.2
done
mv "$out/b/followed" "$out/b/followed.000001"
echo '900000 0 0 9000000000000 trace off' >>"$out/b/followed.000001"
echo '900001 0 0 9000000000001 trace on' >"$out/b/followed"
for _ in $(seq 100); do
    [ "$(grep -c 'the trace is' "$out/lines")" -lt 2 ] || break
    sleep 0.2
done
[ "$(tail -n 2 "$out/lines" | paste -sd '|')" = '9000000.000 the trace is off|9000000.000 the trace is on' ] || fail "a file that is put aside isn't followed: $(tail -n 3 "$out/lines")"
echo "$check: files, compressed ones, a journal, hosts by ssh, and what can't be had"
