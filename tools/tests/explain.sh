#!/bin/sh
# ./tsp explains the statuses 1 and 5 in one line behind the program's own, and changes nothing else.
. "$(dirname "$0")/common.sh"
serving_program
unset TSP_PROGRAM TSP_HOSTS TSP_SELF TSP_TURNS TSP_WAIT TSP_TRACE TSP_SPREAD

# Puts a program in the place of the proved one, in a small repository with the same scripts: $out/stand/tsp runs it.
stand_in() {
    mkdir -p "$out/stand/crates/tsp_cli/src" "$out/stand/crates/tsp_cli/out"
    cp tsp "$out/stand/tsp"
    [ -e "$out/stand/tools" ] || ln -s "$PWD/tools" "$out/stand/tools"
    echo 'tsp_cli:' >"$out/stand/crates.txt"
    cp "$1" "$out/stand/crates/tsp_cli/out/tsp_cli"
    mkdir -p "$out/stand/out"
    echo 'crates.txt crates/tsp_cli/out/tsp_cli' >"$out/stand/out/tsp_cli.folders"
    (cd "$out/stand" && find crates.txt crates/tsp_cli/out/tsp_cli -printf '%p %s %C@\n') >"$out/stand/out/tsp_cli.listing"
}

# Wants this status, and this behind the program's line on standard error, or an empty standard error with status 0.
ends() {
    wanted=$1 line=$2
    shift 2
    status=0
    "$@" </dev/null >"$out/said" 2>"$out/told" || status=$?
    [ "$status" -eq "$wanted" ] || fail "'$*' ends with status $status: $(cat "$out/told")"
    if [ "$wanted" -eq 0 ]; then
        [ ! -s "$out/told" ] || fail "'$*': it says '$(cat "$out/told")'"
    else
        sed -n 1p "$out/told" | grep -q "ended with status $wanted\$" || fail "'$*': the program's own line is '$(sed -n 1p "$out/told")'"
        [ "$(sed 1d "$out/told")" = "$line" ] || fail "'$*': it says '$(sed 1d "$out/told")', not '$line'"
    fi
}

# Words that are no command: the first that has no place, or what is missing.
count=0
while IFS= read -r row; do
    case $row in '#'*) continue ;; esac
    eval "set -- ${row%% | *}"
    ends 1 "tsp: ${row#* | }" ./tsp "$@"
    [ "$(cat "$out/said")" = usage ] || fail "'$*' writes '$(cat "$out/said")'"
    count=$((count + 1))
done <tools/tests/explain.cases
[ "$count" -ge 30 ] || fail "only $count rows were tried"
ends 1 "tsp: the first argument that the grammar has no place for is 'a\\nb\\udcff' (argument 2): nothing belongs there" ./tsp replay "$(printf 'a\nb\377')"
# (999 peers are as many as there may be)
# shellcheck disable=SC2046  # words
set -- serve 192.0.2.1:525 a m 1 $(awk 'BEGIN { for (i = 1; i <= 999; i++) printf "10.0.%d.%d:525 ", i / 250, i % 250 + 1 }')
ends 5 "tsp: 192.0.2.1:525 can't be bound: Cannot assign requested address" ./tsp "$@"
ends 1 "tsp: the first argument that the grammar has no place for is '10.1.0.1:525' (argument 1005): a daemon has 999 peers at most" ./tsp "$@" 10.1.0.1:525

# It finds a word without a place where the program writes usage, and nowhere else.
python3 -B tools/tests/explain_random.py "$program" >"$out/random" || fail 'the words that have no place are others than those for which the program writes usage'

# Words that have their place.
ends 0 '' ./tsp show
ends 0 '' ./tsp storm 1 3 100
[ "$(wc -l <"$out/said")" -eq 1 ] || fail "a storm writes '$(cat "$out/said")'"

# An address that isn't this machine's, one that is taken, and one to which nothing can be sent.
ends 5 "tsp: 192.0.2.1:525 can't be bound: Cannot assign requested address" ./tsp serve 192.0.2.1:525 a s 1
port=$(free_ports 1)
"$program" serve "127.0.0.1:$port" alpha s 40 >/dev/null 2>&1 &
note_process
until "$program" msite "127.0.0.1:$port" >/dev/null 2>&1; do sleep 0.2; done
ends 5 "tsp: 127.0.0.1:$port can't be bound: Address already in use" ./tsp serve "127.0.0.1:$port" a s 1
ends 0 '' ./tsp msite "127.0.0.1:$port"
[ "$(cat "$out/said")" = 'no master' ] || fail "a question gets '$(cat "$out/said")'"
end_all
reason=$(python3 -c 'import socket
try: socket.socket(socket.AF_INET, socket.SOCK_DGRAM).sendto(b"", ("255.255.255.255", 9))
except OSError as fault: print(fault.strerror)')
ends 5 "tsp: nothing could be sent to 255.255.255.255:9: $reason" ./tsp msite 255.255.255.255:9

# A socket that fails later: the address can be bound. A program stands in for one whose receive failed.
printf '#!/bin/sh\n[ "$1" = serve ] || exit 0\necho "[WARN ] ended with status 5" >&2\nexit 5\n' >"$out/failing"
printf '#!/bin/sh\necho "$$" >"%s"\nexec sleep 60\n' "$out/child" >"$out/lasting"
chmod +x "$out/failing" "$out/lasting"
stand_in "$out/failing"
ends 5 "tsp: the socket failed while receiving on 127.0.0.1:$port, which can be bound" "$out/stand/tsp" serve "127.0.0.1:$port" a s 1

# A signal ends the program too, and no program outlives what started it. (SIGHUP stays ignored where it is, as under nohup)
hangup=1
python3 -c 'import signal, sys; sys.exit(signal.getsignal(signal.SIGHUP) == signal.SIG_IGN)' || hangup=''
stand_in "$out/lasting"
for signal in 15 $hangup 9; do
    rm -f "$out/child"
    "$out/stand/tsp" serve "127.0.0.1:$port" a s 1 2>"$out/told" &
    note_process
    process=$!
    until [ -s "$out/child" ]; do sleep 0.1; done
    kill "-$signal" "$process"
    status=0
    wait "$process" 2>/dev/null || status=$?
    [ "$status" -eq $((128 + signal)) ] || fail "by signal $signal it ends with status $status"
    tries=0
    while kill -0 "$(cat "$out/child")" 2>/dev/null; do
        tries=$((tries + 1))
        [ "$tries" -lt 50 ] || fail "by signal $signal the program isn't ended"
        sleep 0.1
    done
    [ ! -s "$out/told" ] || fail "by signal $signal it says '$(cat "$out/told")'"
done

# tsp-launch in a clone: the cause is said once, by whoever stays with the daemon.
printf 'a 192.0.2.1 slave\n' >"$out/hosts"
ends 5 "tsp: 192.0.2.1:525 can't be bound: Cannot assign requested address" tools/tsp-launch -f "$out/hosts" -s a --spread 0
ends 5 "tsp-launch: 192.0.2.1:525 can't be bound: Cannot assign requested address" tools/tsp-launch -f "$out/hosts" -s a --spread 0 --supervise

# Without python3 the program runs all the same.
mkdir "$out/without"
for each in cat cmp find readlink sed sh; do
    ln -s "$(command -v "$each")" "$out/without/$each"
done
ends 1 '' env PATH="$out/without" ./tsp nosuch
echo "$check: $count words without a place, $(cat "$out/random"), and what a socket fails for"
