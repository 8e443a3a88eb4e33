#!/bin/sh
# The statuses of the program and the line on standard error that goes with each but 0, for what no proof sees: the words that the
# system hands over, its streams and its sockets.
. "$(dirname "$0")/common.sh"
serving_program

# A command ends with this status, writes this, and says so in one line on standard error, or in none with status 0.
ends() {
    wanted=$1 text=$2
    shift 2
    status=0
    "$program" "$@" <"$input" >"$out/text" 2>"$out/line" || status=$?
    [ "$status" -eq "$wanted" ] || fail "'$*' ends with status $status, not $wanted"
    [ "$(cat "$out/text")" = "$text" ] || fail "'$*' writes something else"
    if [ "$wanted" -eq 0 ]; then
        [ ! -s "$out/line" ] || fail "'$*' ends well and says something"
    else
        [ "$(wc -l <"$out/line")" -eq 1 ] && grep -q "status $wanted\$" "$out/line" || fail "'$*' doesn't say that it ends with status $wanted"
    fi
}

input=/dev/null
printf 'tsp-schedule 1\ndrift 0\nnode a 0 0 m\nend\n' >"$out/schedule"
# Words that are no command: none, an empty one, one that isn't UTF-8, and one that is no word of the grammar behind one that is.
ends 1 usage
ends 1 usage ''
ends 1 usage "$(printf '\377')"
ends 1 usage replay ''
ends 1 usage "$(printf 'replay\303')"
input=$out/schedule
ends 0 '' replay
input=/dev/null
ends 2 'bad 1 header' replay
# A folder can't be read, and a full device not be written.
input=/
ends 3 '' replay
status=0
"$program" show </dev/null >/dev/full 2>"$out/line" || status=$?
[ "$status" -eq 0 ] || fail 'nothing to write on a full device ends otherwise than well'
status=0
printf '0101000700000000000004d2616c70686100\n' | "$program" show >/dev/full 2>"$out/line" || status=$?
[ "$status" -eq 4 ] && grep -q 'status 4$' "$out/line" || fail "a full device ends with status $status"
input=/dev/null
ends 5 '' serve 192.0.2.1:525 a s 1
# shellcheck disable=SC2046  # two ports
set -- $(free_ports 2)
ends 6 'no answer' msite "127.0.0.1:$1"
head -c 67108865 /dev/zero | tr '\0' x >"$out/long"
input=$out/long
ends 7 'limit 1' replay
input=/dev/null

# A standard stream that is closed at the start ends each command with one line, and no socket gets its number. (help needs its output alone)
closed() {
    wanted=$1 name=$2
    shift 2
    status=0
    sh -c "$1" sh "$program" "127.0.0.1:$port" >"$out/text" 2>"$out/line" || status=$?
    [ "$status" -eq "$wanted" ] && [ ! -s "$out/text" ] || fail "'$1' ends with status $status and '$(cat "$out/text")'"
    [ -z "$name" ] || [ "$(cat "$out/line")" = "[WARN  tsp_cli] $name is closed, so it ended with status $wanted" ] || fail "'$1' says '$(cat "$out/line")'"
}
port=$1
# shellcheck disable=SC2016  # for the shell that is started
for command in 'show' 'replay' 'msite "$2"' 'serve "$2" a m 3' ''; do
    closed 3 'standard input' "exec \"\$1\" $command <&-"
    closed 4 'standard output' "exec \"\$1\" $command </dev/null >&-"
    closed 4 '' "exec \"\$1\" $command </dev/null 2>&-"
    closed 3 'standard input' "exec \"\$1\" $command <&- >&-"
    closed 3 '' "exec \"\$1\" $command <&- >&- 2>&-"
done
"$program" --help <&- 2>&- | grep -q TSP_RATE || fail 'the help is not there without standard input'

# A daemon at 127.0.0.2 answers there, and nobody answers at 127.0.0.1: it binds its own address, and a question asks the one it is given.
"$program" serve "127.0.0.2:$2" alpha s 40 >/dev/null 2>&1 &
note_process
tries=0
until "$program" msite "127.0.0.2:$2" >"$out/text" 2>/dev/null; do
    tries=$((tries + 1))
    [ "$tries" -lt 20 ] || fail 'a daemon at 127.0.0.2 is not heard'
    sleep 0.2
done
[ "$(cat "$out/text")" = 'no master' ] || fail 'a daemon at 127.0.0.2 says something else of its master'
ends 6 'no answer' msite "127.0.0.1:$2"
end_all
echo "$check: statuses 0 to 7, words of all kinds, a daemon at an address of its own"
