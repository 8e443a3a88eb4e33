#!/bin/sh
# tsp-launch reads hosts files: from a good one it gives each host its words, and of a faulty one it names the line.
. "$(dirname "$0")/common.sh"
unset TSP_HOSTS TSP_SELF TSP_TURNS TSP_WAIT TSP_TRACE TSP_PROGRAM
export TSP_SPREAD=0
hosts=tools/tests/launch.hosts

# A name service: one address as getent gives it, two, one that no other host can reach, none, and one that comes late.
cat >"$out/bin/getent" <<'END'
#!/bin/sh
answer() { printf '%s\n' "$1     STREAM $2" "$1     DGRAM  " "$1     RAW    "; }
case $1:$2 in
ahostsv4:one.example) answer 192.0.2.50 "$2" ;;
ahostsv4:two.example) answer 192.0.2.51 "$2"; answer 192.0.2.52 "$2" ;;
ahostsv4:self.example) answer 127.0.1.1 "$2" ;;
ahostsv4:late.example) echo asked >>"$ASKED"; [ "$(wc -l <"$ASKED")" -lt 3 ] || answer 192.0.2.53 "$2" ;;
*) exit 2 ;;
esac
END
chmod +x "$out/bin/getent"
export ASKED="$out/asked"

# Wants this status of tsp-launch with these words, and the variables that `given` names.
given=''
ends() {
    wanted=$1
    shift
    status=0
    # shellcheck disable=SC2086  # words
    env $given tools/tsp-launch "$@" >"$out/said" 2>"$out/told" </dev/null || status=$?
    [ "$status" -eq "$wanted" ] || fail "'$*' ends with status $status: $(cat "$out/told")"
}

# Wants these words for this host.
gives() {
    ends 0 --print --file "$hosts" --self "$1"
    [ "$(cat "$out/said")" = "$2" ] || fail "$1 is given '$(cat "$out/said")'"
    [ ! -s "$out/told" ] || fail "$1: $(cat "$out/told")"
}

# Wants status 78, or that of `faulty`, and this alone on standard error.
faulty=78
refuses() {
    text=$1
    shift
    ends "$faulty" "$@"
    [ ! -s "$out/said" ] || fail "'$*' prints '$(cat "$out/said")'"
    [ "$(cat "$out/told")" = "tsp-launch: $text" ] || fail "'$*': it says '$(cat "$out/told")'"
}

# Wants status 2 and this alone on standard error.
refuses_words() {
    faulty=2
    refuses "$@"
    faulty=78
}

# Each host has its own line first, and the others of its network as peers.
gives alpha 'serve 192.0.2.11:525 alpha m 1000000000 192.0.2.12:526 192.0.2.1:525'
gives beta 'serve 192.0.2.12:526 beta s 1000000000 192.0.2.11:525 192.0.2.1:525'
gives gamma 'serve 198.51.100.7:525 gamma s 1000000000 192.0.2.1:525'
gives beta.example.org 'serve 192.0.2.12:526 beta s 1000000000 192.0.2.11:525 192.0.2.1:525'
given="TSP_HOSTS=$hosts TSP_SELF=gamma TSP_TURNS=7"
ends 0 -n
given=''
[ "$(cat "$out/said")" = 'serve 198.51.100.7:525 gamma s 7 192.0.2.1:525' ] || fail "the variables give '$(cat "$out/said")'"
ends 0 --list -f "$hosts"
printf '%s\n' '1 alpha 192.0.2.11:525 master' '1 beta 192.0.2.12:526 slave' '1 gate 192.0.2.1:525 master' '2 gamma 198.51.100.7:525 slave' '2 gate 192.0.2.1:525 master' |
    cmp -s - "$out/said" || fail "the hosts are listed as '$(cat "$out/said")'"

# What can't be said stops nothing, and changes no status.
printf '%s\n' 'a 192.0.2.1 master' 'b 192.0.2.2 strict' >"$out/mixed"
for into in '2>/dev/full' '2>&-'; do
    eval "tools/tsp-launch -n -f '$out/mixed' -s a $into" >"$out/said" || fail "$into: status $?"
    [ "$(cat "$out/said")" = 'serve 192.0.2.1:525 a m 1000000000 192.0.2.2:525' ] || fail "$into: the words are '$(cat "$out/said")'"
    for case in "78 -f '$out/none'" "2 --turns 0 -f '$out/mixed'"; do
        status=0
        eval "tools/tsp-launch -n -s a ${case#* } $into" || status=$?
        [ "$status" -eq "${case%% *}" ] || fail "'${case#* } $into' ends with status $status"
    done
done

# Files that can't work: `-n` says why beside its words, and --lint ends with 78.
lints() {
    wanted=$1
    shift
    printf '%s\n' "$@" | sed "s|^|tsp-launch: $out/linted:|" >"$out/faults"
    [ $# -gt 0 ] || : >"$out/faults"
    ends "$wanted" --lint -f "$out/linted"
    grep -qx '[0-9a-f]\{16\}' "$out/said" && cmp -s "$out/told" "$out/faults" || fail "of a file that can't work it says '$(cat "$out/said" "$out/told")'"
    name=$(sed -n '/^[a-z]/{s/ .*//p;q;}' "$out/linted")
    ends 0 -n -f "$out/linted"
    cmp -s "$out/told" "$out/faults" && [ "$(cut -d ' ' -f 3 "$out/said")" = "$name" ] || fail "of a file that can't work -n says '$(cat "$out/said" "$out/told")'"
}
given=TSP_SELF=a.example.org
printf '%s\n' 'a 127.0.0.1:5251 master' 'b 127.0.0.1:5252 slave' >"$out/linted"
lints 0
printf '%s\n' 'a 127.0.0.1:5251 slave' 'b 127.0.0.1:5252 slave' >"$out/linted"
lints 78 '1: no host of the network may lead: each is `slave`'
printf '%s\n' 'a 192.0.2.11 master' 'b 192.0.2.12 slave' >"$out/linted"
lints 78 "1: a is this machine's name, and 192.0.2.11 isn't its address: Cannot assign requested address"
ends 0 --lint -f "$out/linted" -s a
printf '%s\n' 'a 127.0.0.1:5251 master' 'g 127.0.0.1:5252 slave' + 'g 127.0.0.1:5252 slave' 'c 127.0.0.1:5253 master' '# behind it' 'd 127.0.0.1:5254 master' >"$out/linted"
lints 78 '5: c may lead network 2 too, which g is to lead by the clock of an earlier one: `slave` belongs here' \
    '7: d may lead network 2 too, which g is to lead by the clock of an earlier one: `slave` belongs here'
printf '%s\n' 'a 127.0.0.1:5251 master' 'g 127.0.0.1:5252 slave' + 'g 127.0.0.1:5252 slave' 'c 127.0.0.1:5253 slave' >"$out/linted"
lints 78 '4: no host of network 2 may lead: each is `slave`'
printf '%s\n' 'a 127.0.0.1:5251 master' 'g 127.0.0.2:5251 master' 'h 127.0.0.3:5252 master' + 'g 127.0.0.4:5251 master' 'h 127.0.0.5:5252 master' 'c 127.0.0.6:5251 slave' >"$out/linted"
lints 78 '1: a is on the machine of g, which listens at all of its addresses with port 5251: another port belongs here, or one address for the gateway' \
    '7: c is on the machine of g, which listens at all of its addresses with port 5251: another port belongs here, or one address for the gateway'
printf '%s\n' 'a 127.0.0.1:5251 master' 'b 127.0.0.1:5251 slave' >"$out/linted"
refuses "$out/linted:2: 127.0.0.1:5251 stands in this network already" --lint -f "$out/linted"
printf '%s\n' 'a 127.0.0.1:5251 master' + 'c 127.0.0.1:5251 master' >"$out/linted"
refuses "$out/linted:3: 127.0.0.1:5251 is another host in an earlier network" --lint -f "$out/linted"
given=TSP_SELF=elsewhere
printf '%s\n' 'a 192.0.2.11 master' >"$out/linted"
ends 0 --lint -f "$out/linted"
given=''
# (it may be called on a machine that isn't in the file; a host that is named has to be there)
for name in nosuch nosuch.example.org; do
    ends 78 --lint -f "$out/linted" -s "$name"
    [ "$(cat "$out/told")" = "tsp-launch: $out/linted: no line for this host, $name" ] || fail "of a host that isn't in the file --lint says '$(cat "$out/told")'"
done
! tools/tsp-launch --lint -f daemon/hosts -s alpha 2>&1 >"$out/digest" | grep . || fail 'the example of a hosts file has a fault'
# The digest: what counts changes it, and what doesn't doesn't. It is the beginning of a sum that anybody can make of what is listed.
[ "$(cat "$out/digest")" = "$(tools/tsp-launch -l -f daemon/hosts | sha256sum | cut -c 1-16)" ] || fail "the digest is $(cat "$out/digest")"
{ echo '# another one'; sed 's/#.*//; s/  */ /g; s/$/  # and more/' daemon/hosts; } >"$out/alike"
[ "$(tools/tsp-launch --lint -f "$out/alike" -s alpha)" = "$(cat "$out/digest")" ] || fail 'comments and spaces change the digest'
for change in 's/gamma/delta/' 's/192.0.2.12/192.0.2.14/' 's/5525/5526/' '/gamma/s/slave/master/' '/beta/{h;d};/gamma/G' '/beta/i +'; do
    sed "$change" daemon/hosts >"$out/other"
    digest=$(tools/tsp-launch --lint -f "$out/other" -s alpha 2>"$out/told") || fail "'$change' makes a file that can't work: $(cat "$out/told")"
    [ "$digest" != "$(cat "$out/digest")" ] || fail "'$change' doesn't change the digest"
done

# Words and variables that are wrong are named as they are written.
refuses_words "--firewall '-f': nft or systemd" --firewall -f daemon/hosts
given=TSP_DRIFT=5000
refuses_words "TSP_DRIFT '5000': parts in a million, from 0 to 1000" -n -f daemon/hosts -s alpha
given=''

# A host in two networks is a gateway. Its words have a + between its networks.
gives gate 'serve 192.0.2.1:525 gate m 1000000000 192.0.2.11:525 192.0.2.12:526 + 198.51.100.7:525'
for case in '9: beta stands in two networks of gate: each of them needs an address of its own in each network|beta 192.0.2.12:526 slave' \
    '14: gate stands in more than four networks|+\ngate 192.0.2.1 master\n+\ngate 192.0.2.1 master\n+\ngate 192.0.2.1 master'; do
    { cat "$hosts"; printf '%b\n' "${case#*|}"; } >"$out/hosts"
    status=0
    sh tools/tsp-launch -n -f "$out/hosts" -s gate >"$out/said" 2>"$out/told" || status=$?
    [ "$status" -eq 78 ] && [ "$(cat "$out/told")" = "tsp-launch: $out/hosts:${case%%|*}" ] || fail "a gateway gives '$(cat "$out/said" "$out/told")'"
done
printf 'gate 192.0.2.1 master\n+\nalpha 192.0.2.11 slave\n+\nbeta 192.0.2.12 slave\ngate 192.0.2.1 master\n+\ngate 192.0.2.1 master\n' >"$out/hosts"
sh tools/tsp-launch -n -f "$out/hosts" -s gate >"$out/said" || fail 'a gateway without peers in a network is refused'
[ "$(cat "$out/said")" = 'serve 192.0.2.1:525 gate m 1000000000 + 192.0.2.12:525 +' ] || fail "a gateway is given '$(cat "$out/said")'"

# Two gateways between the same two networks have an address of their own in each, and listen at all of them. A third one is refused.
two=tools/tests/witness/loops.hosts
hosts=$two
gives a 'serve 192.0.2.1:525 a s 1000000000 192.0.2.2:525 192.0.2.3:525'
gives b 'serve 0.0.0.0:525 b m 1000000000 192.0.2.1:525 192.0.2.3:525 + 198.51.100.2:525 198.51.100.3:525'
gives c 'serve 0.0.0.0:525 c m 1000000000 192.0.2.1:525 192.0.2.2:525 + 198.51.100.1:525 198.51.100.3:525'
gives d 'serve 198.51.100.3:525 d s 1000000000 198.51.100.1:525 198.51.100.2:525'
hosts=tools/tests/launch.hosts
{ sed '3a e 192.0.2.5 slave' $two; echo 'e 198.51.100.5 slave'; } >"$out/hosts"
refuses "$out/hosts:9: e is a third host in network 1 and network 2, which two at most may join" -n -f "$out/hosts" -s a
printf '+\n%s\n' 'b 203.0.113.1 master' | cat $two - >"$out/hosts"
ends 0 -n -f "$out/hosts" -s b
[ "$(cut -d ' ' -f 2 "$out/said")" = 0.0.0.0:525 ] || fail "a gateway with three addresses is given '$(cat "$out/said")'"
for address in 192.0.2.2 198.51.100.1; do
    printf '+\n%s\n' "b $address master" | cat $two - >"$out/hosts"
    refuses "$out/hosts:9: b has neither one address for all of its networks nor one for each" -l -f "$out/hosts"
done

# The host's own name, if it is alone; a last line without its line feed; a name, and one of a host name's own dots; all on one machine.
printf '%s 192.0.2.1 strict' "$(uname -n)" >"$out/hosts"
ends 0 -n -f "$out/hosts"
[ "$(cat "$out/said")" = "serve 192.0.2.1:525 $(uname -n) x 1000000000" ] || fail "this host is given '$(cat "$out/said")'"
printf 'a.b one.example:9 strict\na 127.0.0.1 slave\n' | sed 2d >"$out/hosts"
ends 0 -n -f "$out/hosts" -s a.b
[ "$(cat "$out/said")" = 'serve 192.0.2.50:9 a.b x 1000000000' ] || fail "a name gives '$(cat "$out/said")'"
printf 'a 127.0.0.1:1 master\nb 127.0.0.1:2 slave\n' >"$out/hosts"
ends 0 -n -f "$out/hosts" -s b
[ "$(cat "$out/said")" = 'serve 127.0.0.1:2 b s 1000000000 127.0.0.1:1' ] || fail "one machine gives '$(cat "$out/said")'"

# A host that needs no majority beside one that does is told of once, and let be.
printf '%s\n' 'a 10.0.0.1 strict' 'b 10.0.0.2 slave' 'c 10.0.0.3 master' 'd 10.0.0.4 strict' >"$out/hosts"
ends 0 -n -f "$out/hosts" -s a
[ "$(cat "$out/told")" = "tsp-launch: $out/hosts:3: master and strict in one network: elections are strict only where no host is master" ] || fail "$(cat "$out/told")"

# Each faulty line.
count=0
while IFS= read -r case; do
    case $case in '#'*) continue ;; esac
    sed "${case%% | *}" "$hosts" >"$out/hosts"
    refuses "$out/hosts:${case#* | }" -n -f "$out/hosts" -s alpha
    count=$((count + 1))
done <tools/tests/launch.cases
[ "$count" -ge 40 ] || fail "only $count cases were tried"

# Files and words.
refuses "$out/none: there is no such file" -n -f "$out/none" -s alpha
refuses "$out: it can't be read" -n -f "$out" -s alpha
refuses "$hosts: no line for this host, delta" -n -f "$hosts" -s delta
# (a name that nobody gave is the system's, or where nothing is started that of the unit's variables; those of the caller count first)
mkdir "$out/copy"
cp -r tools "$out/copy/tools"
sed -i "s|variables=/etc/default/tsp\$|variables=$out/variables|" "$out/copy/tools/tsp-launch"
# Wants this line of it on standard output or standard error where the unit's variables are these lines.
by_unit() {
    printf '%b\n' "$1" >"$out/variables"
    line=$2
    shift 2
    env "$@" "$out/copy/tools/tsp-launch" --firewall nft -f "$hosts" 2>&1 | grep -qxF "$line" || fail "with the unit's variables '$*' it says another thing than '$line'"
}
alpha='        ip daddr 192.0.2.11 udp dport 525 jump datagrams' beta='        ip daddr 192.0.2.12 udp dport 526 jump datagrams'
by_unit '# TSP_SELF=beta\nTSP_SELF=beta\n TSP_SELF = "alpha" \n#TSP_SELF=beta' "$alpha" TSP_SELF=
by_unit 'TSP_SELF=alpha' "$beta" TSP_SELF=beta
by_unit 'TSP_SELF=delta' "tsp-launch: $hosts: no line for this host, delta, as $out/variables has it" TSP_SELF=
by_unit '#TSP_SELF=alpha' "tsp-launch: $hosts: no line for this host, $(uname -n); give its name there by --self or TSP_SELF" TSP_SELF=
status=0
TSP_SELF='' "$out/copy/tools/tsp-launch" -f "$hosts" >"$out/said" 2>"$out/told" || status=$?
[ "$status" -eq 78 ] && grep -q ' TSP_SELF$' "$out/told" || fail "a start takes its name from the unit's variables: $(cat "$out/told")"
printf '# nobody\n\n' >"$out/hosts"
refuses "$out/hosts: no host stands in it" -n -f "$out/hosts" -s alpha
awk 'BEGIN { for (i = 1; i <= 1001; i++) printf "n%d 10.0.%d.%d master\n", i, i / 250, i % 250 + 1 }' >"$out/hosts"
refuses "$out/hosts: n1 has more than 999 peers" -n -f "$out/hosts" -s n1
sed -i 1001d "$out/hosts"
ends 0 -n -f "$out/hosts" -s n1000
[ "$(wc -w <"$out/said")" -eq 1004 ] || fail 'a thousand hosts are not 999 peers'
printf '%s 10.0.0.1 slave\n' "$(printf '%0255d' 0)" >"$out/hosts"
ends 0 -n -f "$out/hosts" -s "$(printf '%0255d' 0)"
sed -i 's/^/0/' "$out/hosts"
refuses "$out/hosts:1: the name has more than 255 letters" -n -f "$out/hosts" -s alpha
for turns in 0 01 1000000001 -1 x ''; do
    refuses_words "turns '$turns': a number from 1 to 1000000000" -n -f "$hosts" -s alpha --turns="$turns"
done
refuses_words "wait 'x': a number of seconds from 0 to 86400" -n -f "$hosts" -s alpha -w x
for spread in 01 3601 x 0.5; do
    refuses_words "spread '$spread': a number of seconds from 0 to 3600" -n -f "$hosts" -s alpha --spread="$spread"
done
for gone in x -1 86401; do
    status=0
    TSP_GONE=$gone tools/tsp-launch -n -f "$hosts" -s alpha >"$out/said" 2>"$out/told" || status=$?
    [ "$status" -eq 2 ] && grep -qx "tsp-launch: TSP_GONE '$gone': a number of seconds from 0 to 86400" "$out/told" || fail "of TSP_GONE=$gone it says '$(cat "$out/told")', status $status"
done
printf 'alpha 192.0.2.11 master\nbeta\0 192.0.2.12 slave\n' >"$out/hosts"
refuses "$out/hosts:2: the line has a NUL" -l -f "$out/hosts"
printf 'alpha 192.0.2.11 master # \0\n' >"$out/hosts"
refuses "$out/hosts:1: the line has a NUL" -n -f "$out/hosts" -s alpha
head -c 67108864 /dev/zero | tr '\0' '#' >"$out/hosts"
refuses "$out/hosts: it has more than 2097152 octets" -l -f "$out/hosts"
refuses_words '-q: tsp-launch --help says which arguments there are' -q
refuses_words '-f: an argument is missing behind it' -n -f
given=TSP_TRACE=yes
refuses_words "trace 'yes': off, on, journal, or the path of a file, which begins with /" -n -f "$hosts" -s alpha
for trace in journal "$out/trace"; do
    given=TSP_TRACE=$trace
    ends 0 -n -f "$hosts" -s alpha
    refuses_words "trace '$trace' is for --supervise" -f "$hosts" -s alpha
done
for keep in 0 x 1.5 1000001; do
    given=TSP_KEEP=$keep
    refuses_words "keep '$keep': a number of MiB from 1 to 1000000" -n -f "$hosts" -s alpha
done
given=TSP_LOG=syslog
refuses_words "log 'syslog': journal or plain" -n -f "$hosts" -s alpha
# (a line has its priority if the journal takes it)
given=TSP_LOG=journal
status=0
env $given tools/tsp-launch -l -f "$out/none" >"$out/said" 2>"$out/told" || status=$?
[ "$status" -eq 78 ] && [ "$(cat "$out/told")" = "<3>tsp-launch: $out/none: there is no such file" ] || fail "with priorities it says '$(cat "$out/told")'"
stream=$(stat -c %d:%i "$out/told")
JOURNAL_STREAM=$stream tools/tsp-launch -l -f "$out/none" >"$out/said" 2>>"$out/told" || :
[ "$(tail -n 1 "$out/told")" = "<3>tsp-launch: $out/none: there is no such file" ] || fail "into the journal it says '$(cat "$out/told")'"
given=''
refuses "there is no program $out/none" -f "$hosts" -s alpha -p "$out/none"

# Output that nobody takes, or that is closed.
for words in --help --list --print; do
    for into in '>/dev/full' '>&-'; do
        status=0
        eval "tools/tsp-launch $words -f $hosts -s alpha $into" 2>"$out/told" || status=$?
        [ "$status" -eq 4 ] && [ "$(cat "$out/told")" = 'tsp-launch: standard output takes nothing' ] || fail "$words $into: status $status, '$(cat "$out/told")'"
    done
done

# A name is looked up again, as long as that was asked for.
printf 'late late.example master\n' >"$out/hosts"
: >"$ASKED"
refuses "$out/hosts:1: late.example has no IPv4 address" -n -f "$out/hosts" -s late
: >"$ASKED"
ends 0 -n -f "$out/hosts" -s late -w 5
[ "$(cat "$out/said")" = 'serve 192.0.2.53:525 late m 1000000000' ] || fail 'a name that comes late is not waited for'
[ "$(cat "$out/told")" = "tsp-launch: $out/hosts:1: late.example has no IPv4 address yet; names are looked up for 5 s more" ] || fail "$(cat "$out/told")"

# The daemon is started with the words, and ends with its own status. Where that is asked for it is told to trace, until it answers.
cat >"$out/fake" <<'END'
#!/bin/sh
echo "$*" >>"$CALLS"
case $1 in
serve) for _ in $(seq "$PATIENCE"); do [ "$(wc -l <"$CALLS")" -ge "$WANTED" ] || sleep 0.5; done; exit "$STATUS" ;;
trace) [ "$(wc -l <"$CALLS")" -ge 3 ] || exit 6; echo trace on ;;
esac
END
chmod +x "$out/fake"
export CALLS="$out/calls" WANTED=1 PATIENCE=40 STATUS
for STATUS in 0 1 2 4 5 8; do
    : >"$CALLS"
    ends "$STATUS" -f "$hosts" -s gamma -p "$out/fake"
    [ "$(cat "$CALLS")" = 'serve 198.51.100.7:525 gamma s 1000000000 192.0.2.1:525' ] || fail "the program is called as '$(cat "$CALLS")'"
done
# (without python3, with which a supervisor takes the trace from the daemon)
mkdir "$out/without"
for each in awk cat cut date dirname env getent grep head od readlink sed seq sh sleep sort tr uname wc; do
    ln -s "$(command -v "$each")" "$out/without/$each"
done
held='tsp-launch: there is no python3: a reader of the trace that takes nothing stops the daemon, and a full disk ends it'
: >"$CALLS"
given="PATH=$out/without WANTED=3 STATUS=0"
ends 0 -f "$hosts" -s alpha -p "$out/fake" --trace
printf '%s\n' 'serve 192.0.2.11:525 alpha m 1000000000 192.0.2.12:526 192.0.2.1:525' 'trace 192.0.2.11:525 on' 'trace 192.0.2.11:525 on' >"$out/wanted"
sort "$CALLS" | cmp -s - "$out/wanted" || fail "the daemon is asked to trace as '$(cat "$CALLS")'"
[ "$(cat "$out/told")" = "$held
tsp-launch: in the trace peer 0 is alpha, 1 beta, 2 gate" ] || fail "$(cat "$out/told")"
[ ! -s "$out/said" ] || fail 'what the questions answer is printed'
: >"$CALLS"
given="PATH=$out/without WANTED=9 PATIENCE=2 STATUS=5 TSP_TRACE=on"
ends 5 -f "$hosts" -s alpha -p "$out/fake"
given=''
calls=$(wc -l <"$CALLS")
sleep 2.2
[ "$(wc -l <"$CALLS")" -le $((calls + 1)) ] || fail 'a daemon that has ended is still asked to trace'

# A daemon starts at a random moment within the spread: some moments are in its first half, and some in its second.
cat >"$out/bin/sleep" <<'END'
#!/bin/sh
echo "$1" >>"$SLEPT"
END
chmod +x "$out/bin/sleep"
: >"$out/slept"
count=0
while [ "$count" -lt 40 ]; do
    given="SLEPT=$out/slept STATUS=0 WANTED=1 TSP_SPREAD=5"
    ends 0 -f "$hosts" -s gamma -p "$out/fake"
    count=$((count + 1))
done
given=''
[ "$(cat "$out/told")" = "tsp-launch: the daemon starts in $(tail -n 1 "$out/slept") s, at a random moment within 5 s" ] || fail "$(cat "$out/told")"
given="SLEPT=$out/slept-long STATUS=0 WANTED=1 TSP_SPREAD="
ends 0 -f "$hosts" -s gate -p "$out/fake"
given=''
grep -qx 'tsp-launch: the daemon starts in [0-9.]* s, at a random moment within 120 s' "$out/told" || fail "of a gateway: $(cat "$out/told")"
given="SLEPT=$out/slept-long STATUS=0 WANTED=1 TSP_SPREAD="
ends 0 -f "$hosts" -s beta -p "$out/fake"
given=''
grep -qx 'tsp-launch: the daemon starts in [0-9.]* s, at a random moment within 5 s' "$out/told" || fail "of a host without a spread: $(cat "$out/told")"
awk '!/^[0-9]\.[0-9][0-9][0-9]$/ || $1 > 5 { exit 1 } $1 < 2.5 { below++ } $1 > 2.5 { above++ } END { exit !(NR == 40 && below >= 5 && above >= 5) }' "$out/slept" ||
    fail "the moments within the spread are $(paste -sd ' ' "$out/slept")"
rm "$out/bin/sleep"

# Supervised, it ends as its daemon does, says why an address can't be bound, and ends with 0 where it is told to end.
for STATUS in 0 2 4 8 78; do
    ends "$STATUS" -f "$hosts" -s gamma -p "$out/fake" --supervise
    [ ! -s "$out/told" ] || fail "a daemon with status $STATUS is told of: $(cat "$out/told")"
done
STATUS=5
ends 5 -f "$hosts" -s alpha -p "$out/fake" --supervise
[ "$(cat "$out/told")" = "tsp-launch: 192.0.2.11:525 can't be bound: Cannot assign requested address" ] || fail "$(cat "$out/told")"
STATUS=1
ends 1 -f "$hosts" -s gamma -p "$out/fake" --supervise
[ "$(cat "$out/told")" = "tsp-launch: $out/fake doesn't know the arguments 'serve 198.51.100.7:525 gamma s 1000000000 192.0.2.1:525': it is of another version" ] || fail "$(cat "$out/told")"
cat >"$out/daemon" <<'END'
#!/bin/sh
printf '%s\n' '1 0 0 1 trace on' '2 0 0 2 become follow 1'
exec sleep 30
END
chmod +x "$out/daemon"
cat >"$out/notify" <<'END'
import os, signal, socket, struct, subprocess, sys
path = sys.argv[1]
with socket.socket(socket.AF_UNIX, socket.SOCK_DGRAM) as link:
    link.bind(path)
    link.setsockopt(socket.SOL_SOCKET, socket.SO_PASSCRED, 1)
    link.settimeout(20)
    with subprocess.Popen(sys.argv[2:], env={**os.environ, 'NOTIFY_SOCKET': path}) as run:
        for number in range(2):
            octets, ancillary, _, _ = link.recvmsg(4096, socket.CMSG_SPACE(12))
            sender, _, _ = struct.unpack('3i', ancillary[0][2])
            print('main' if sender == run.pid else 'other', octets.decode().replace('\n', ' '), flush=True)
            if number == 0:
                run.send_signal(signal.SIGTERM)
    print(run.returncode)
END
TSP_CLOCK=$out/clock python3 "$out/notify" "$out/link" tools/tsp-launch -f "$hosts" -s gamma -p "$out/daemon" --supervise --trace >"$out/said" 2>"$out/told" || fail "$(cat "$out/told")"
grep -v '^[12] 0 0 ' "$out/said" | paste -sd ';' >"$out/notified"
[ "$(cat "$out/notified")" = 'main READY=1 STATUS=follows gate;main STOPPING=1;0' ] || fail "systemd is told '$(cat "$out/notified")'"
[ "$(grep -c '^[12] 0 0 [12] ' "$out/said")" -eq 2 ] || fail 'the trace is not handed on'
printf 'tsp-launch: %s\n' 'in the trace peer 0 is gamma, 1 gate' "gamma runs and answers at 198.51.100.7:525, by a hosts file with the digest $(tools/tsp-launch \
    -l -f "$hosts" | sha256sum | cut -c 1-16); after 80 s it asks who leads" 'follows gate' >"$out/wanted"
cmp -s "$out/told" "$out/wanted" || fail "$(cat "$out/told")"

# A daemon that listens at all addresses is asked over the loopback.
: >"$CALLS"
given="PATH=$out/without WANTED=3 STATUS=0"
ends 0 -f "$two" -s b -p "$out/fake" --trace
given=''
printf '%s\n' 'serve 0.0.0.0:525 b m 1000000000 192.0.2.1:525 192.0.2.3:525 + 198.51.100.2:525 198.51.100.3:525' 'trace 127.0.0.1:525 on' 'trace 127.0.0.1:525 on' >"$out/wanted"
sort "$CALLS" | cmp -s - "$out/wanted" || fail "a daemon at all addresses is asked to trace as '$(cat "$CALLS")'"
[ "$(cat "$out/told")" = "$held
tsp-launch: in the trace peer 0 is b, 1 a, 2 c, 3 c, 4 d" ] || fail "$(cat "$out/told")"

# The example of a hosts file is a good one.
ends 0 -n -f daemon/hosts -s printer
echo "$check: words of good hosts files, $count faulty lines, and starts"
