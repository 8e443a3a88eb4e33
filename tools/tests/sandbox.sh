#!/bin/sh
# What the launcher and a daemon ask of the system is within what the unit lets them, and the port 525 needs its one capability and no user.
. "$(dirname "$0")/common.sh"
unset TSP_HOSTS TSP_SELF TSP_TURNS TSP_WAIT TSP_TRACE
export TSP_SPREAD=0
serving_program
unit=daemon/tsp.service

# The calls of a group of calls, and of the groups in it.
calls_of() {
    systemd-analyze --no-pager syscall-filter "$1" | sed '1d; s/^ *//; /^#/d' | while read -r call; do
        case $call in
        @*) calls_of "$call" ;;
        ?*) echo "$call" ;;
        esac
    done
}

tried=''
if has strace && has systemd-analyze && strace -qq -o "$out/calls" true 2>/dev/null; then
    # A name is looked up, the daemon is asked to trace, takes eight turns, is started again, and is told to end.
    free_ports 2 >"$out/ports"
    read -r one two <"$out/ports"
    printf '%s\n' "a localhost:$one master" "b 127.0.0.1:$two slave" >"$out/hosts"
    TSP_SPREAD=1 TSP_CLOCK="$out/clock" NOTIFY_SOCKET=@tsp-none strace -f -qq -o "$out/calls" \
        timeout --preserve-status 12 tools/tsp-launch -f "$out/hosts" -s a --turns 8 --trace --supervise -p "$program" >"$out/trace" 2>"$out/told" || fail "$(cat "$out/told")"
    [ "$(grep -c ' trace on$' "$out/trace")" -ge 2 ] || fail "the daemon isn't started again: $(cat "$out/told")"
    sed 's/^[0-9]* *//' "$out/calls" | grep -o '^[a-z_0-9]*(' | tr -d '(' | sort -u >"$out/used"
    grep -q recvfrom "$out/used" && grep -q execve "$out/used" || fail 'no calls were seen'
    sed -n 's/^SystemCallFilter=//p' "$unit" | while read -r groups; do
        into=allowed
        case $groups in '~'*) into=denied groups=${groups#'~'} ;; esac
        for group in $groups; do calls_of "$group"; done >>"$out/$into"
    done
    sort -u "$out/denied" >"$out/no"
    sort -u "$out/allowed" | comm -23 - "$out/no" >"$out/let"
    [ "$(wc -l <"$out/let")" -ge 100 ] && grep -qx setpriority "$out/no" || fail 'the groups of calls are not read'
    comm -13 "$out/let" "$out/used" >"$out/beyond"
    [ ! -s "$out/beyond" ] || fail "the unit does not let through: $(paste -sd ' ' "$out/beyond")"
    sed -n 's/.* socket(\(AF_[A-Z0-9]*\),.*/\1/p' "$out/calls" | sort -u >"$out/families"
    sed -n 's/^RestrictAddressFamilies=//p' "$unit" | tr ' ' '\n' | sort | comm -13 - "$out/families" >"$out/beyond"
    [ ! -s "$out/beyond" ] || fail "the unit has no sockets of $(cat "$out/beyond")"
    ! grep 'mmap(.*PROT_WRITE.*PROT_EXEC\|mprotect(.*PROT_WRITE.*PROT_EXEC' "$out/calls" || fail 'memory is written and run'
    tried="$(wc -l <"$out/used") calls of the system"
else
    skip 'there is no strace that works, or no systemd-analyze' 'which calls of the system a daemon makes'
fi

# As nobody, from a root that has no other right.
least=$(cat /proc/sys/net/ipv4/ip_unprivileged_port_start 2>/dev/null || echo 1024)
if has setpriv && [ "$(id -u)" -eq 0 ] && [ "$least" -gt 525 ]; then
    mkdir "$out/open"
    chmod 711 "$out"
    cp "$program" "$out/open/tsp"
    cp tools/tsp-launch "$out/open"
    echo 'a 127.37.1.1 master' >"$out/open/hosts"
    as_nobody() {
        capability=$1
        shift
        setpriv --reuid=65534 --regid=65534 --clear-groups --no-new-privs --inh-caps="-all$capability" --ambient-caps="-all$capability" --bounding-set="-all$capability" "$@"
    }
    as_nobody ,+net_bind_service "$out/open/tsp-launch" -f "$out/open/hosts" -s a --turns 1 -p "$out/open/tsp" 2>"$out/told" || fail "with its capability a daemon ends with status $?: $(cat "$out/told")"
    status=0
    as_nobody '' "$out/open/tsp-launch" -f "$out/open/hosts" -s a --turns 1 -p "$out/open/tsp" 2>"$out/told" || status=$?
    [ "$status" -eq 5 ] || fail "without its capability a daemon ends with status $status"
    tried="${tried:+$tried, }one capability"
else
    skip 'this is not root, or there is no setpriv' 'a daemon as nobody'
fi
echo "$check: ${tried:-nothing was tried}"
