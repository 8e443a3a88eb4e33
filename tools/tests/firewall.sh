#!/bin/sh
# The rules that tsp-launch prints for a firewall let in what the daemon needs, and nothing else.
. "$(dirname "$0")/common.sh"
unset TSP_HOSTS TSP_SELF TSP_TURNS TSP_WAIT TSP_TRACE TSP_ASKERS

# What is printed: of a gateway that listens at all addresses, of a host without peers, and of networks that lie in each other.
tools/tsp-launch --firewall nft -f tools/tests/witness/loops.hosts -s b >"$out/rules" || fail "there are no rules of a gateway"
grep -qx '        udp dport 525 jump datagrams' "$out/rules" || fail "a gateway has the rules $(cat "$out/rules")"
grep -q 'ip saddr { 192.0.2.1, 192.0.2.3, 198.51.100.2/31 } limit' "$out/rules" || fail "a gateway has the rules $(cat "$out/rules")"
# (a gateway is asked by its own machine at its addresses too)
tools/tsp-launch --firewall systemd -f tools/tests/witness/loops.hosts -s b >"$out/rules" || fail "there is no drop-in of a gateway"
grep -q '^IPAddressAllow=127.0.0.0/8 192.0.2.1 192.0.2.2/31 198.51.100.1 198.51.100.2/31' "$out/rules" || fail "the drop-in of a gateway is $(cat "$out/rules")"
echo 'alone 192.0.2.1:1025 master' >"$out/hosts"
tools/tsp-launch --firewall nft -f "$out/hosts" -s alone >"$out/rules" || fail 'there are no rules of a host alone'
! grep saddr "$out/rules" || fail 'a host alone lets something in'
TSP_ASKERS='192.0.2.0/28,192.0.2.7 10.0.0.0/8' tools/tsp-launch --firewall systemd -f "$out/hosts" -s alone >"$out/rules" || fail 'there is no drop-in'
grep -qx 'IPAddressDeny=any' "$out/rules" && grep -q '^IPAddressAllow=127.0.0.0/8 10.0.0.0/8 192.0.2.0/28' "$out/rules" || fail "the drop-in is $(cat "$out/rules")"
# The text is the same each time, also of peers on one machine.
{ cat "$out/hosts"; for port in 7 3 9 2 8; do echo "h$port 192.0.2.2:$port slave"; done; } >"$out/ports"
for number in 1 2 3 4; do
    tools/tsp-launch --firewall nft -f "$out/ports" -s alone >"$out/other" || fail 'there are no rules of hosts on one machine'
    grep -q 'sport { 192.0.2.2 . 2, 192.0.2.2 . 3, 192.0.2.2 . 7, 192.0.2.2 . 8, 192.0.2.2 . 9 }' "$out/other" || fail "time $number hosts on one machine have the rules $(cat "$out/other")"
done
grep -qx 'CapabilityBoundingSet=' "$out/rules" || fail 'a port above 1023 keeps the capability'
for askers in x 192.0.2.1/24 ::1 192.0.2.7/33; do
    status=0
    TSP_ASKERS=$askers tools/tsp-launch --firewall nft -f "$out/hosts" -s alone >"$out/rules" 2>"$out/told" || status=$?
    [ "$status" -eq 78 ] && [ ! -s "$out/rules" ] && grep -q "^tsp-launch: TSP_ASKERS '$askers': an address " "$out/told" || fail "askers '$askers': status $status, $(cat "$out/told")"
done

# What they do.
if [ "$(id -u)" -eq 0 ]; then apart='unshare -n'; else apart='unshare -rn'; fi
PATH=$PATH:/usr/sbin:/sbin
if has nft && has ip && has nsenter && $apart nft list ruleset >"$out/said" 2>&1; then
    serving_program
    chmod 711 "$out"
    $apart python3 -B tools/tests/firewall.py "$program" "$out" >"$out/said" || fail 'the rules do something else'
    echo "$check: $(cat "$out/said")"
else
    skip 'there is no nft that works in a namespace' 'what the rules do'
    echo "$check: rules are printed"
fi
