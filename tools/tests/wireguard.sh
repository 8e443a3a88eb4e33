#!/bin/sh
# What tsp-launch prints for a tunnel of WireGuard brings it up, and nobody can forge into it.
. "$(dirname "$0")/common.sh"
unset TSP_HOSTS TSP_SELF TSP_TURNS TSP_WAIT TSP_TRACE TSP_KEYS TSP_KEY
PATH=$PATH:/usr/sbin:/sbin

# A key of the length of WireGuard's, made of one letter.
key() {
    printf '%s' "$1" | awk '{ for (i = 0; i < 42; i++) printf "%s", $1; print "A=" }'
}

prints() {
    form=$1
    shift
    TSP_KEYS=$out/keys tools/tsp-launch --wireguard "$form" -f "$out/hosts" "$@"
}

# Wants this line of standard error, and status 78.
refuses() {
    wanted=$1
    shift
    status=0
    prints "$@" >"$out/said" 2>"$out/told" || status=$?
    [ "$status" -eq 78 ] && [ ! -s "$out/said" ] && [ "$(cat "$out/told")" = "tsp-launch: $wanted" ] || fail "status $status, $(cat "$out/told"); wanted is $wanted"
}

# A gateway with an address in each network, and what is faulty.
mkdir "$out/keys"
printf '%s\n' 'alpha 10.99.0.1 master' 'gate 10.99.0.9 master' + 'gate 10.99.1.9 master' 'gamma 10.99.1.3 slave' >"$out/hosts"
refuses "$out/keys/alpha: No such file or directory" wg-quick -s gate
echo "$(key A) 192.0.2.1" >"$out/keys/alpha"
for line in "$(key B)" "$(key B) fd77::3 x" "short fd77::3" "$(key B | tr -d =) fd77::3"; do
    echo "$line" >"$out/keys/gamma"
    refuses "$out/keys/gamma: a public key of WireGuard belongs there, and the host's address in the network beneath" wg-quick -s gate
done
for address in fd77::x '[fd77::3]:0' '[fd77::3]:65536' 192.0.2.256 'a b:5' -x; do
    echo "$(key B) $address # beneath" >"$out/keys/gamma"
    ! prints wg-quick -s gate >"$out/said" 2>"$out/told" || fail "an address '$address' is taken"
    [ "$(wc -l <"$out/told")" -eq 1 ] || fail "of an address '$address' it says $(cat "$out/told")"
done
for address in 'fd77::3 [fd77::3]:51820' '[fd77::3]:5 [fd77::3]:5' '192.0.2.3 192.0.2.3:51820' '192.0.2.3:5 192.0.2.3:5' 'gamma.example:7 gamma.example:7'; do
    echo "$(key B) ${address% *} # beneath" >"$out/keys/gamma"
    prints wg-quick -s gate >"$out/said" || fail "an address '$address' is refused"
    grep -qxF "Endpoint = ${address#* }" "$out/said" || fail "of an address '$address' it makes $(grep Endpoint "$out/said")"
done
for line in 'Address = 10.99.0.9/32, 10.99.1.9/32' 'ListenPort = 51820' "PublicKey = $(key A)" 'AllowedIPs = 10.99.0.1/32' 'AllowedIPs = 10.99.1.3/32'; do
    grep -qxF "$line" "$out/said" || fail "a gateway lacks '$line': $(cat "$out/said")"
done
[ "$(grep -c '^PublicKey' "$out/said")" -eq 2 ] || fail 'a gateway has not its two peers'
# (a host has no business with one of another network, nor with its key)
prints wg-quick -s gamma >"$out/said" 2>"$out/told" && fail 'a gateway without a key is a peer'
echo "$(key C) [fd77::9]:6000" >"$out/keys/gate"
rm "$out/keys/alpha"
prints wg-quick -s gamma >"$out/said" || fail 'the key of a host of another network is wanted'
grep -qxF 'AllowedIPs = 10.99.1.9/32' "$out/said" && ! grep -qF 10.99.0 "$out/said" || fail "a slave's peers are $(cat "$out/said")"
# (its own port is in its own file)
echo "$(key A) 192.0.2.1" >"$out/keys/alpha"
prints wg-quick -s gate | grep -qx 'ListenPort = 6000' || fail "a gateway doesn't listen at its own port"
status=0
tools/tsp-launch --wireguard what -f "$out/hosts" >"$out/said" 2>"$out/told" || status=$?
[ "$status" -eq 2 ] && grep -q "wireguard 'what': " "$out/told" || fail "another form ends with $status, $(cat "$out/told")"
# The key: where there is no wg, nothing is made.
mkdir "$out/empty"
status=0
for name in sh readlink dirname uname tr head env cut awk; do ln -s "$(command -v "$name")" "$out/empty"; done
ln -s "$out/bin/python3" "$out/empty"
PATH=$out/empty TSP_KEY=$out/key tools/tsp-launch --wireguard --keys >"$out/said" 2>"$out/told" || status=$?
[ "$status" -eq 78 ] && [ ! -e "$out/key" ] && grep -q 'there is no wg' "$out/told" || fail "without wg: status $status, $(cat "$out/told")"

# systemd-networkd reads what is printed for it without a word, and would say so if something were wrong. (without udev it makes nothing of it)
networkd=/lib/systemd/systemd-networkd
for form in netdev network; do
    prints "$form" -s gate >"$out/tsp.$form" || fail "nothing is printed for $form"
done
key K >"$out/tsp.key"
cat >"$out/networkd" <<END
mount -t tmpfs tmpfs /etc/systemd/network && mount -t tmpfs tmpfs /run && cp "$out"/tsp.netdev "$out"/tsp.network "$out"/tsp.key /etc/systemd/network || exit
SYSTEMD_LOG_LEVEL=debug SYSTEMD_LOG_TARGET=console $networkd >"$out/read" 2>&1 &
for _ in \$(seq 100); do
    ! grep -q 'Enumeration completed' "$out/read" || break
    sleep 0.1
done
kill "\$!"
END
if [ "$(id -u)" -eq 0 ] && [ -x "$networkd" ] && unshare -n -m sh "$out/networkd" 2>"$out/told"; then
    ! grep 'tsp[.]net[a-z]*:[0-9]' "$out/read" || fail 'systemd-networkd finds something'
    grep -q 'tsp: loaded "wireguard"' "$out/read" || fail "systemd-networkd reads no tunnel: $(cat "$out/read")"
    sed -i 's/^AllowedIPs=/AllowedIP=/' "$out/tsp.netdev"
    sed -i 's/^Destination=/Destinations=/' "$out/tsp.network"
    unshare -n -m sh "$out/networkd" 2>"$out/told"
    [ "$(grep -c 'tsp[.]net[a-z]*:[0-9].*Unknown key' "$out/read")" -eq 4 ] || fail "systemd-networkd doesn't find four faults: $(cat "$out/read")"
else
    skip 'there is no systemd-networkd, or no namespace for it' 'what it reads'
fi
if [ "$(id -u)" -ne 0 ]; then
    skip 'this is not root' 'the tunnel'
elif ! { has wg-quick && has nft && has ip && unshare -n -m true 2>/dev/null; }; then
    skip 'there is no wg-quick or no nft' 'the tunnel'
elif ! { unshare -n ip link add type wireguard 2>/dev/null || { has wireguard-go && [ -c /dev/net/tun ]; }; }; then
    skip 'the kernel has no WireGuard, and there is no wireguard-go' 'the tunnel'
else
    serving_program
    case $program in /*) ;; *) program=$PWD/$program ;; esac
    mkdir "$out/hosts.d"
    export WG_QUICK_USERSPACE_IMPLEMENTATION=wireguard-go
    unshare -n -m python3 -B tools/tests/wireguard.py "$program" "$out/hosts.d" >"$out/said" || fail "the tunnel: $(cat "$out/said")"
    echo "$check: $(cat "$out/said")"
fi
echo "$check: keys, addresses and a gateway are printed"
