#!/bin/sh
# systemd reads the unit without a word, finds it well shut off, and starts the daemon again but where that is no use.
. "$(dirname "$0")/common.sh"
unit=daemon/tsp.service

# What a key of the unit says, over all its lines.
says() {
    sed -n "s/^$1=//p" "$unit" | paste -sd ' '
}

[ "$(says Restart)" = always ] && [ "$(says RestartPreventExitStatus)" = '1 2 78' ] || fail 'it is not started again but for 1, 2 and 78'
[ "$(says DynamicUser)" = yes ] || fail 'it has no user of its own'
for key in AmbientCapabilities CapabilityBoundingSet; do
    [ "$(says "$key")" = CAP_NET_BIND_SERVICE ] || fail "$key is '$(says "$key")'"
done

# systemd hears of the start from the main process alone, and gives it more time than names are looked up.
[ "$(says Type)" = notify ] && [ "$(says NotifyAccess)" = main ] || fail 'systemd is told otherwise that it has started'
says ExecStart | grep -q ' --supervise$' || fail 'nobody tells systemd'
wait=$(says Environment | tr ' ' '\n' | sed -n 's/^TSP_WAIT=//p') limit=$(says TimeoutStartSec)
[ "${limit%min}" -gt $((wait / 60)) ] || fail "a start is given up after $limit, and names are looked up for $wait s"

# The variables of the unit and of its defaults are those that tsp-launch and what it starts read. The defaults have each of them once.
sed -n 's/^#\(TSP_[A-Z]*=.*\)/\1/p' daemon/tsp.default >"$out/defaults"
{ says Environment | tr ' ' '\n'; cat "$out/defaults"; } | sed 's/=.*//' | sort -u >"$out/set"
{
    grep -o '\${TSP_[A-Z]*' tools/tsp-launch | sed 's/^..//'
    grep -oh "environ.get('TSP_[A-Z]*" tools/tsp_daemon/*.py tools/tsp_supervise/*.py | sed "s/.*'//"
} | sort -u >"$out/read"
comm -23 "$out/set" "$out/read" >"$out/unread"
[ ! -s "$out/unread" ] || fail "tsp-launch does not read $(cat "$out/unread")"
[ -z "$(sed 's/=.*//' "$out/defaults" | sort | uniq -d)" ] || fail "a variable stands twice in daemon/tsp.default: $(sed 's/=.*//' "$out/defaults" | sort | uniq -d)"
# (tsp-launch sets three of them itself, and those of the firewall and the tunnel are for a call by hand)
sed 's/=.*//' "$out/defaults" | sort | comm -13 - "$out/read" | grep -v -x -e TSP_ASKERS -e TSP_DIGEST -e TSP_KEY -e TSP_KEYS -e TSP_NAMES -e TSP_ONCE -e TSP_PAGE >"$out/lacking" || :
[ ! -s "$out/lacking" ] || fail "daemon/tsp.default lacks $(paste -sd ' ' "$out/lacking")"
# Each has there what it is if it is left out: by the unit, or else by tsp-launch.
while IFS='=' read -r name value; do
    default=$(says Environment | tr ' ' '\n' | sed -n "s/^$name=//p")
    [ -n "$default" ] || default=$(grep -o "\${$name:-[^}\$(]*" tools/tsp-launch | head -n 1 | sed 's/^[^-]*-//')
    [ -z "$default" ] || [ "$value" = "$default" ] || fail "$name is $default if left out, and daemon/tsp.default has $value"
done <"$out/defaults"
# The manual page tells of each.
sed -n '/^\.SH ENVIRONMENT/,/^\.SH [^E]/p' man/tsp-launch.8 | sed -n 's/^\.BR* \(TSP_[A-Z]*\)$/\1/p' | sort >"$out/told"
[ -z "$(sed 's/=.*//' "$out/defaults" | sort | comm -23 - "$out/told")" ] || fail "tsp-launch(8) doesn't tell of $(sed 's/=.*//' "$out/defaults" | sort | comm -23 - "$out/told")"

has systemd-analyze || { skip 'there is no systemd-analyze' "what systemd says of $unit"; exit; }
analyze() {
    systemd-analyze --no-pager "$@" >"$out/told" 2>&1
}
! analyze --help || cp "$out/told" "$out/help"
if grep -q -e --offline "$out/help" && grep -q -e --threshold "$out/help"; then
    analyze security --offline=true --threshold=20 "$unit" || fail "$(tail -n 1 "$out/told")"
    exposure=$(sed -n 's/.*exposure level for [^:]*: \([0-9.]*\).*/\1/p' "$out/told")
else
    skip 'this systemd-analyze knows no unit that is not installed' 'how well the unit is shut off'
    exposure='not known'
fi

# A root with the unit, what it starts, and the units that it names.
root=$out/root
install -d "$root/usr/lib/systemd/system" "$root/usr/sbin" "$root/bin" "$root/etc/default"
install -m 644 "$unit" "$root/usr/lib/systemd/system"
install -m 755 tools/tsp-launch "$root/usr/sbin"
install -m 755 /dev/null "$root/bin/kill"
for folder in /usr/lib/systemd/system /lib/systemd/system; do
    [ ! -d "$folder" ] || { cp -r "$folder"/*.target "$root/usr/lib/systemd/system" 2>/dev/null || :; }
done
if grep -q -e --root "$out/help"; then
    analyze verify --man=no --root="$root" tsp.service || :
    [ ! -s "$out/told" ] || fail "$(head -n 1 "$out/told")"
    # The drop-in that closes the firewall around it.
    install -d "$root/etc/systemd/system/tsp.service.d"
    for host in alpha printer; do
        tools/tsp-launch --firewall systemd -f daemon/hosts -s "$host" >"$root/etc/systemd/system/tsp.service.d/firewall.conf" || fail "there is no drop-in for $host"
        analyze verify --man=no --root="$root" tsp.service || :
        [ ! -s "$out/told" ] || fail "of the drop-in: $(head -n 1 "$out/told")"
    done
    # (and it would say so if something were wrong)
    sed -i 's/^IPAddressDeny=/IPAddressDenies=/' "$root/etc/systemd/system/tsp.service.d/firewall.conf"
    analyze verify --man=no --root="$root" tsp.service || :
    grep -q IPAddressDenies "$out/told" || fail 'systemd-analyze verify finds no fault of a drop-in where there is one'
    sed -i 's/^ProtectHome=/ProtectHouse=/' "$root/usr/lib/systemd/system/tsp.service"
    analyze verify --man=no --root="$root" tsp.service || :
    grep -q ProtectHouse "$out/told" || fail 'systemd-analyze verify finds no fault where there is one'
else
    skip 'this systemd-analyze knows no other root' 'what it says of the unit'
fi
echo "$check: read without a word, exposure $exposure"
