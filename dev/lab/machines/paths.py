"""A tunnel and a firewall between machines, with a forger on the wire beneath. Each function is a scenario, as in faults."""
import re
import socket
import struct
import time

from lab.machines import network, pages
from lab.machines.network import wanted
from tsp_witness.datagram import octets_of

SECTION = 'A tunnel of WireGuard'
# A forger sends so many datagrams, which bear a name that says where they come from; a peer's questions for how long a round trip takes are as many.
TIMES, TRIPS = 20, 60
TRACE = '/var/log/tsp/trace'
# Sends a packet of IP, given in hexadecimal, so often.
SEND = '''python3 -c '
import socket, sys, time
link = socket.socket(socket.AF_INET, socket.SOCK_RAW, socket.IPPROTO_RAW)
for _ in range(int(sys.argv[3])):
    link.sendto(bytes.fromhex(sys.argv[1]), (sys.argv[2], 0))
    time.sleep(0.05)
' '''


def inside(machine):
    """A machine's address in the tunnel."""
    return f'10.99.0.{machine.number}'


def beneath(machine):
    """A machine's address on the wire beneath, which is of IPv6."""
    return f'fd77::{machine.number}'


def with_keys(members):
    """Hosts file and keys on each host, by the commands of the operator's guide."""
    make = pages.blocks(SECTION)[0]
    hosts = ''.join(f'{one.name} {inside(one)} master\n' for one in members)
    keys = {}
    for one in members:
        one.write('/etc/tsp/hosts', hosts)
        one.must(f'rm -rf /etc/tsp/keys; {make.replace("fd77::1", beneath(one)).replace("keys/alpha", f"keys/{one.name}")}')
        wanted(one.must('stat -c %a /etc/wireguard/tsp.key') == '600', f'the private key of {one.name} can be read')
        keys[one.name] = one.must(f'cat /etc/tsp/keys/{one.name}')
    for one in members:
        for name, line in keys.items():
            one.write(f'/etc/tsp/keys/{name}', f'{line}\n')


def by_wg_quick(one):
    """The tunnel by wg-quick, and the daemon behind it, by the commands of the operator's guide."""
    _, up, lines = pages.blocks(SECTION)
    one.must(up)
    pages.edit(one, 'systemctl edit tsp', lines)
    one.must('systemctl restart tsp', patience=network.UP)


def by_networkd(one):
    """The tunnel by systemd-networkd, in place of wg-quick, by what the operator's guide prints, and the rule beside it."""
    one.must('systemctl disable --now wg-quick@tsp; systemctl revert tsp; systemctl daemon-reload')
    commands = [span for span in pages.spans(SECTION) if span.startswith('tsp-launch --wireguard net')]
    wanted(len(commands) == 2, f'the guide has {commands} for systemd-networkd')
    for command in commands:
        one.must(command)
    key = re.search(r'The key: (install .*)', one.must('cat /etc/systemd/network/tsp.netdev'))
    one.must(f'{key[1]}; networkctl reload; tsp-launch --wireguard nft >/srv/tsp.nft; nft -f /srv/tsp.nft')
    one.must(f'until ip -4 -o address show tsp | grep -q {inside(one)}; do sleep 1; done; systemctl restart tsp', patience=network.UP)


def packet(source, target, port, octets):
    """A packet of IP with a datagram to a daemon."""
    datagram = struct.pack('>HHHH', port, 525, 8 + len(octets), 0) + octets
    head = struct.pack('>BBHHHBBH4s4s', 0x45, 0, 20 + len(datagram), 1, 0, 64, 17, 0, socket.inet_aton(source), socket.inet_aton(target))
    return head + datagram


def send(sender, target, source, name, port=525):
    """Sends datagrams that bear this name, from one host's tunnel address to that of another."""
    octets = octets_of(('masterreq', '7', name))
    sender.must(f'{SEND} {packet(inside(source), inside(target), port, octets).hex()} {inside(target)} {TIMES}')
    time.sleep(2)
    return heard(target, name)


def heard(machine, name):
    """How many datagrams a machine's daemon took that bear this name."""
    return int(machine.says(f'grep -c " took .* masterreq 7 {name}$" {TRACE}') or 0)


def forged(forger, target, source, name, port=525):
    """The same on the wire beneath, as anybody there can: the tunnel's address is sent to by the card of the host that has it."""
    forger.must(f'ip route replace {inside(target)} via {target.address}')
    return send(forger, target, source, name, port)


def nothing_gets_in(forger, members, way):
    """That no datagram comes in that is forged on the wire, from the daemon's port or another one; and a peer's own do, but not with another one's address."""
    target, source, third = members
    for port in (525, 3333):
        got = forged(forger, target, source, f'{way}-{port}', port)
        wanted(got == 0, f'by {way} {got} of {TIMES} forged datagrams get in from port {port}')
    got = send(source, target, source, f'{way}-own')
    wanted(got == TIMES, f'by {way} {got} of {TIMES} datagrams of a peer come through the tunnel')
    got = send(source, target, third, f'{way}-borrowed')
    wanted(got == 0, f'by {way} {got} of {TIMES} datagrams of a peer get in with another one\'s address')


def trips(one, address):
    """How long round trips to a daemon take, in milliseconds: the least and the median, by how far its measured clock may be wrong, which is half of one."""
    said = one.must(f'for _ in $(seq {TRIPS}); do /usr/lib/tsp/tsp clockdiff {address}:525; done', patience=300)
    errors = sorted(map(int, re.findall(r'^clockdiff -?[0-9]+ ([0-9]+)$', said, re.MULTILINE)))
    wanted(len(errors) > TRIPS / 2, f'{len(errors)} of {TRIPS} questions are answered: {said[:200]}')
    return f'{errors[0] / 500:.2f} and {errors[len(errors) // 2] / 500:.2f}'


def without_rule(forger, target, source):
    """How many forged datagrams get in where the rule isn't there, so that it is known that the forger knows how."""
    target.must('nft delete table inet tsp_tunnel')
    got = forged(forger, target, source, 'unruled')
    target.must('systemctl restart wg-quick@tsp', patience=network.UP)
    # (the other ends don't know yet that it has no keys of theirs any more, until it asks them for new ones)
    target.must(f'ping -q -c 1 -W 30 {inside(source)}')
    return got


def tunnelled(net):
    """Three hosts at addresses of a tunnel over IPv6, by the kernel's WireGuard and the commands of the operator's guide, and a fourth machine on the wire that
    sends with a peer's address: none of its datagrams gets in, with wg-quick, after a reboot, and with systemd-networkd. One host leads, and all follow it."""
    members, forger = net.machines[:3], net[4]
    before = {machine: machine.must('cat /etc/tsp/hosts') for machine in net.machines}
    forger.must('systemctl stop tsp')
    bare = trips(net[2], net[1].address)
    with_keys(members)
    net.each(by_wg_quick, members)
    kind = net[1].must('ip -d link show tsp; lsmod')
    wanted('wireguard' in kind and 'tun ' not in kind, f'the tunnel isn\'t the kernel\'s: {kind}')
    nothing_gets_in(forger, members, 'wg-quick')
    without = without_rule(forger, net[1], net[2])
    wanted(without, 'without the rule no forged datagram gets in, so nothing is tried')
    nothing_gets_in(forger, members, 'restarted')
    net.each(lambda one: one.must('mkdir -p /etc/nftables.d; tsp-launch --firewall nft >/etc/nftables.d/tsp.nft; '
                                  'grep iifname.*tsp.*saddr /etc/nftables.d/tsp.nft; nft -f /etc/nftables.d/tsp.nft'), members)
    nothing_gets_in(forger, members, 'firewall')
    tunnel = trips(net[2], inside(net[1]))
    leads = net.led(machines=members)
    one, *others = [member for member in members if member is not leads]
    one.says('systemctl --no-block reboot')
    time.sleep(20)
    one.ready()
    again = net.joined([one])
    wanted(one.says('systemctl is-active wg-quick@tsp tsp').split() == ['active'] * 2, f'after a reboot the units of {one.name} aren\'t up')
    one.must(f'ping -q -c 1 -W 30 {inside(leads)}')
    nothing_gets_in(forger, [one, leads, *others], 'rebooted')
    net.each(by_networkd, members)
    net[1].must(f'ping -q -c 1 -W 30 {inside(net[2])}')
    nothing_gets_in(forger, members, 'networkd')
    leads = net.led(machines=members)
    back(net, members, before)
    ways = 'by wg-quick, after its restart, with the firewall, after a reboot and by systemd-networkd'
    return (f'{ways} 0 of {2 * TIMES} forged datagrams got in, and all {TIMES} of a peer; without the rule {without} of {TIMES}; {leads.name} led through the '
            f'tunnel, and a host that rebooted was synchronised after {again:.0f} s; shortest and middle round trips {tunnel} ms in it, {bare} without')


def back(net, members, before):
    """Takes the tunnel away."""
    for one in members:
        one.must('nft flush ruleset; rm -f /etc/systemd/network/tsp.* /etc/nftables.d/tsp.nft; networkctl reload; ip link del tsp')
    for machine in net.machines:
        machine.write('/etc/tsp/hosts', before[machine] + '\n')
        machine.must('systemctl restart tsp', patience=network.UP)
