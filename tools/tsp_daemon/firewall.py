"""Prints rules that let in what a daemon needs, by its own addresses and its words: `firewall.py nft|systemd OWN serve LOCAL NAME ..`.

As an nftables table: its peers from their ports, questions from its peers' machines and from the networks of TSP_ASKERS, so many in a second, and nothing
else; over the loopback it is asked by root and by users of services alone. Where its address is a tunnel's, peers and their machines are let in by the
tunnel's interface alone, since anybody on the wire beneath can send with their addresses. As a drop-in of the unit: datagrams of these addresses, of its own, and of name
servers.
"""
import ipaddress
import os
import sys

sys.dont_write_bytecode = True
sys.path.insert(0, os.path.dirname(os.path.dirname(os.path.realpath(__file__))))
from tsp_daemon import machine, tunnels, usage  # noqa: E402
from tsp_texts.tool import Fault  # noqa: E402

# How many questions are let in in a second: a network of a thousand hosts has 250, since supervisors ask a master four times in 16 s.
ASKED = 'limit rate 1000/second burst 1000 packets'
# Root, and the users that systemd makes for services.
USERS = '0, 61184-65519'
EVERYWHERE = '0.0.0.0'
LOOPBACK = '127.0.0.0/8'
UNPRIVILEGED = '/proc/sys/net/ipv4/ip_unprivileged_port_start'

NFT = '''#!/usr/sbin/nft -f
# What the daemon {name} at {local} needs, by the hosts file. Written by tsp-launch --firewall nft.{elsewhere}
table inet tsp
delete table inet tsp
table inet tsp {{
    chain input {{
        type filter hook input priority filter - 1; policy accept;
        iifname "lo" accept
        {place}udp dport {port} jump datagrams
    }}
    chain datagrams {{
{rules}        counter drop
    }}
    chain output {{
        type filter hook output priority filter - 1; policy accept;
        oifname "lo" udp dport {port} meta skuid != {{ {users} }} counter drop
    }}
}}'''

# What is said where the daemon's address isn't this machine's.
ELSEWHERE = '''
# ({host} is no address of this machine now. If it will be a tunnel's, have this written again then: the rules name the tunnel's interface.)'''

SYSTEMD = '''# What the daemon {name} at {local} needs, by the hosts file. Written by tsp-launch --firewall systemd, for tsp.service.d.
[Service]
IPAddressDeny=any
IPAddressAllow={allowed}'''
NO_CAPABILITY = '''
# (its port needs no privilege here)
AmbientCapabilities=
CapabilityBoundingSet='''


def asking_networks(text):
    """The networks of TSP_ASKERS: A.B.C.D or A.B.C.D/BITS, with spaces or commas between."""
    return [asking_network(word) for word in text.replace(',', ' ').split()]


def asking_network(word):
    """One of them."""
    try:
        network = ipaddress.IPv4Network(word, strict=False)
    except ValueError:
        raise Fault(f'TSP_ASKERS \'{word}\': an address A.B.C.D or a network A.B.C.D/BITS; names aren\'t looked up', usage.BAD_FILE) from None
    if network.prefixlen < 32 and word.split('/')[0] != str(network.network_address):
        raise Fault(f'TSP_ASKERS \'{word}\': an address in the network {network}, and neither a network nor one address', usage.BAD_FILE)
    return network


def by_number(addresses):
    """Each address once, in their order."""
    return sorted(set(addresses), key=lambda address: (ipaddress.IPv4Address(address.split(':')[0]), int(address.split(':')[1])))


def together(addresses, networks):
    """These addresses and networks, none of which has another one in it."""
    each = [*map(ipaddress.IPv4Network, addresses), *networks]
    return [str(network).replace('/32', '') for network in ipaddress.collapse_addresses(each)]


def networks(own, words):
    """The peers of each network, with the interface by which they come: that of the tunnel whose address the daemon has there, or the empty text."""
    lists, tunnel = [[]], tunnels.by_address()
    for word in words[5:]:
        if word == '+':
            lists.append([])
        else:
            lists[-1].append(word)
    # (with one address for all networks it stands once for each)
    names = [tunnel.get(address, '') for address in own] + [''] * len(lists)
    by_name = {}
    for name, peers in zip(names, lists):
        by_name.setdefault(name, []).extend(peers)
    return sorted(by_name.items())


def let_in(name, peers, askers):
    """The rules that let in peers, and questions, which come by this interface."""
    by = f'iifname "{name}" ' if name else ''
    pairs = ', '.join(' . '.join(peer.split(':')) for peer in by_number(peers))
    asking = ', '.join(together((peer.split(':')[0] for peer in peers), askers))
    return (f'        {by}ip saddr . udp sport {{ {pairs} }} counter accept\n' if pairs else '') \
        + (f'        {by}ip saddr {{ {asking} }} {ASKED} counter accept\n' if asking else '')


def nft(own, words, askers):
    """The table. (the networks of TSP_ASKERS come by any interface)"""
    (host, port), found = words[1].split(':'), networks(own, words)
    if not any(name == '' for name, _ in found):
        found.append(('', []))
    rules = ''.join(let_in(name, peers, [] if name else askers) for name, peers in found)
    return NFT.format(name=words[2], local=words[1], port=port, users=USERS, place='' if host == EVERYWHERE else f'ip daddr {host} ', rules=rules,
                      elsewhere='' if machine.has_address(host) else ELSEWHERE.format(host=host))


def name_servers():
    """The addresses of name servers, since names are looked up before the daemon starts."""
    try:
        with open('/etc/resolv.conf', encoding='utf-8', errors='replace') as file:
            lines = [line.split() for line in file]
    except OSError:
        return []
    return [line[1] for line in lines if len(line) > 1 and line[0] == 'nameserver']


def is_free(port):
    """Whether any user may bind a port."""
    try:
        with open(UNPRIVILEGED, encoding='ascii') as file:
            return port >= int(file.read())
    except OSError:
        return port >= 1024


def systemd(own, words, askers):
    """The drop-in. (what this machine asks its own daemon comes from the address that it asks)"""
    hosts = [*own, *(peer.split(':')[0] for peer in words[5:] if peer != '+')]
    allowed = ' '.join([LOOPBACK, *together(hosts, askers), *name_servers()])
    return SYSTEMD.format(name=words[2], local=words[1], allowed=allowed) + (NO_CAPABILITY if is_free(int(words[1].split(':')[1])) else '')


def main():
    form, own, *words = sys.argv[1:]
    # (what it says is said by the one that started it)
    sys.argv[0] = 'tsp-launch'
    askers = asking_networks(os.environ.get('TSP_ASKERS', ''))
    print(nft(own.split(), words, askers) if form == 'nft' else systemd(own.split(), words, askers))


usage.run(main)
