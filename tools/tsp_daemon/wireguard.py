"""Prints a host's part of a tunnel of WireGuard between the hosts of the file, whose addresses are the tunnel's: `wireguard.py FORM FOLDER NAME`.

Standard input has a line for each host: network, line, name, address and role. A file of the folder has the name of a host: its public key, and its address in
the network beneath, of IPv4 or IPv6, with a port if that isn't the usual one. FORM says for which program it is; `keys` makes the private key of this host.
"""
import base64
import binascii
import ipaddress
import os
import re
import subprocess
import sys
from collections import namedtuple

sys.dont_write_bytecode = True
sys.path.insert(0, os.path.dirname(os.path.dirname(os.path.realpath(__file__))))
from tsp_daemon import usage  # noqa: E402
from tsp_texts import tool  # noqa: E402
from tsp_texts.tool import Fault  # noqa: E402

# The interface, its port, and its private key unless TSP_KEY says otherwise. systemd-networkd has a user of its own, who reads no folder of root's.
INTERFACE, PORT, KEY, KEY_OF_NETWORKD = 'tsp', 51820, '/etc/wireguard/tsp.key', '/etc/systemd/network/tsp.key'
MOST_OCTETS = 4096
NAME = re.compile(r'[A-Za-z0-9]([A-Za-z0-9.-]{0,252}[A-Za-z0-9])?')
# Whoever sends to the tunnel's address from outside of it isn't heard, since Linux takes what comes for an address on any interface.
TABLE = 'table inet tsp_tunnel'
CHAIN = ('{{ chain input {{ type filter hook input priority -5; iifname != {{ "{interface}", "lo" }} ip daddr {{ {own} }} counter drop; }}; }}')


class Peer(namedtuple('Peer', 'name key beneath addresses')):
    """Another host: its public key, its address beneath with its port, and its addresses in the tunnel."""
    __slots__ = ()


def is_key(word):
    """Whether a word is a key of WireGuard."""
    try:
        return len(word) == 44 and len(base64.b64decode(word, validate=True)) == 32
    except (binascii.Error, ValueError):
        return False


def beneath(word):
    """An address beneath with its port: A.B.C.D, A.B.C.D:PORT, an address of IPv6, one in brackets with or without a port, or a name with or without one."""
    host, port = word, str(PORT)
    found = re.fullmatch(r'\[([^]]+)\](?::([0-9]{1,5}))?', word) or re.fullmatch(r'([^:]+):([0-9]{1,5})', word)
    if found:
        host, port = found[1], found[2] or port
    if not 1 <= int(port) <= 65535:
        raise ValueError(word)
    try:
        address = ipaddress.ip_address(host)
    except ValueError:
        if not NAME.fullmatch(host) or host[-1].isdigit():
            raise
        return f'{host}:{port}'
    return f'[{address}]:{port}' if address.version == 6 else f'{address}:{port}'


def words_of(path):
    """The words of a key's file: a comment goes up to the end of its line."""
    octets = tool.read(path, MOST_OCTETS, usage.BAD_FILE)
    if len(octets) > MOST_OCTETS:
        raise Fault(f'{path}: it has more than {MOST_OCTETS} octets', usage.BAD_FILE)
    return [word for line in octets.decode('utf-8', 'replace').splitlines() for word in line.partition('#')[0].split()]


def peer_of(folder, name, addresses):
    """A peer, as its file in the folder has it."""
    path = os.path.join(folder, name)
    words = words_of(path)
    if len(words) != 2 or not is_key(words[0]):
        raise Fault(f'{path}: a public key of WireGuard belongs there, and the host\'s address in the network beneath', usage.BAD_FILE)
    try:
        return Peer(name, words[0], beneath(words[1]), addresses)
    except ValueError:
        raise Fault(f'{path}: \'{words[1]}\' is no address of a host: A.B.C.D, an address of IPv6 or a name, with a port as in [fd00::1]:{PORT}',
                    usage.BAD_FILE) from None


def network_of(name, lines):
    """This host's addresses in the tunnel, and those of each host that is in a network with it, in their order."""
    mine = {network for network, _, host, _, _ in lines if host == name}
    found = {}
    for network, _, host, address, _ in lines:
        if network in mine:
            addresses = found.setdefault(host, [])
            ip = address.partition(':')[0]
            if ip not in addresses:
                addresses.append(ip)
    return found.pop(name), found


def port_of(folder, name):
    """The port at which this host listens, as its own file has it; the usual one, if there is no file yet."""
    try:
        words = words_of(os.path.join(folder, name))
        return beneath(words[1]).rpartition(':')[2]
    except (Fault, IndexError, ValueError):
        return str(PORT)


def key_file():
    """The file of this host's private key."""
    return os.environ.get('TSP_KEY') or KEY


def wg_quick(name, own, peers, port):
    """The file of wg-quick(8)."""
    chain = CHAIN.format(interface='%i', own=', '.join(own))
    yield f'# The tunnel of {name}: /etc/wireguard/{INTERFACE}.conf, mode 0600. Written by tsp-launch --wireguard wg-quick.'
    yield '[Interface]'
    yield f'Address = {", ".join(f"{each}/32" for each in own)}'
    yield f'ListenPort = {port}'
    yield f'PostUp = wg set %i private-key {key_file()}'
    yield '# (whoever sends to these addresses from outside of the tunnel isn\'t heard)'
    yield f"PostUp = nft '{TABLE} {chain}'"
    yield f"PostDown = nft 'delete {TABLE}'"
    for peer in peers:
        yield from ('', '[Peer]', f'# {peer.name}', f'PublicKey = {peer.key}', f'AllowedIPs = {", ".join(f"{each}/32" for each in peer.addresses)}',
                    f'Endpoint = {peer.beneath}')


def netdev(name, _, peers, port):
    """The .netdev file of systemd-networkd."""
    yield f'# The tunnel of {name}: /etc/systemd/network/{INTERFACE}.netdev. Written by tsp-launch --wireguard netdev.'
    yield f'# The key: install -m 640 -g systemd-network {key_file()} {KEY_OF_NETWORKD}'
    yield from ('[NetDev]', f'Name={INTERFACE}', 'Kind=wireguard', '', '[WireGuard]', f'ListenPort={port}', f'PrivateKeyFile={KEY_OF_NETWORKD}')
    for peer in peers:
        yield from ('', '[WireGuardPeer]', f'# {peer.name}', f'PublicKey={peer.key}', f'AllowedIPs={",".join(f"{each}/32" for each in peer.addresses)}',
                    f'Endpoint={peer.beneath}')


def network(name, own, peers, _):
    """The .network file of systemd-networkd."""
    yield f'# The tunnel of {name}: /etc/systemd/network/{INTERFACE}.network. Written by tsp-launch --wireguard network; the rules of --wireguard nft belong beside it.'
    yield from ('[Match]', f'Name={INTERFACE}', '', '[Network]', *(f'Address={each}/32' for each in own))
    for peer in peers:
        for address in peer.addresses:
            yield from ('', '[Route]', f'# {peer.name}', f'Destination={address}/32', 'Scope=link')


def nft(name, own, *_):
    """The rule alone, for a tunnel that wg-quick doesn't make."""
    yield '#!/usr/sbin/nft -f'
    yield f'# Whoever sends to the tunnel\'s addresses of {name} from outside of the tunnel isn\'t heard. Written by tsp-launch --wireguard nft.'
    yield from (TABLE, f'delete {TABLE}', f'{TABLE} {CHAIN.format(interface=INTERFACE, own=", ".join(own))}')


def wg(*words, octets=b''):
    """What a command of wg(8) prints."""
    try:
        ran = subprocess.run(['wg', *words], input=octets, stdout=subprocess.PIPE, check=False)
    except OSError as fault:
        raise Fault('there is no wg, which keys are made by: Debian has it in wireguard-tools', usage.BAD_FILE) from fault
    if ran.returncode:
        raise Fault(f'wg {words[0]} ends with status {ran.returncode}', usage.BAD_FILE)
    return ran.stdout


def make_keys():
    """Makes the private key, unless it is there, which nobody but its owner can read; and gives the public one."""
    path = key_file()
    if os.path.lexists(path):
        key = tool.read(path, MOST_OCTETS, usage.BAD_FILE)
    else:
        key = wg('genkey')
        try:
            with open(os.open(path, os.O_WRONLY | os.O_CREAT | os.O_EXCL | os.O_CLOEXEC, 0o600), 'wb') as file:
                file.write(key)
        except OSError as fault:
            raise Fault(f'{path}: {fault.strerror}', usage.NOT_WRITTEN) from fault
    if not is_key(key.decode('ascii', 'replace').strip()):
        raise Fault(f'{path}: it has no key of WireGuard', usage.BAD_FILE)
    return wg('pubkey', octets=key).decode('ascii').strip()


def main():
    form, folder, name = sys.argv[1:]
    # (what it says is said by the one that started it)
    sys.argv[0] = 'tsp-launch'
    if form == 'keys':
        print(make_keys())
        return
    own, others = network_of(name, [line.split() for line in sys.stdin])
    peers = [peer_of(folder, other, addresses) for other, addresses in others.items()] if form != 'nft' else []
    makers = {'wg-quick': wg_quick, 'netdev': netdev, 'network': network, 'nft': nft}
    print('\n'.join(makers[form](name, own, peers, port_of(folder, name))))


usage.run(main)
