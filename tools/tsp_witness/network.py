"""The network that the traces are of: its hosts, their roles, and by which numbers they know each other."""
import re
from collections import namedtuple

from tsp_texts import schedule, tool
from tsp_texts.words import MOST_PEERS
from tsp_witness import Unusable

NAME = re.compile('[A-Za-z0-9._-]{1,255}')
# As many as tsp-launch takes.
MOST_OCTETS = 2 * 2**20
# The role of a host in the hosts file, and its flag in a schedule.
FLAGS = {'master': 'm', 'slave': 's', 'strict': 'm'}


class Peer(namedtuple('Peer', 'node port')):
    """Whom a daemon knows by a number: a node, on one of the daemon's ports."""
    __slots__ = ()


class ByNode(dict):
    """What is found of a node where it is first asked for."""

    def __init__(self, find):
        super().__init__()
        self.find = find

    def __missing__(self, node):
        self[node] = self.find(node)
        return self[node]


class Network:
    """The hosts as nodes, numbered so that they ascend in each network, and each daemon's peers by their numbers."""

    def __init__(self, names, roles, nets):
        self.names, self.roles, self.flags = names, roles, [FLAGS[roles[name]] for name in names]
        self.strict = 'strict' in roles.values()
        self.number = {name: node for node, name in enumerate(names)}
        self.nets = [[self.number[name] for name in net] for net in nets]
        self.ports = [[] for _ in names]
        for place, net in enumerate(self.nets):
            for node in net:
                self.ports[node].append(place)
        self.peers = ByNode(self.peers_of)
        self.known_as = ByNode(lambda node: {(peer.node, peer.port): number for number, peer in self.peers[node].items()})

    def ports_of(self, node):
        """The networks of a node's ports, by their numbers."""
        return self.ports[node]

    def peers_of(self, node):
        """A daemon's peers, which are numbered from 1 on over all its ports."""
        peers = {0: Peer(node, 0)}
        for port, net in enumerate(self.ports_of(node)):
            for other in self.nets[net]:
                if other != node:
                    peers[len(peers)] = Peer(other, port)
        return peers

    def header(self, drift, rates, walls):
        """The lines of a schedule up to its first event."""
        lines = ['tsp-schedule 2' if self.strict else 'tsp-schedule 1', f'drift {drift}'] + ['strict'] * self.strict
        lines += [f'node {name} {rates[node]} {walls[node]} {self.flags[node]}' for node, name in enumerate(self.names)]
        if len(self.nets) > 1:
            lines += ['net ' + ' '.join(map(str, net)) for net in self.nets]
        return lines


def read(path):
    """The network that a hosts file tells of. Addresses aren't looked at: a trace has numbers alone."""
    octets = tool.read(path, MOST_OCTETS, 3)
    if len(octets) > MOST_OCTETS:
        raise Unusable(f'{path}: it has more than {MOST_OCTETS} octets')
    try:
        return network_of(octets.decode('ascii').splitlines(), path)
    except UnicodeDecodeError:
        raise Unusable(f'{path}: a hosts file has letters of ASCII alone') from None


def network_of(lines, path):
    """The network of a hosts file's lines."""
    nets, roles = [[]], {}
    for number, line in enumerate(lines, 1):
        words = line.partition('#')[0].split()
        if words == ['+']:
            nets.append([])
        elif words:
            if len(words) != 3 or not NAME.fullmatch(words[0]) or words[2] not in FLAGS:
                raise Unusable(f'{path}:{number}: NAME ADDRESS[:PORT] master, slave or strict; not \'{" ".join(words)}\'')
            if roles.setdefault(words[0], words[2]) != words[2] or words[0] in nets[-1]:
                raise Unusable(f'{path}:{number}: {words[0]} stands in this network already, or with another role in an earlier one')
            nets[-1].append(words[0])
    return checked(Network(in_order(nets, path), roles, nets), path)


def in_order(nets, path):
    """All hosts, in an order that is each network's own."""
    if not all(nets):
        raise Unusable(f'{path}: a network without a host')
    later = {}
    for net in nets:
        for name, behind in zip(net, net[1:] + [None]):
            later.setdefault(name, set()).update({behind} - {None})
    ordered = []
    while later:
        first = next((name for name in later if not any(name in behind for behind in later.values())), None)
        if first is None:
            raise Unusable(f'{path}: {", ".join(sorted(later))} stand in one order in one network and in another in another')
        ordered.append(first)
        del later[first]
    return ordered


def checked(network, path):
    """A network that a schedule can tell of."""
    if any(len(net) > MOST_PEERS + 1 for net in network.nets):
        raise Unusable(f'{path}: more than {MOST_PEERS + 1} hosts in a network, and a daemon has at most {MOST_PEERS} peers')
    if network.strict and 'master' in network.roles.values():
        raise Unusable(f'{path}: master and strict in one file: a schedule\'s elections are all strict, or none is')
    for node, name in enumerate(network.names):
        if len(network.ports_of(node)) > schedule.MOST_PORTS:
            raise Unusable(f'{path}: {name} stands in more than {schedule.MOST_PORTS} networks')
    return network
