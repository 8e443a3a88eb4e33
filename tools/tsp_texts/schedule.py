"""Schedules: what a line may be. A line that isn't in the grammar has no value; hints.py says what is wrong with it.

Times and walls are microseconds. Lines are octets without their line feed.
"""
import re
from collections import namedtuple

LONGEST_LINE = 1024
MOST_OCTETS = 64 * 2**20
MOST_NODES = 64
MOST_NETS = 64
MOST_PORTS = 4
MOST_EVENTS = 200_000
MOST_DRIFT = 1000
FARTHEST = 10**15

# The title of each version, and whether its elections are strict.
TITLES = {b'tsp-schedule 1': False, b'tsp-schedule 2': True}

NUMBER = rb'(0|[1-9][0-9]*)'
SIGNED = rb'(0|-?[1-9][0-9]*)'
PEER = rb'(-|0|[1-9][0-9]*)'
DRIFT = re.compile(rb'drift ' + NUMBER)
NODE = re.compile(rb'node ([A-Za-z0-9._-]{1,255}) ' + SIGNED + b' ' + SIGNED + rb' ([ms])')
# (the last group that is there tells the kind of event)
EVENT = re.compile(rb'at ' + NUMBER + rb' (?:turn ' + NUMBER + b'|take ' + NUMBER + b'|boot ' + NUMBER + b' ' + NUMBER + b'|bytes ' + NUMBER +
                   rb'(?:/([1-9][0-9]*))? ' + PEER + rb' ([0-9a-fA-F]{2,600}))')
TURN, TAKE, BOOT = 2, 3, 5
NET = re.compile(rb'net((?: ' + NUMBER + rb')+)')


class Node(namedtuple('Node', 'name rate wall may')):
    """A node's line: its rate is in parts in a million, and its wall is that of true time 0."""
    __slots__ = ()


class Event(namedtuple('Event', 'kind at node datagram word peer port', defaults=(None, None, None, None, 0))):
    """An event; a take has the number of its datagram, any other the node that acts. `peer` and `port` are those of `bytes`."""
    __slots__ = ()


class Schedule(namedtuple('Schedule', 'strict drift nodes events nets', defaults=((),))):
    """A whole schedule. Events are numbered from 1, so the first stands at place 0."""
    __slots__ = ()

    def ports(self, node):
        """The networks that a node's ports are on."""
        return ports_of(self.nets, node)

    def port_on(self, node, net):
        """The port on which a node is on a network, or None."""
        return next((port for port, other in enumerate(self.ports(node)) if other is net), None)


def is_short(line):
    """Whether a line is no longer than any line of a grammar."""
    return len(line) <= LONGEST_LINE


def drift_of(line):
    """The drift that a line states, or None."""
    found = is_short(line) and DRIFT.fullmatch(line)
    return int(found[1]) if found and int(found[1]) <= MOST_DRIFT else None


def node_of(line, drift):
    """The node that a line states under this drift, or None."""
    found = is_short(line) and NODE.fullmatch(line)
    if not found or abs(int(found[2])) > drift or abs(int(found[3])) > FARTHEST:
        return None
    return Node(found[1].decode(), int(found[2]), int(found[3]), found[4] == b'm')


def net_of(line):
    """The nodes of the network that a line states, or None; whether there are such nodes isn't looked at."""
    found = is_short(line) and NET.fullmatch(line)
    numbers = [int(word) for word in found[1].split()] if found else []
    rises = all(low < high for low, high in zip(numbers, numbers[1:]))
    return numbers if numbers and rises and numbers[-1] < 2**32 else None


def ports_of(nets, node):
    """The networks of a node's ports; the one of all nodes is None."""
    return [net for net in nets if node in net] if nets else [None]


def takes_net(nodes, nets, net):
    """Whether a header of these nodes and networks takes one network more."""
    return len(nets) < MOST_NETS and net[-1] < len(nodes) and all(len(ports_of(nets + [net], node)) <= MOST_PORTS for node in net)


def is_whole(nodes, nets):
    """Whether a header may end: it has nodes, and each is on a network."""
    return bool(nodes) and all(ports_of(nets, node) for node in range(len(nodes)))


def event_of(line):
    """The event that a line states, or None."""
    found = EVENT.fullmatch(line) if len(line) <= LONGEST_LINE else None
    if not found:
        return None
    at, kind = int(found[1]), found.lastindex
    if at > FARTHEST:
        return None
    if kind == TURN:
        node = int(found[2])
        return Event('turn', at, node) if node < 2**32 else None
    if kind == TAKE:
        datagram = int(found[3])
        return Event('take', at, None, datagram) if datagram < 2**64 else None
    if kind == BOOT:
        node, word = int(found[4]), int(found[5])
        return Event('boot', at, node, None, word) if node < 2**32 and word < 2**64 else None
    return octets_of(at, *found.groups()[5:])


def octets_of(at, node, port, peer, digits):
    """The event of octets that come in at a time, or None."""
    node, port, peer = int(node), int(port or 0), None if peer == b'-' else int(peer)
    fits = node < 2**32 and port < 2**8 and (peer or 0) < 2**32 and len(digits) % 2 == 0
    return Event('bytes', at, node, peer=peer, port=port) if fits else None


def lines_of(text, begin=0):
    """The lines of a text from a place on, one after the other: each ends with a line feed, which the last may lack."""
    while begin < len(text):
        end = text.find(b'\n', begin)
        end = len(text) if end < 0 else end
        yield text[begin:end]
        begin = end + 1


def line_at(text, number):
    """A line of a text, counted from 1, or None where there are fewer."""
    begin = 0
    for _ in range(number - 1):
        begin = text.find(b'\n', begin) + 1
        if not begin:
            return None
    return next(lines_of(text, begin), None)
