#!/usr/bin/env python3
"""Finds hosts files that can't work, for tsp-launch: `lint.py FILE NAME`, where NAME is this machine's, or empty. Standard input has a line for each
host of the file: network, line, name, address and role. A fault is a line on standard error; the status is 78 where there is one, else 0.
"""
import os
import sys
from collections import namedtuple

sys.dont_write_bytecode = True
sys.path.insert(0, os.path.dirname(os.path.dirname(os.path.realpath(__file__))))
from tsp_daemon import sockets, usage  # noqa: E402
from tsp_texts import tool  # noqa: E402


class Line(namedtuple('Line', 'network number name address role')):
    """A host's line in one network of the file."""
    __slots__ = ()

    @property
    def ip(self):
        """The address without its port."""
        return self.address.partition(':')[0]

    @property
    def port(self):
        """The port."""
        return self.address.partition(':')[2]


class Faults:
    """The faults of a file, each with the line that it is about."""

    def __init__(self, lines, own):
        self.lines, self.own = lines, own
        self.networks, self.by_name = {}, {}
        for line in lines:
            self.networks.setdefault(line.network, []).append(line)
            self.by_name.setdefault(line.name, []).append(line)

    def leaderless(self):
        """Networks in which nobody may lead."""
        for number, lines in self.networks.items():
            if all(line.role == 'slave' for line in lines):
                where = f'network {number}' if len(self.networks) > 1 else 'the network'
                yield lines[0].number, f'no host of {where} may lead: each is `slave`'

    def rivals(self):
        """Hosts that may lead a network which a gateway is to lead by the clock of an earlier one."""
        gateways = {name for name, lines in self.by_name.items() if len(lines) > 1}
        for number, lines in self.networks.items():
            leading = [line.name for line in lines if line.name in gateways and self.by_name[line.name][0].network < number]
            for line in lines:
                if leading and line.name not in leading and line.role != 'slave':
                    yield line.number, f'{line.name} may lead network {number} too, which {leading[0]} is to lead by the clock of an earlier one: `slave` belongs here'

    def strange(self):
        """This machine's own addresses that aren't this machine's."""
        for line in self.by_name.get(self.own, ()):
            why = sockets.why_not_bound(f'{line.ip}:0')
            if why:
                yield line.number, f'{line.name} is this machine\'s name, and {line.ip} isn\'t its address: {why}'

    def beside(self):
        """Gateways that listen at all addresses of their machine, and others there with the same port."""
        for name, lines in self.by_name.items():
            if len({line.address for line in lines}) < 2:
                continue
            for other in self.lines:
                if other.name != name and other.port == lines[0].port and self.is_beside(name, lines, other):
                    yield other.number, f'{other.name} is on the machine of {name}, which listens at all of its addresses with port {other.port}: ' \
                        'another port belongs here, or one address for the gateway'

    def is_beside(self, name, lines, other):
        """Whether a host is on a gateway's machine, as far as that can be seen."""
        is_here = name == self.own and sockets.why_not_bound(f'{other.ip}:0') is None
        return is_here or any(line.ip == other.ip or {line.ip[:4], other.ip[:4]} == {'127.'} for line in lines)

    def all(self):
        """All faults in the order of the lines."""
        return sorted({*self.leaderless(), *self.rivals(), *self.strange(), *self.beside()})


def main():
    file, own = sys.argv[1:]
    # (what it says is said by the one that started it)
    sys.argv[0] = 'tsp-launch'
    words = [line.split(' ') for line in sys.stdin.read().splitlines()]
    found = Faults([Line(int(network), int(number), *rest) for network, number, *rest in words], own).all()
    for number, text in found:
        tool.say(f'{file}:{number}: {text}')
    return usage.BAD_FILE if found else usage.WELL


usage.run(main)
