#!/usr/bin/env python3
"""Counts what one datagram of a stranger, or with a peer's address, makes a network send: `strangers.py PROGRAM`, by replays in which each datagram arrives.

docs/OPERATOR.md has these figures, and is wanted to.
"""
import os
import subprocess
import sys

HERE = os.path.dirname(os.path.realpath(__file__))
sys.dont_write_bytecode = True
sys.path.insert(0, os.path.dirname(HERE))
from tsp_witness.datagram import octets_of  # noqa: E402

PROGRAM = sys.argv[1]
OPERATOR = os.path.join(os.path.dirname(os.path.dirname(HERE)), 'docs', 'OPERATOR.md')
# Microseconds: the silence after a boot, when hosts may stand, how long a candidate waits and is backed, and how long a datagram is on its way.
QUIET, STANDS, WINDOW, HOLDS, WAY = 80_000_000, 400_000_000, 5_000_000, 61_000_000, 100
MOST_WAYS, SHORT, LONG = 40, 'b', 'b' * 64


def shortest(*words):
    """The octets of a message, without those behind its name's end."""
    octets = octets_of(words)
    return octets[:12] + octets[12:].rstrip(b'\0') + b'\0'


def wanted(is_so, text):
    """Ends where something isn't so."""
    if not is_so:
        sys.exit(f'strangers: {text}')


class Network:
    """Nodes of a replay, which booted and were silent; `nets` are the numbers of those that each network joins."""

    def __init__(self, names, nets=()):
        self.head = ['tsp-schedule 1', 'drift 0', *(f'node {name} 0 0 m' for name in names), *(f'net {" ".join(map(str, net))}' for net in nets)]
        self.count, self.now, self.done = len(names), QUIET, 0
        self.events = [f'at 0 boot {number} 7' for number in range(self.count)] + [f'at {QUIET} turn {number}' for number in range(self.count)]
        self.arrives()

    def posts(self):
        """The words of all datagrams that were posted, by their numbers."""
        text = '\n'.join([*self.head, *self.events, 'end', ''])
        ran = subprocess.run([PROGRAM, 'replay'], input=text.encode(), stdout=subprocess.PIPE, stderr=subprocess.PIPE, check=False)
        wanted(ran.returncode == 0, f'a replay ends with {ran.returncode}: {ran.stdout[-200:]} {ran.stderr}')
        return [line.split()[7:] for line in ran.stdout.decode().splitlines() if line.split()[4] == 'post']

    def arrives(self):
        """All that is sent arrives, and what is sent for that too: the octets of these datagrams."""
        before = self.done
        for _ in range(MOST_WAYS):
            posts = self.posts()
            if len(posts) == self.done:
                return [octets_of(words) for words in posts[before:]]
            self.now += WAY
            self.events += [f'at {self.now} take {place}' for place in range(self.done, len(posts))]
            self.done = len(posts)
        wanted(False, f'after {MOST_WAYS} ways of datagrams more are sent')
        return None

    def brings(self, to, sender, octets):
        """What comes of these octets at a node: the octets of all datagrams."""
        self.now += WAY
        self.events.append(f'at {self.now} bytes {to} {sender} {octets.hex()}')
        return self.arrives()

    def leads(self, number):
        """A node is elected, and all follow it."""
        self.now = max(self.now, STANDS)
        self.brings(number, '-', shortest('test', '1', ''))
        self.now += WINDOW
        self.events.append(f'at {self.now} turn {number}')
        self.arrives()
        # (whoever backed a candidate doesn't stand for a minute)
        self.now += HOLDS


def hosts(count):
    return [f'h{number}' for number in range(count)]


def loops(count):
    """The datagrams that one LOOP with a peer's address brings where two gateways join two networks of so many hosts each, the gateways among them."""
    names = ['g', 'k', *hosts(2 * (count - 2))]
    nets = [[0, 1, *range(2, count)], [0, 1, *range(count, 2 * count - 2)]]
    return Network(names, nets).brings(0, 2, shortest('loop', '1', '10', 'x'))


def answers(name):
    """The answer to a stranger's question for the master, which has this name."""
    network = Network(['a', name])
    network.leads(1)
    return network.brings(0, '-', shortest('msite', '1', ''))


def elections(count):
    """What one TEST of a stranger brings at a host that follows a master."""
    network = Network(hosts(count))
    network.leads(0)
    return network.brings(1, '-', shortest('test', '1', ''))


def dates(count):
    """What one date of a stranger brings at a host that follows a master."""
    network = Network(hosts(count))
    network.leads(0)
    return network.brings(1, '-', shortest('setdate', '1', '1700000000000000', ''))


def row(what, octets, found):
    """The beginning of a row of the table, by what came where this was sent, in words."""
    return f'| {what} | {len(octets)} | {found} |'


def many(brings):
    """How many datagrams come on networks of eight and of 32 hosts, each of 76 octets."""
    counts = []
    for hosts_count in (8, 32):
        found = brings(hosts_count)
        wanted({len(octets) for octets in found} == {76}, f'{brings.__name__} brings datagrams of other sizes')
        counts.append(len(found))
    return counts


def main():
    question = shortest('msite', '1', '')
    sizes = [[len(octets) for octets in answers(name)] for name in (SHORT, LONG)]
    wanted(sizes == [[76], [268]], f'a question for the master brings {sizes}')
    rows = [row('MSITE, who is master', question, 'one of 76; of 268 if the master\'s name has more than 63 octets')]
    for what, octets, brings, each in (('TEST, stand for election', shortest('test', '1', ''), elections, '2n + 1'),
                                       ('SETDATE, the date', shortest('setdate', '1', '1', ''), dates, '4n - 1'),
                                       ('LOOP with a peer\'s address, at a gateway that isn\'t the only one', shortest('loop', '1', '10', 'x'), loops, '10(n - 1)')):
        eight, many_more = many(brings)
        rows.append(row(what, octets, f'{each} of 76: {eight} at 8 hosts, {many_more} at 32'))
    with open(OPERATOR, encoding='utf-8') as file:
        lines = file.read().splitlines()
    for text in rows:
        wanted(any(line.startswith(text) for line in lines), f'docs/OPERATOR.md has no row {text}')
    print('; '.join(text.strip('| ').replace(' | ', ', ') for text in rows))


main()
