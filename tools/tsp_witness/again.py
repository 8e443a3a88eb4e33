"""A start of a daemon that runs once more: the program's own `serve`, to which tsp_again.c hands what the trace says, in place of a clock and a network.
It has as many turns as the trace, and as many peers as any daemon."""
import itertools
import os
import struct
import subprocess
import threading

from tsp_texts import program as programs
from tsp_texts.words import MOST_PEERS
from tsp_witness import Unusable
from tsp_witness.datagram import octets_of
from tsp_witness.journal import Entry

LIBRARY = 'tsp_again'
FLAGS = {'master': 'm', 'slave': 's', 'strict': 'x'}
# A record of tsp_again.c, and who may be in it besides a peer.
RECORD, NOBODY, STRANGER = struct.Struct('=QII'), 2**32 - 1, 2**32 - 2
# The daemon is asked for its trace by this datagram, at its start, if the trace that is there doesn't begin with that.
TRACE_ON = ('traceon', '0', 'tsp-witness')
MOST_WALL = 2**62
# What the daemon would read of its environment.
OWN_SETTINGS = ('TSP_RATE', 'TSP_COUNTER', 'TSP_PAGE')


def address(number):
    """A peer's address, as tsp_again.c gives it; that of peer 0 is the daemon's own."""
    return f'198.18.{number >> 8}.{number & 255}:1'


def can_judge(network, node):
    """Whether a daemon may have that many peers."""
    return len(network.peers[node]) <= MOST_PEERS + 1


class Again:
    """The run of one start. `before` of its turns are none of the trace's; so many posts are hidden, as are the turns before the trace."""
    before = 0

    def __init__(self, network, life, library):
        self.network, self.life, self.library, self.turns = network, life, library, life.turns
        self.hidden = 0 if any(act.words == ['trace', 'on'] for act in self.turns[0].acts) else 1

    def words(self):
        """The words of `serve`."""
        network, node = self.network, self.life.node
        peers = []
        for port in range(len(network.ports_of(node))):
            peers += ['+'] * (port > 0) + [address(number) for number, peer in network.peers[node].items() if number and peer.port == port]
        return ['serve', address(0), network.names[node], FLAGS[network.roles[network.names[node]]], str(len(self.turns) + self.hidden), *peers]

    def environment(self):
        """The environment, with the library and the wall clock."""
        wall = self.life.base if self.life.base is not None else self.life.residue()[0]
        kept = {name: value for name, value in os.environ.items() if name not in OWN_SETTINGS}
        return {**kept, 'LD_PRELOAD': self.library, 'AGAIN_WALL': str(min(max(wall, 0), MOST_WALL))}

    def records(self):
        """What the turns take, as the library reads it."""
        if self.hidden:
            yield record(0, STRANGER, octets_of(TRACE_ON))
        for turn in self.turns:
            took = turn.took()
            if took is None:
                yield record(turn.tick, NOBODY, b'')
                continue
            try:
                octets = octets_of(took.words[2:])
            except (ValueError, struct.error):
                raise Unusable(f'{turn.place}: "{" ".join(took.words[2:])}" is no datagram') from None
            yield record(turn.tick, STRANGER if took.words[1] == '-' else int(took.words[1]), octets)

    def answers(self, program):
        """What the daemon does in each turn, as texts."""
        script = b''.join(self.records())
        try:
            process = subprocess.Popen([program, *self.words()], stdin=subprocess.PIPE, stdout=subprocess.PIPE, stderr=subprocess.DEVNULL, env=self.environment())
        except OSError as fault:
            raise Unusable(f'{program}: {fault.strerror}') from fault
        feeder = threading.Thread(target=programs.feed, args=(process.stdin, script), daemon=True)
        feeder.start()
        try:
            yield from self.answered(program, process)
        finally:
            process.kill()
            process.stdout.close()
            feeder.join()
            process.wait()

    def answered(self, program, process):
        """The same of a daemon that runs."""
        told = itertools.groupby((line.decode('ascii', 'replace').rstrip('\n').partition(' ') for line in process.stdout), lambda line: line[0])
        number, texts = None, []
        for wanted in range(1 + self.hidden, len(self.turns) + self.hidden + 1):
            while told and (number is None or number < wanted):
                group = next(told, None)
                if group is None:
                    told = None
                    if process.wait():
                        raise Unusable(f'{program} serve ends with status {process.returncode}, in turn {wanted} of {len(self.turns) + self.hidden}')
                elif not group[0].isdigit():
                    yield [''.join(words) for words in group[1]]
                    return
                else:
                    number, texts = int(group[0]), [words[2].partition(' ')[2] for words in group[1]]
            yield texts if number == wanted else []

    def text(self, act, tick, posted):
        """An act as the daemon writes it behind the turn's number and the node, where so many datagrams were posted before."""
        words = act.words
        if words[0] == 'post':
            words = ['post', str(posted + self.hidden), *words[2:]]
        return f'{act.port} {tick} {" ".join(words)}'

    @staticmethod
    def entry(text):
        """A line of the daemon as an act; one that is none of its acts stays as it is."""
        words = text.split(' ')
        return Entry(int(words[0]), words[2:], False) if len(words) > 2 and words[0].isdigit() else Entry(0, words, False)


def record(tick, whom, octets):
    """A turn as the library reads it."""
    return RECORD.pack(tick, whom, len(octets)) + octets
