"""A network of daemons whose counters wander, as traces: `wander.run(PROGRAM, FOLDER, Plan(..))`.

Each start of a daemon is a `replay` of its own, by its own ticks. A counter's rate changes at random times, up to the drift, with each
start there is another one, and another wall clock. The supervisors' questions are left out as they leave them out.
"""
import heapq
import os
import random
import subprocess
from collections import namedtuple

from tsp_supervise import stamps
from tsp_texts import grammar, schedule
from tsp_witness.datagram import octets_of

MILLION, BILLION, START = 10**6, 10**9, 1_800_000_000_000_000
ORIGIN = START - schedule.FARTHEST + 10**13
MARK, MARKED = '00', 'took - refused short'
REPEATED, RETRY = ('adjtime', 'settime', 'election', 'conflict', 'quit'), MILLION
TRACE_ON, ASKED = octets_of(('traceon', '1', 'tsp-launch')).hex(), 30 * MILLION
# A counter keeps a rate for so many seconds; a turn comes so much late, a datagram is so long on its way, and hosts start so far apart, in microseconds.
STRETCH, LATE, WAY, APART = (20, 3000), 1500, (60, 300), 5 * MILLION


class Plan(namedtuple('Plan', 'hosts seconds drift seed restarts loss beyond', defaults=(0, 0.01, None))):
    """How many hosts there are, for how long, how far their counters wander in parts in a million, how often a host is started again; and which
    host's counter goes three times as far, if one does."""
    __slots__ = ()


class Counter:
    """What a host counts from a start on."""

    def __init__(self, chance, begin, drift):
        self.chance, self.drift = chance, drift * 1000
        self.pieces = [(begin, 0, self.rate())]

    def rate(self):
        """A rate in parts in 10^9."""
        return self.chance.randint(-self.drift, self.drift)

    def piece(self, holds):
        """The last piece for which something holds, as far as the counter has come."""
        while holds(*self.pieces[-1][:2]):
            at, count, rate = self.pieces[-1]
            length = self.chance.randint(*STRETCH) * MILLION
            self.pieces.append((at + length, count + length * (BILLION + rate), self.rate()))
        return next(piece for piece in reversed(self.pieces) if holds(*piece[:2]))

    def tick(self, time):
        """What it shows at a true time."""
        at, count, rate = self.piece(lambda begin, _: begin <= time)
        return (count + (time - at) * (BILLION + rate)) // BILLION

    def when(self, tick):
        """The first true time at which it shows a tick."""
        at, count, rate = self.piece(lambda _, before: before <= tick * BILLION)
        return at - (count - tick * BILLION) // (BILLION + rate)


class Start:
    """A start of a daemon: a replay that goes on, and what it writes."""

    def __init__(self, net, node, now):
        self.net, self.node, self.turns, self.held, self.left_out = net, node, 0, b'', 0
        far = net.plan.drift * (3 if node == net.plan.beyond else 1)
        self.counter = Counter(net.chance, now, far)
        self.base = START + now + net.chance.randint(-APART, APART)
        self.process = subprocess.Popen([net.program, 'replay'], stdin=subprocess.PIPE, stdout=subprocess.PIPE, bufsize=0)
        lines = ['tsp-schedule 1', 'drift 0']
        lines += [f'node {name} 0 {self.base - ORIGIN if number == node else 0} {flag}' for number, (name, flag) in enumerate(zip(net.names, net.flags))]
        self.process.stdin.write('\n'.join([*lines, '']).encode())
        self.file = open(os.path.join(net.folder, f'{net.names[node]}-{net.started:03}.trace'), 'wb')
        self.act(f'boot {node} {self.base}', 0)

    def act(self, words, tick):
        """An event at a tick, and its acts."""
        at = f'at {ORIGIN + tick}'
        self.process.stdin.write(f'{at} {words}\n{at} bytes {self.node} - {MARK}\n'.encode())
        told = b''
        while MARKED.encode() not in told:
            more = os.read(self.process.stdout.fileno(), 1 << 16)
            if not more:
                raise SystemExit(f'the replay ended at {words}: {told}')
            told += more
        return [line.text.split(' ') for line in map(grammar.line_of, told.decode().splitlines()[:-1])]

    def turn(self, words, now):
        """A turn: what is to be looked at later, and what is posted."""
        self.turns += 1
        tick = self.counter.tick(now)
        acts = self.act(words, tick)
        for act in acts:
            self.write(tick, act)
        if self.net.chance.random() < 0.3:
            self.flush()
        return acts

    def write(self, tick, act):
        """Writes an act in the daemon's own numbers."""
        words, place = list(act), grammar.place_of_peer(act)
        if place is not None:
            words[place] = str(self.peer(int(words[place])))
        if words[0] == 'arm':
            words[2] = str(int(words[2]) - ORIGIN)
        self.held += f'{self.turns} 0 0 {tick} {" ".join(words)}\n'.encode()

    def flush(self):
        """Hands on what was held, as a supervisor does."""
        kept, count = stamps.left_out(self.held)
        self.left_out, self.held = self.left_out + count, b''
        if kept:
            self.file.write((b'... %d lines of supervisors left out\n' % self.left_out if self.left_out else b'') + kept)
            self.left_out = 0

    def peer(self, node):
        """A node as the daemon knows it."""
        return 0 if node == self.node else node + (node < self.node)

    def end(self):
        """The daemon is killed."""
        self.flush()
        self.file.close()
        self.process.kill()
        self.process.wait()
        self.process.stdout.close()
        self.process.stdin.close()


class Net:
    """The hosts and what is planned, in the order of true time."""

    def __init__(self, program, folder, plan):
        self.program, self.folder, self.plan, self.chance = program, folder, plan, random.Random(plan.seed)
        self.names, self.starts, self.started = [f'h{number:02}' for number in range(plan.hosts)], {}, 0
        self.flags = 'm' * (plan.hosts - 1) + 's'
        self.planned, self.count, self.turns = [], 0, 0

    def later(self, at, node, what, start=None):
        """Plans something."""
        self.count += 1
        heapq.heappush(self.planned, (at, self.count, node, what, start))

    def go(self):
        """All of it."""
        os.makedirs(self.folder)
        with open(os.path.join(self.folder, 'hosts'), 'w', encoding='ascii') as file:
            roles = {'m': 'master', 's': 'slave'}
            file.writelines(f'{name} 192.0.2.{number + 1} {roles[self.flags[number]]}\n' for number, name in enumerate(self.names))
        for node in range(len(self.names)):
            self.later(self.chance.randint(0, MILLION), node, 'start')
        for _ in range(self.plan.restarts):
            self.later(self.chance.randint(MILLION, self.plan.seconds * MILLION), self.chance.randrange(len(self.names)), 'start')
        while self.planned and self.planned[0][0] < self.plan.seconds * MILLION:
            now, _, node, what, start = heapq.heappop(self.planned)
            if what == 'start':
                self.start(node, now)
            elif start in (None, self.starts.get(node)) and node in self.starts:
                self.turn(self.starts[node], what, now)
        for start in self.starts.values():
            start.end()

    def start(self, node, now):
        """A host's daemon is killed, and started."""
        if node in self.starts:
            self.starts[node].end()
        self.started += 1
        start = self.starts[node] = Start(self, node, now)
        self.later(now + self.chance.randint(1000, 50_000), node, f'bytes {node} - {TRACE_ON}', start)
        self.later(start.counter.when(80 * MILLION) + self.chance.randint(0, LATE), node, f'turn {node}', start)
        self.later(now + self.chance.randint(MILLION, ASKED), node, 'ask', start)

    def turn(self, start, what, now):
        """A turn of a daemon, and what comes of it."""
        if what == 'ask':
            octets = octets_of(('request', str(stamps.WORD), str(self.chance.getrandbits(62))))
            self.later(now + self.chance.randint(MILLION, ASKED), start.node, 'ask', start)
            what = f'bytes {start.node} - {octets.hex()}'
        self.turns += 1
        for act in start.turn(what, now):
            if act[0] == 'arm':
                self.later(max(now, start.counter.when(int(act[2]) - ORIGIN)) + self.chance.randint(0, LATE), start.node, f'turn {start.node}', start)
            elif act[0] == 'post' and act[2] != '-':
                self.carry(start, act, now)

    def carry(self, start, act, now):
        """Carries a datagram, which may be lost, and has the daemon look whether it is to be sent again."""
        if act[3] in REPEATED:
            self.later(start.counter.when(start.counter.tick(now) + RETRY) + self.chance.randint(0, LATE), start.node, f'turn {start.node}', start)
        if self.chance.random() >= self.plan.loss:
            node = int(act[2])
            self.later(now + self.chance.randint(*WAY), node, f'bytes {node} {start.node} {octets_of(act[3:]).hex()}')


def run(program, folder, plan):
    """Runs the network, whose traces and hosts file are then in the folder; and says how many turns there were."""
    net = Net(program, folder, plan)
    net.go()
    return net.turns
