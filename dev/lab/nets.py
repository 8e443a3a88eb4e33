"""Random networks that keep the premises of the laws of progress, each a replay that goes on."""
import heapq
import random
import subprocess

from tsp_daemon import usage
from tsp_texts import grammar, progress
from tsp_texts.tool import Fault
from tsp_witness.datagram import octets_of

MILLION = 10**6
WALL, SPREAD, ELECT_MIN, DRIFT = 900_000_000_000_000, 300 * MILLION, 300 * MILLION, 100
# How long a network is looked at, and the mark behind each event.
LAST, MARK = 6000 * MILLION, 'took - refused short'
# What a node hears, besides its own boot.
HEARD = ('adjtime', 'settime', 'election', 'masterup', 'masterack', 'quit', 'refuse', 'test', 'loop')


class Node:
    """A node: its counter, what is known of its looks, and when it last heard something."""

    def __init__(self, chance, number):
        self.rate, self.looks = chance.randint(-DRIFT, DRIFT), progress.Looks(str(number))
        # (delays are as short or as long as may be, or any)
        self.word = WALL + chance.choice((0, SPREAD - 1, chance.randrange(SPREAD)))
        self.heard, self.is_fresh, self.alone = 0, True, {}

    def tick(self, at):
        """What it counts at a true time."""
        return at + at * self.rate // MILLION

    def when(self, tick):
        """The last true time at which it shows at most this tick."""
        at = tick * MILLION // (MILLION + self.rate) + 1
        while self.tick(at) > tick:
            at -= 1
        return at

    def start(self, at):
        """It boots, which counts as hearing something."""
        self.heard, self.is_fresh = self.tick(at), True

    def act(self, event, tick, act):
        """An act of it."""
        self.looks.act(event, tick, 0, act)
        if act[0] == 'took' and act[2] in HEARD:
            self.heard, self.is_fresh = tick, False
        if act[:2] == ['become', 'candidate']:
            self.note('stands', tick)
        if act[:2] == ['become', 'master']:
            self.note('leads', tick)
            if self.is_fresh:
                self.note('fresh', tick)

    def note(self, what, tick):
        """It stood or led, so long after it heard something."""
        self.alone[what] = max(self.alone.get(what, 0), tick - self.heard)


class Net:
    """A network, as a replay that goes on. Up to the time `rough` nodes boot, datagrams are lost and messages come from outside."""
    rough = LAST

    def __init__(self, asked, named, seed):
        self.chance, self.late, self.long = random.Random(seed), round(asked.late * MILLION), round(asked.long * MILLION)
        self.nodes = self.members()
        self.loss, self.manner = self.chance.choice((0, 0, 0.3)), self.chance.choice(('late', 'late', 'chance', 'prompt'))
        self.planned, self.count, self.event = [], 0, 0
        try:
            self.process = subprocess.Popen([named, 'replay'], stdin=subprocess.PIPE, stdout=subprocess.PIPE, stderr=subprocess.DEVNULL)
        except OSError as fault:
            raise Fault(f'{named}: {fault.strerror}', usage.NO_PROGRAM) from fault
        self.write('tsp-schedule 1', f'drift {DRIFT}', *(f'node n{number} {node.rate} {WALL} m' for number, node in enumerate(self.nodes)))

    def members(self):
        """Its nodes."""
        return [Node(self.chance, number) for number in range(self.chance.choice((1, 1, 2, 3)))]

    def write(self, *lines):
        """Writes lines of the schedule."""
        self.process.stdin.write(''.join(f'{line}\n' for line in lines).encode())
        self.process.stdin.flush()

    def plan(self, at, node, what):
        """Plans an event."""
        self.count += 1
        heapq.heappush(self.planned, (at, self.count, node, what))

    def look(self, number, due, now):
        """Plans a look at something that is due, at most so late."""
        late = {'late': self.late, 'chance': self.chance.randint(0, self.late), 'prompt': 0}[self.manner]
        self.plan(max(now, self.nodes[number].when(due + late)), number, f'turn {number}')

    def go(self):
        """All of it."""
        for number, node in enumerate(self.nodes):
            self.plan(self.chance.randint(0, 3) * MILLION, number, f'boot {number} {node.word}')
            if self.chance.random() < 0.3:
                self.plan(self.chance.randrange(3 * MILLION, self.rough), number, f'boot {number} {node.word + 1}')
        while self.planned and self.planned[0][0] < LAST:
            at, _, number, what = heapq.heappop(self.planned)
            self.step(at, number, what)
        self.process.kill()
        self.process.wait()

    def step(self, at, number, what):
        """An event, and what comes of it."""
        self.event += 1
        node = self.nodes[number]
        if what.startswith('boot'):
            node.start(at)
        self.write(f'at {at} {what}', f'at {at} bytes {number} - 00')
        for octets in self.process.stdout:
            line = grammar.line_of(octets.decode().rstrip('\n'))
            if line is None:
                raise Fault(f'{what}: {octets.decode()}', usage.NOT_WELL)
            if line.text == MARK:
                return
            act = line.text.split(' ')
            node.act(self.event, line.tick, act)
            self.follow(at, number, line.tick, act)

    def is_lost(self, at):
        """Whether a datagram that is posted then is lost."""
        return at < self.rough and self.chance.random() < self.loss

    def follow(self, at, number, tick, act):
        """Plans what comes of an act."""
        if act[0] == 'arm':
            self.look(number, int(act[2]), at)
            if act[1] == 'elect' and self.chance.random() < 0.2:
                # (a QUIT of less than ELECT_MIN before keeps it from standing)
                self.stray(number, self.nodes[number].when(int(act[2]) - ELECT_MIN) + MILLION + self.late, at, 'quit')
            elif self.chance.random() < 0.02:
                self.stray(number, at + self.chance.randrange(300 * MILLION), at, 'test')
        elif act[0] == 'post' and act[2] != '-':
            if act[3] in progress.NUMBERED:
                for more in (1, 2, 3):
                    self.look(number, tick + more * MILLION, at)
            if not self.is_lost(at):
                self.plan(at + self.chance.choice((self.long, self.chance.randint(0, self.long))), int(act[2]), f'take {act[1]}')

    def stray(self, number, at, now, kind):
        """A message that no node posted."""
        peer = next((other for other in range(len(self.nodes)) if other != number), None)
        if peer is not None and now < at < self.rough:
            self.plan(at, number, f'bytes {number} {peer} {octets_of([kind, "1", f"n{peer}"]).hex()}')
