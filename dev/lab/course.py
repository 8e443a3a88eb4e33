"""Hours of a network with faults that are drawn at random, in pieces that are witnessed each.

A piece begins with hosts whose wall clocks and drifts are drawn anew, and ends before its traces have more lines than an
audit takes, or when the hours are over. While a daemon runs its host's wall clock is set; it is set back before the next start
of the daemon, since a schedule has one wall clock for each host.
"""
import collections
import os
import random
import signal
from typing import NamedTuple

from lab import process
from lab.hosts import START, Daemon, Unlike
from lab.trial import say
from lab.witness import witness

# What an audit takes is 20,000 lines; a minute brings some hundreds at the most.
MOST_LINES = 18_000
# The greatest drift, in parts in a million, and by how much wall clocks are apart, in microseconds.
DRIFT, APART = 100, 10_000_000
# How long a time of one sort of weather lasts, in seconds of fast time.
WEATHER = (60, 600)
# How long after its start a host's wall clock is set, in seconds of fast time.
STEPS = (30, 3600)
LOSS, LATE, SPOILED = 0.3, 10_000_000, 0.02
HOUR = 3600
KINDS = ('plain', 'strict', 'gateways')


class Course:
    """The hours, piece by piece, and what came of them."""

    def __init__(self, given, lab_for, folder):
        self.given, self.lab_for, self.folder = given, lab_for, folder
        self.chance = random.Random(given.seed)
        self.sums, self.lives = {}, []

    def add(self, **counts):
        """Adds to what is counted over all pieces."""
        for name, count in counts.items():
            self.sums[name] = self.sums.get(name, 0) + count

    def kind(self, number):
        """What sort of network a piece has: that which was asked for, or one after the other."""
        if self.given.strict or self.given.gateway:
            return 'gateways' if self.given.gateway else 'strict'
        return KINDS[(number - 1) % len(KINDS)]

    def nets(self, kind):
        """Daemons with new wall clocks and drifts, and who is in which network."""
        may = 'x' if self.given.strict or kind == 'strict' else 'm'
        names = [chr(ord('a') + number) for number in range(self.given.hosts)]
        daemons = [Daemon(name, 's' if name == names[-1] else may, self.chance.randint(-APART, APART), -self.chance.randint(0, DRIFT)) for name in names]
        if kind != 'gateways':
            return [daemons]
        # (two gateways join the same two networks, so that what goes around comes back)
        half = len(daemons) // 2
        both = daemons[half - 1:half + 1]
        return [daemons[:half + 1], both + daemons[half + 1:]]

    def whole(self):
        """All pieces, and then what came of them, also where the run is ended before."""
        try:
            self.pieces()
        finally:
            self.tell()
        if self.sums.get('failed'):
            raise Unlike(f'{self.sums["failed"]} pieces aren\'t as the rules say')

    def pieces(self):
        """One piece after the other."""
        left, number = self.given.hours * HOUR, 0
        while left > 0:
            number += 1
            folder = os.path.join(self.folder, f'piece-{number}')
            os.makedirs(folder)
            kind = self.kind(number)
            lab = self.lab_for(self.nets(kind), folder, seed=self.given.seed + number, capture=False)
            # (where octets are changed an audit asks less)
            piece = Piece(lab, self.chance, left, SPOILED if number % 4 == 0 else 0)
            try:
                piece.whole()
            finally:
                lab.close()
            left -= lab.lived
            self.judge(lab, piece, f'piece {number} ({kind})')

    def judge(self, lab, piece, name):
        """Has a piece witnessed, and counts what was in it."""
        status, said, besides = witness(lab, '--drift', str(DRIFT), *(['--altered'] if piece.spoil else []))
        acts = [act for daemon in lab.daemons for act in lab.acts(daemon)]
        kinds = collections.Counter(act[0] for act in acts)
        self.add(seconds=lab.lived, starts=lab.starts, lines=len(acts), posted=kinds['post'], taken=kinds['took'], corrections=kinds['correct'],
                 late=kinds['late'], elections=sum(act == ['become', 'master'] for act in acts), **lab.frames(), **piece.faults)
        self.lives += piece.lives
        say(f'{name}, {lab.lived / HOUR:.2f} hours, {len(acts)} lines: {said[0] if said else "no verdict"}')
        for line in said[1:] + [line for line in besides if not piece.spoil or 'never posted that' not in line]:
            say(f'{name}: {line}')
        if status:
            say(f'{name} isn\'t as the rules say: its traces are in {lab.folder}')
        self.add(alike=int(said[0].split()[0]) if said else 0, pieces=1, failed=status != 0)

    def tell(self):
        """Says what came of it all."""
        say(', '.join(f'{count:.0f} {name}' for name, count in sorted(self.sums.items())) or 'nothing was judged')
        if not self.lives:
            say('what the daemons took isn\'t known')
            return
        for name in self.lives[0].before:
            most = max(self.lives, key=lambda life: life.after[name] - life.before[name])
            total = sum(life.after[name] - life.before[name] for life in self.lives)
            say(f'{name} of {len(self.lives)} daemons: {most.before[name]} KiB at a beginning, grew by {most.after[name] - most.before[name]} KiB at the most '
                f'and by {total} in all')
        hours = sum(life.seconds for life in self.lives) / HOUR
        say(f'a daemon took {sum(life.spent for life in self.lives) / hours:.2f} s of a processor in an hour of the network\'s time')


class Life(NamedTuple):
    """A daemon's memory at its beginning and end in KiB, the seconds that it lived, and those of a processor that it took."""
    before: dict
    after: dict
    seconds: float
    spent: float


class Piece:
    """One lab from its start until its traces are long enough."""

    def __init__(self, lab, chance, left, spoil):
        self.lab, self.chance, self.left, self.spoil = lab, chance, left, spoil
        self.faults = {'kills': 0, 'stops': 0, 'cuts': 0, 'dates': 0, 'storms': 0}
        self.lives, self.begun = [], {}

    def lines(self):
        """How many lines the traces have."""
        total = 0
        for daemon in self.lab.daemons:
            for path in daemon.trace:
                with open(path, 'rb') as trace:
                    total += sum(block.count(b'\n') for block in iter(lambda: trace.read(1 << 16), b''))
        return total

    def start(self, daemon):
        """Starts a daemon, and notes the memory it begins with. The wall clock of its host is set some time after, which it isn't to see."""
        daemon.step = round((self.lab.seconds() + self.chance.uniform(*STEPS)) * 1e6), self.chance.randint(-APART, APART)
        self.lab.start(daemon)
        if process.is_told():
            self.begun[daemon] = self.lab.seconds(), process.memory(daemon.process.pid)

    def note_end(self, daemon):
        """Notes what a daemon has and took at its end."""
        if daemon not in self.begun:
            return
        (since, before), pid = self.begun[daemon], daemon.process.pid
        self.lives.append(Life(before, process.memory(pid), self.lab.seconds() - since, process.spent(pid)))

    def whole(self):
        """All of it."""
        self.lab.tell('late 20 200')
        for daemon in self.lab.daemons:
            self.start(daemon)
        while self.lab.seconds() < self.left and self.lines() < MOST_LINES:
            self.weather()
            self.lab.sleep(self.chance.uniform(*WEATHER))
            self.event()
        self.lab.tell('cut')
        for daemon in self.lab.daemons:
            if daemon.process:
                self.note_end(daemon)
        self.lab.lived = self.lab.seconds()

    def weather(self):
        """How the network is for a while: mostly well, or with losses, long delays, repeats and changed octets."""
        sort = self.chance.randrange(6)
        loss = self.chance.uniform(0, LOSS) if sort in (1, 2) else 0.01
        most = round(self.chance.uniform(0, LATE) / self.lab.rate) if sort in (2, 3) else 200
        twice, spoil = (0.2, self.spoil) if sort == 4 else (0.02, 0)
        self.faults['storms'] += self.lab.has_bridge and sort in (1, 2, 3, 4)
        self.lab.tell(f'loss {loss}', f'late 20 {max(most, 200)}', f'twice {twice}', f'spoil {spoil}')

    def event(self):
        """Something that happens to the hosts."""
        up = [daemon for daemon in self.lab.daemons if daemon.process]
        down = [daemon for daemon in self.lab.daemons if not daemon.process]
        sort = self.chance.randrange(8)
        if down and sort < 4:
            self.lab.tell('cut', 'loss 0.01', 'late 20 200')
            self.start(self.chance.choice(down))
        elif sort == 4 and len(up) > 2:
            self.end(self.chance.choice(up), signal.SIGKILL)
        elif sort == 5:
            self.hold(self.chance.choice(up))
        elif sort == 6 and self.lab.has_bridge:
            self.faults['cuts'] += 1
            self.lab.tell('cut ' + ' '.join(cable for daemon in self.chance.sample(up, len(up) // 2) for cable in self.lab.cables(daemon)))
        elif sort == 7:
            self.faults['dates'] += 1
            self.ask_date(self.chance.choice(up))
        else:
            self.lab.tell('cut')

    def end(self, daemon, by):
        """Kills a daemon."""
        self.faults['kills'] += 1
        self.note_end(daemon)
        self.lab.stop(daemon, by)

    def hold(self, daemon):
        """Stops a daemon for some seconds, and lets it go on."""
        self.faults['stops'] += 1
        daemon.process.send_signal(signal.SIGSTOP)
        self.lab.sleep(self.chance.uniform(1, 120))
        daemon.process.send_signal(signal.SIGCONT)

    def ask_date(self, daemon):
        """Asks a daemon to set the network's date by some seconds; an answer isn't wanted."""
        date = START + round(self.lab.seconds() * 1e6) + self.chance.randint(-APART, APART)
        self.lab.ask('date', daemon.address, str(date), tries=1, wanted=False)
