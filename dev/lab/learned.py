"""Hosts that learn the rates of their counters from each other: a model of their rounds, in which rates act at once, and of what they keep over restarts.

Times are microseconds, and rates parts in 10^9.
"""
import random
from typing import NamedTuple

from tsp_daemon.learn import BILLION, FEWEST, Learning
from tsp_daemon.state import Change

# What the rules say of rounds, of clocks that agree, and of the silence after a start; and how long nobody leads where the master is gone.
ROUND, SPAN, QUIET, ELECTION = 240_000_000, 20_000, 80_000_000, (300_000_000, 600_000_000)
DAY = 86_400_000_000
# How many round trips measure a clock, and how far wall clocks are off.
TIMES, WALL = 4, 500_000
# The rounds of an hour, by which the network's rate is known.
HOUR = 15


class Host:
    """A host: by how much its machine's counter is fast, how far its clock is ahead, and what its daemon has learned."""

    def __init__(self, fast):
        self.fast, self.ahead, self.learning = fast, 0.0, Learning()
        self.since = self.silent_until = 0
        self.is_new, self.is_steady = True, False

    @property
    def rate(self):
        """By how much its daemon's counter is fast."""
        return self.fast + self.learning.applied + self.fast * self.learning.applied / BILLION

    def start(self, now, ahead):
        """Its daemon starts, with what it has learned."""
        self.learning.begin(self.learning.kept.rate if self.learning.kept else 0)
        self.ahead, self.since, self.silent_until, self.is_new, self.is_steady = ahead, now, now + QUIET, True, False

    def tick(self, now):
        """How far its daemon has counted, but for what its rate does."""
        return int((now - self.since) * (1 + self.fast / BILLION))

    def tell(self, now, kind, **values):
        """Its trace tells something, from which it learns."""
        self.learning.change(Change(self.tick(now), 0, kind, values))

    def correct(self, now, amount, way='slew'):
        """Its clock is corrected, and its daemon takes the rate that it learns of that."""
        self.ahead += amount
        self.tell(now, 'correction', amount_us=amount, way=way, shown_us=0)
        if self.learning.wanted is not None:
            self.learning.applies(self.tick(now), self.learning.wanted)


class Round(NamedTuple):
    """A round: when it was, how far the two counters are apart after it that are so the most, and how far the two clocks were before it, of those that the
    round before corrected, too."""
    at: int
    counters: float
    clocks: float


class Restart(NamedTuple):
    """A restart, before and after it: the greatest distance of two counters, and how far the host's is from the network's rates in the last hour.
    `error` is that of what it applies."""
    at: int
    apart: tuple
    away: tuple
    error: int

    def is_worse(self):
        """Whether either was made worse by more than the error."""
        return any(after > before + self.error + 1 for before, after in (self.apart, self.away))


def mean_of(numbers):
    return sum(numbers) / len(numbers)


def largest_group(offsets):
    """The most clocks that lie within the span."""
    ordered = sorted(offsets)
    groups = ([each for each in ordered[place:] if each - low <= SPAN] for place, low in enumerate(ordered))
    return max(groups, key=len)


class Network:
    """The hosts of a network, from their first start on; counters are wrong by up to `most`, and datagrams late by up to `jitter`."""

    def __init__(self, count, most, jitter, seed):
        self.chance, self.jitter = random.Random(f'{seed} {count}'), jitter
        self.hosts = [Host(self.chance.uniform(-most, most)) for _ in range(count)]
        self.now, self.master, self.next_round, self.restarts, self.course, self.rounds = 0, None, 0, [], [], []
        self.first = self.apart()
        for number in range(count):
            self.start(number)

    def apart(self):
        """How far the two counters are apart that are so the most."""
        rates = [host.rate for host in self.hosts]
        return max(rates) - min(rates)

    def away(self, host, rounds):
        """How far a host's counter is from the rates that the network had in these last rounds: of each, the mean of the counters that it averaged."""
        course = self.course[-rounds:]
        return max(min(course) - host.rate, host.rate - max(course), 0) if course else 0

    def start(self, number):
        """A daemon starts, or starts again."""
        self.hosts[number].start(self.now, self.chance.uniform(-WALL, WALL))
        if self.master in (number, None):
            self.elect(number)

    def elect(self, gone):
        """Another host leads after a while."""
        others = [number for number in range(len(self.hosts)) if number != gone]
        self.master = self.chance.choice(others)
        self.next_round = self.now + self.chance.randint(*ELECTION)
        for number in others:
            self.hosts[number].tell(self.now, 'role', role='master' if number == self.master else 'follow', master=None)

    def pass_to(self, now):
        """Time passes: each clock parts from true time by its counter's rate."""
        for host in self.hosts:
            host.ahead += (now - self.now) * host.rate / BILLION
        self.now = now

    def measured(self, host, master):
        """How far a clock is ahead of the master's, by the best of some round trips."""
        ways = [(self.chance.uniform(0, self.jitter), self.chance.uniform(0, self.jitter)) for _ in range(TIMES)]
        there, back = min(ways, key=sum)
        return round(host.ahead - master.ahead + (there - back) / 2)

    def round(self):
        """A round: each clock that was measured is corrected to the mean of those that agree."""
        master = self.hosts[self.master]
        slaves = [host for host in self.hosts if host is not master and host.silent_until < self.now]
        steady = [host.ahead for host in (master, *slaves) if host.is_steady] or [0]
        for host in slaves:
            if host.is_new:
                host.is_new = False
                host.tell(self.now, 'role', role='follow', master=None)
                host.correct(self.now, round(master.ahead - host.ahead), 'step')
        offsets = {host: self.measured(host, master) for host in slaves}
        group = largest_group([0, *offsets.values()])
        mean = round(mean_of(group))
        master.tell(self.now, 'round', clocks=len(group), width_us=group[-1] - group[0], mean_us=mean)
        for host in (master, *slaves):
            host.correct(self.now, mean - offsets.get(host, 0))
            host.is_steady = True
        self.rounds.append(Round(self.now, self.apart(), max(steady) - min(steady)))
        self.course.append(mean_of([host.rate for host in (master, *slaves) if group[0] <= offsets.get(host, 0) <= group[-1]]))
        self.next_round = self.now + ROUND

    def restart(self, number):
        """A daemon is started again, and takes what it has learned."""
        host, apart, found = self.hosts[number], self.apart(), self.hosts[number].learning.found
        # (as far as it was corrected in the last hour without a break)
        rounds = HOUR if host.learning.hours else min(max(len(host.learning.points), FEWEST) - 1, HOUR)
        away = self.away(host, rounds)
        self.start(number)
        self.restarts.append(Restart(self.now, (apart, self.apart()), (away, self.away(host, rounds)), found.error if found else 0))

    def run_to(self, at):
        """All rounds before a time."""
        while self.next_round < at:
            self.pass_to(self.next_round)
            self.round()
        self.pass_to(at)


def plan(count, days, kills, is_apart, seed):
    """When which host is started again, in the order of time: once a day, all together or each at its own time, and where it is killed."""
    chance, found = random.Random(f'plan {seed} {count}'), []
    for number in range(count):
        own = chance.randrange(DAY) if is_apart else number
        found += [((day + 1) * DAY + own, number) for day in range(days)]
        found += [(int((day + chance.random()) * DAY), number) for day in range(days) if chance.random() < kills]
    return sorted(found)
