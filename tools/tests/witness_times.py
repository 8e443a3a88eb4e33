"""Times of clocks whose rates and offsets are known: tsp_witness.times finds rates that are as good, and no datagram is taken before it was posted,
also where times are whole microseconds and datagrams are as fast as that."""
import random
import sys

from tsp_witness import times
from tsp_witness.clocks import Clocks, Placing

# The least way of a datagram in these networks, in microseconds.
LEAST = 2500


def exchange(chance, count, drift, seconds):
    """Clocks that drift, and the ways of datagrams between them."""
    rates = [0] + [chance.randint(-drift, 0) for _ in range(count - 1)]
    chance.shuffle(rates)
    walls = [1_800_000_000_000_000 + chance.randint(-10**7, 10**7) for _ in range(count)]

    def shows(clock, at):
        return walls[clock] + at + at * rates[clock] // times.MILLION
    ways = []
    for _ in range(400 * count):
        left, reached = chance.sample(range(count), 2)
        at = chance.randrange(seconds * times.MILLION)
        late = LEAST + (chance.randrange(8000) if chance.random() < 0.8 else chance.randrange(10**7))
        ways.append(times.Way(left, reached, shows(left, at), shows(reached, at + late)))
    return rates, ways, [shows(clock, 0) for clock in range(count)]


def wants_fit(chance, count, drift, seconds):
    """Wants times that fit, and the known rates up to what the least way leaves free."""
    rates, ways, begun = exchange(chance, count, drift, seconds)
    fit = times.fit(times.Bounds(count, ways, begun), drift)
    if fit.least < 0 or max(fit.rates) > 0:
        sys.exit(f'{count} clocks, drift {drift}, {seconds} s: {fit}')
    for way in ways:
        there, here = ((fit.offsets[clock] + times.stretched(shown - begun[clock], fit.rates[clock]))
                       for clock, shown in ((way.left, way.shown_there), (way.reached, way.shown_here)))
        if here < there:
            sys.exit(f'{count} clocks, drift {drift}, {seconds} s: {way} is taken {there - here} us before it was posted')
    free = 1 + 4 * LEAST / seconds
    for one in range(count):
        if abs((fit.rates[one] - fit.rates[0]) - (rates[one] - rates[0])) > free:
            sys.exit(f'{count} clocks, drift {drift}, {seconds} s: the rates are {rates}, and not {fit.rates}')


class Life:
    """The only life of a host whose trace tells its wall clock."""

    def __init__(self, node, base):
        self.node, self.number, self.base, self.turns = node, 0, base, []


class Step:
    """A turn at a tick of a life; `post` is what it took."""

    def __init__(self, life, tick, post=None):
        self.life, self.tick, self.post = life, tick, post
        life.turns.append(self)


class Post:
    """A datagram, and the turn that posted it."""

    def __init__(self, turn):
        self.turn = turn


class Matched:
    """Lives whose datagrams are all known."""

    def __init__(self, lives):
        self.lives = lambda: lives

    def choose(self, at, freedom):
        """There is nothing to choose."""


def matched(chance, count, drift, seconds):
    """Hosts whose datagrams are on their way for a microsecond."""
    rates = [0] + [chance.randint(-drift, 0) for _ in range(count - 1)]

    def passes(node, time):
        return time + time * rates[node] // times.MILLION
    begun = [passes(node, chance.randrange(times.MILLION)) for node in range(count)]
    lives = [Life(node, 1_800_000_000_000_000 + chance.randint(-10**7, 10**7) + first) for node, first in enumerate(begun)]
    for _ in range(100 * count):
        left, reached = chance.sample(range(count), 2)
        at = times.MILLION + chance.randrange(seconds * times.MILLION)
        post = Post(Step(lives[left], passes(left, at) - begun[left]))
        Step(lives[reached], passes(reached, at + 1) - begun[reached], post)
    return Matched(lives)


def wants_whole_times(chance, count, drift, seconds):
    """Wants whole times at which nothing is taken before it was posted, where there are times that aren't whole; says whether there are."""
    found = matched(chance, count, drift, seconds)
    clocks = Clocks(found, drift)
    if clocks.fit.least < 0:
        return 0
    placing = Placing(clocks, count)
    for life in found.lives():
        for step in life.turns:
            if step.post and placing.at(step) < placing.at(step.post.turn):
                sys.exit(f'{count} clocks, drift {drift}, {seconds} s: something is taken {placing.at(step.post.turn) - placing.at(step)} us before it was posted')
    return 1


def main():
    chance = random.Random(44)
    for count in 2, 3, 5, 16:
        for drift in 0, 20, 100, 1000:
            for seconds in 600, 30_000:
                wants_fit(chance, count, drift, seconds)
    placed = sum(wants_whole_times(chance, count, drift, seconds) for count in (3, 5) for drift in (50, 1000) for seconds in (600, 30_000) for _ in range(4))
    if placed < 16:
        sys.exit(f'only {placed} of 32 networks fit any times')
    # What goes there and back within less than no time fits nothing.
    ways = [times.Way(0, 1, 5000, 7000), times.Way(1, 0, 9000, 6999)]
    if times.fit(times.Bounds(2, ways, [0, 0]), 0).least != -0.5:
        sys.exit('a datagram that comes back before it was sent fits')


main()
