"""True times of ticks, found from nothing but this: a datagram isn't taken before it was posted.

Each clock has a rate, in whole parts in a million, and an offset. That a datagram went from one clock to another bounds
the difference of the two offsets; what fits all bounds is found by Bellman and Ford's way of shortest paths, with as
much room before each datagram as there can be. True time is that of the fastest clock, so no rate is above 0, and each
tick has its time.
"""
import math
from collections import namedtuple

MILLION = 1_000_000
# How often rates are made better, where they don't fit at first.
SWEEPS = 3
# So many microseconds are lost where times become whole numbers, at most.
ROUNDING = 2


class Way(namedtuple('Way', 'left reached shown_there shown_here')):
    """A datagram's way: the clocks that it left and reached, and what they showed, in microseconds."""
    __slots__ = ()


class Fit(namedtuple('Fit', 'rates offsets least')):
    """Rates and offsets by clock, and the least time that a datagram is on its way by them; below 0 they don't fit."""
    __slots__ = ()


def lower_hull(points):
    """The points of which one is the least, whatever slope is taken off."""
    hull = []
    for x, y in sorted(points):
        while len(hull) > 1 and (hull[-1][1] - hull[-2][1]) * (x - hull[-2][0]) >= (y - hull[-2][1]) * (hull[-1][0] - hull[-2][0]):
            hull.pop()
        if not hull or hull[-1][0] < x:
            hull.append((x, y))
    return hull


def stretched(shown, rate):
    """The true time that passes while a clock of this rate shows so much."""
    return shown * MILLION / (MILLION + rate)


class Bounds:
    """What the datagrams say of the clocks' offsets, at any rates. The clocks show `begun` at the true times that are their offsets."""

    def __init__(self, count, ways, begun):
        self.count, between = count, {}
        for way in ways:
            there, here = way.shown_there - begun[way.left], way.shown_here - begun[way.reached]
            between.setdefault((way.left, way.reached), []).append((there, here - there))
        self.hulls = {pair: lower_hull(points) for pair, points in between.items()}

    def bound(self, pair, rates):
        """By how much the offset of the first clock may be above that of the second."""
        left, reached = rates[pair[0]], rates[pair[1]]
        return min(stretched(there + more, reached) - stretched(there, left) for there, more in self.hulls[pair])

    def bounds(self, rates, clocks=None):
        """The bound for each two of these clocks, or of all."""
        pairs = [pair for pair in self.hulls if clocks is None or (pair[0] in clocks and pair[1] in clocks)]
        return [(*pair, self.bound(pair, rates)) for pair in pairs]

    def room(self, rates, clocks=None):
        """How long each datagram can be on its way at least: half of the shortest round trip of two clocks, and the like of more."""
        return least_mean(self.count, self.bounds(rates, clocks))

    def offsets(self, rates, room):
        """Offsets by which each datagram is on its way for so long."""
        found = [0.0] * self.count
        bounds = [(left, reached, bound - room) for left, reached, bound in self.bounds(rates)]
        for _ in range(self.count + 1):
            for left, reached, bound in bounds:
                if found[left] > found[reached] + bound + 1e-6:
                    found[left] = found[reached] + bound
        return found


def least_mean(count, edges):
    """The least mean of a cycle of edges, by Karp's way; a millisecond where there is no cycle."""
    far = float('inf')
    walks = [[0.0] * count]
    for _ in range(count):
        last, walk = walks[-1], [far] * count
        for left, reached, bound in edges:
            if last[reached] + bound < walk[left]:
                walk[left] = last[reached] + bound
        walks.append(walk)
    means = [max((walks[-1][node] - walk[node]) / (count - steps) for steps, walk in enumerate(walks[:-1]) if walk[node] < far)
             for node in range(count) if walks[-1][node] < far]
    return min(means, default=1000.0)


def best_rate(least, most, room):
    """The whole number between these at which a concave function is greatest; the middle one where there are several."""
    def end(rises):
        low, high = least, most
        while low < high:
            middle = (low + high) // 2
            low, high = (middle + 1, high) if rises(room(middle + 1) - room(middle)) else (low, middle)
        return low
    return (end(lambda more: more > 0) + end(lambda more: more >= 0)) // 2


def guess_rates(bounds, most):
    """Rates, from one clock to the next: each by the clocks that it exchanged datagrams with."""
    rates, known = [0] * bounds.count, {0}
    while len(known) < bounds.count:
        def ties(clock):
            return sum(len(hull) for pair, hull in bounds.hulls.items() if clock in pair and known & set(pair))
        clock = max(set(range(bounds.count)) - known, key=ties)
        near = known | {clock}

        def room(rate):
            return bounds.room({**dict(enumerate(rates)), clock: rate}, near)
        rates[clock] = best_rate(-most, most, room)
        known = near
    return rates


def sweep(bounds, rates, most):
    """Rates that leave more room, found one clock at a time; none is above 0."""
    for clock in range(bounds.count):
        def room(rate):
            return bounds.room(rates[:clock] + [rate] + rates[clock + 1:])
        rates[clock] = best_rate(-most, 0, room)
    return rates


def below(rates):
    """The same rates by the clock that is fastest."""
    fastest = MILLION + max(rates)
    return [round((MILLION + rate) * MILLION / fastest) - MILLION for rate in rates]


def fit(bounds, most):
    """Rates up to this many parts in a million apart, and offsets, by which each datagram is taken after it was posted."""
    rates = [0] * bounds.count
    least = bounds.room(rates)
    if most and least < 0:
        rates = below(guess_rates(bounds, most))
        for _ in range(SWEEPS):
            rates = rates if bounds.room(rates) >= ROUNDING else sweep(bounds, rates, most)
        least = bounds.room(rates)
    # (where all rates are equal whole offsets fit, if any do)
    return Fit(rates, bounds.offsets(rates, least if any(rates) else math.floor(least)), least)
