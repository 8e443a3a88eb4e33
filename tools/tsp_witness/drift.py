"""True times of readings of counters, found from nothing but this: each counter keeps the drift, and some readings aren't later than others.

Each of these bounds the difference of two times. So there are such times, unless bounds lead around from a reading back to
itself, and earlier: then these contradict each other. Times are made earlier by one bound after the other, now onwards
in time and now backwards, until all are kept, or until a way around is found.

A counter's law has whole microseconds: over x of them it counts x, give or take the drift's share of x, rounded up. What is
asked here is a little more: a line through the readings whose slope is off by less than the drift, by twice its square, and that no
microsecond is shorter than one. Times that are then rounded to whole microseconds keep the law, whatever two of them one takes.
"""
import heapq
from collections import namedtuple

MILLION = 1_000_000
# Times are so many parts of a microsecond, and slopes parts in so many.
PARTS, WHOLE = 10**6, 10**12
# How many times are made earlier, besides one for each reading, before a way around is looked for.
PATIENCE = 1000


class Bound(namedtuple('Bound', 'earlier later kind')):
    """A bound on two readings of a way around. `kind` is `most` or `least`, where so much passes between two readings of one counter, or
    `order`, where the first isn't later than the second."""
    __slots__ = ()


def slope(drift):
    """By how much a line may be off, in parts in 10^12, for a drift in parts in a million."""
    return drift * MILLION - 2 * drift * drift


def least_of(ticks, rate):
    """The least time that passes while a counter counts so much. (two ticks would else have one time)"""
    return PARTS if ticks == 1 else -(-ticks * PARTS * WHOLE // (WHOLE + rate))


def most_of(ticks, rate):
    """The most time that passes while a counter counts so much."""
    return ticks * PARTS * WHOLE // (WHOLE - rate)


class Times:
    """Readings in an order, each with a time that it may have at first, and the bounds on their times.

    `follows` has for each reading the next one of its counter, the ticks between them, and the drift that it keeps, which is None where any time may pass;
    or None. Readings are told by their places in the order; it is best if no reading stands before one that it isn't earlier than.
    """

    def __init__(self, begin, follows):
        count = len(begin)
        self.times, self.parent = [time * PARTS for time in begin], [-1] * count
        self.next, self.last = [-1] * count, [-1] * count
        self.most, self.least = [0] * count, [0] * count
        for place, following in enumerate(follows):
            if following:
                later, ticks, drift = following
                self.last[later] = place
                if drift is not None:
                    self.next[place], self.most[place], self.least[place] = later, most_of(ticks, slope(drift)), least_of(ticks, slope(drift))
        self.before = [[] for _ in range(count)]
        self.forth, self.back = list(range(count)), list(range(1 - count, 1))
        self.is_forth, self.is_back = [True] * count, [True] * count
        self.changes, self.enough = 0, count + PATIENCE

    def order(self, earlier, later):
        """The first reading isn't later than the second."""
        self.before[later].append(earlier)
        self.touch(later)

    def release(self, earlier, later):
        """That bound holds no more. What it led to is no way around."""
        self.before[later].remove(earlier)
        self.parent = [-1] * len(self.parent)

    def move(self, places, later):
        """Moves the times of some readings by so many parts of a microsecond."""
        for place in places:
            self.times[place] += later
        self.parent = [-1] * len(self.parent)
        for place in range(len(self.times)):
            self.touch(place)

    def touch(self, place):
        """A reading's bounds are to be looked at."""
        if not self.is_forth[place]:
            self.is_forth[place] = True
            heapq.heappush(self.forth, place)
        if not self.is_back[place]:
            self.is_back[place] = True
            heapq.heappush(self.back, -place)

    def copy(self):
        """The same readings, bounds and times."""
        made = object.__new__(Times)
        made.__dict__.update(self.__dict__)
        for name in ('times', 'parent', 'forth', 'back', 'is_forth', 'is_back'):
            setattr(made, name, list(getattr(self, name)))
        made.before = [list(before) for before in self.before]
        return made

    def settle(self):
        """Makes times earlier until all bounds are kept: no bounds, or those that lead around."""
        while self.forth or self.back:
            found = self.onwards() or self.backwards()
            if found:
                return found
        return []

    def onwards(self):
        """Keeps the bounds that lead onwards in time, and the order."""
        times, parent, heap, marked, following, most = self.times, self.parent, self.forth, self.is_forth, self.next, self.most
        while heap:
            place = heapq.heappop(heap)
            marked[place], here, later = False, times[place], following[place]
            if later >= 0 and here + most[place] < times[later]:
                times[later], parent[later] = here + most[place], place
                self.changed(later)
            self.keep_order(place, here)
            if self.changes > self.enough:
                found = self.around()
                if found:
                    return found
        return []

    def backwards(self):
        """Keeps the bounds that lead backwards in time, and the order."""
        times, parent, heap, marked, last, least = self.times, self.parent, self.back, self.is_back, self.last, self.least
        while heap:
            place = -heapq.heappop(heap)
            marked[place], here, earlier = False, times[place], last[place]
            if earlier >= 0 and here - least[earlier] < times[earlier]:
                times[earlier], parent[earlier] = here - least[earlier], place
                self.changed(earlier)
            self.keep_order(place, here)
            if self.changes > self.enough:
                found = self.around()
                if found:
                    return found
        return []

    def keep_order(self, place, here):
        """Readings that aren't later than one at this time aren't."""
        for earlier in self.before[place]:
            if here < self.times[earlier]:
                self.times[earlier], self.parent[earlier] = here, place
                self.changed(earlier)

    def changed(self, place):
        """A reading's time was made earlier."""
        self.changes += 1
        self.touch(place)

    def around(self):
        """The bounds that lead around, if there are such."""
        self.enough = self.changes + len(self.times) + PATIENCE
        seen = [0] * len(self.times)
        for begin in range(len(self.times)):
            walk, place = begin + 1, begin
            while place >= 0 and not seen[place]:
                seen[place] = walk
                place = self.parent[place]
            if place >= 0 and seen[place] == walk:
                return self.bounds_of(place)
        return []

    def bounds_of(self, begin):
        """The bounds around a reading, each from the one that bounds to the one that is bounded."""
        found, place = [], begin
        while not found or place != begin:
            by = self.parent[place]
            kind = 'order' if place in self.before[by] else 'most' if self.next[by] == place else 'least'
            found.append(Bound(*((by, place) if kind == 'most' else (place, by)), kind))
            place = by
        return found[::-1]

    def lack(self, bounds):
        """By how many microseconds bounds that lead around contradict each other."""
        total = sum(self.most[bound.earlier] if bound.kind == 'most' else -self.least[bound.earlier] if bound.kind == 'least' else 0 for bound in bounds)
        return -total / PARTS

    def whole(self):
        """The times in whole microseconds."""
        return [(time + PARTS // 2) // PARTS for time in self.times]
