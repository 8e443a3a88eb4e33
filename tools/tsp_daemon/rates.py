"""How fast a clock is, by the offsets that are measured of it and the corrections that move it."""
from __future__ import annotations

import collections
from collections import namedtuple

MILLION = 1_000_000
# A rate is that over so many measurements at most: of a master's rounds these are an hour.
WINDOW = 16
# A faster or slower clock parts from another by more than 20 ms from round to round, in 240 s. In parts in a million.
MOST = 83


class Rate(namedtuple('Rate', 'value error seconds')):
    """By how many parts in a million a clock is fast, how far that may be wrong (None where nobody knows), and over how many seconds."""
    __slots__ = ()

    @property
    def is_too_great(self):
        """Whether the clock surely parts from the other one by more than rounds average."""
        return abs(self.value) - (self.error or 0) > MOST


class Finder:
    """Finds the rate of a clock: what is measured, less what corrections have moved since, rises as the clock is fast. Times are microseconds."""

    def __init__(self):
        self.forget()

    def forget(self):
        """What was measured says nothing of what comes."""
        self.moved, self.points = 0, collections.deque(maxlen=WINDOW)

    def moves(self, amount):
        """A correction moves the clock by so much against the other one."""
        self.moved += amount

    def measures(self, tick, offset, error):
        """At this tick the clock is so much ahead of the other one; `error` is None where nobody knows how far that may be wrong."""
        self.points.append((tick, offset - self.moved, error))

    @property
    def rate(self) -> Rate | None:
        """The rate between the first measurement and the last one, where there are two."""
        if len(self.points) < 2 or self.points[0][0] >= self.points[-1][0]:
            return None
        (begin, low, first), (end, high, last) = self.points[0], self.points[-1]
        passed = end - begin
        error = None if first is None or last is None else (first + last) * MILLION / passed
        return Rate((high - low) * MILLION / passed, error, passed / MILLION)
