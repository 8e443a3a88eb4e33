"""Where a time and a value stand in a picture.

Schedules sleep for minutes and then do much in a millisecond, so a gap between two events is drawn as long as its
logarithm; and values are drawn at the logarithm of their size, with their sign. Linear scales are there beside these.
"""
import bisect
import itertools
import math


def log_of(value):
    """The logarithm of a value's size, with its sign; 0 stays 0."""
    return math.copysign(math.log10(1 + abs(value)), value)


def micros(value):
    """A power of ten of microseconds with its sign and its unit, or 0."""
    size = abs(value)
    number, unit = (size // 10**6, 's') if size >= 10**6 else (size // 1000, 'ms') if size >= 1000 else (size, 'µs')
    return f'{"-" if value < 0 else "+"}{number:,} {unit}' if value else '0'


class Times:
    """Places of true times between left and right."""

    def __init__(self, times, left, right):
        # (sorted before they are made different: nearly all come in their order)
        self.times, self.left, self.right = list(dict.fromkeys(sorted(times))) or [0], left, right
        log = math.log10
        self.places = [0.0, *itertools.accumulate([log(1 + (after - before) / 100) for before, after in zip(self.times, self.times[1:])])]

    def __call__(self, at):
        """The place of a true time; between two events it is even."""
        return self.left + (self.right - self.left) * (self.place(at) / self.places[-1] if self.places[-1] else 0)

    def place(self, at):
        """The sum of the logarithms of the gaps before a true time."""
        index = bisect.bisect_right(self.times, at) - 1
        if index < 0:
            return 0.0
        if index == len(self.times) - 1:
            return self.places[-1]
        before, after = self.times[index], self.times[index + 1]
        return self.places[index] + (at - before) / (after - before) * (self.places[index + 1] - self.places[index])

    def between(self, begin, end, apart=2.0):
        """Times from begin to end, both with them, of which no two events stand nearer than so much."""
        found, last = [begin], self.place(begin)
        step = apart / (self.right - self.left) * self.places[-1]
        index, high = bisect.bisect_right(self.times, begin), bisect.bisect_left(self.times, end)
        while index < high:
            index = bisect.bisect_left(self.places, last + step, index, high)
            if index < high:
                found.append(self.times[index])
                last, index = self.places[index], index + 1
        return found + [end] if end > begin else found


class Values:
    """Heights of values between top and bottom."""

    def __init__(self, values, top, bottom):
        found = [log_of(value) for value in values] + [0.0]
        low, high = min(found), max(found)
        self.low, self.high = (low, high) if high - low > 0.5 else (low - 1, high + 1)
        self.top, self.bottom = top, bottom

    def moved(self, top, bottom):
        """The same values between another top and bottom."""
        other = Values((), top, bottom)
        other.low, other.high = self.low, self.high
        return other

    def __call__(self, value):
        return self.bottom - (log_of(value) - self.low) / (self.high - self.low) * (self.bottom - self.top)

    def ends(self):
        """How far it goes below 0 and above."""
        return int(10**abs(self.low)), int(10**abs(self.high))

    @staticmethod
    def label(value):
        """A value with its sign and unit."""
        return micros(value)

    def marks(self):
        """The values to mark: 0 and powers of ten, that don't stand on one another."""
        tens = [sign * 10**power for power in range(16) for sign in (1, -1)]
        found = []
        for value in sorted([0] + tens, key=abs):
            inside = self.low <= log_of(value) <= self.high
            if inside and all(abs(self(value) - self(other)) >= 14 for other in found):
                found.append(value)
        return sorted(found)


# The units of values and of times, each in microseconds.
AMOUNTS, SPANS = ((1, 'µs'), (1000, 'ms'), (10**6, 's')), ((1000, 'milliseconds'), (10**6, 'seconds'), (60 * 10**6, 'minutes'), (3600 * 10**6, 'hours'))


def unit_of(size, units):
    """The greatest unit of which such a size has two or more."""
    return next((unit for unit in reversed(units) if size >= 2 * unit[0]), units[0])


def rounded_step(size, most):
    """The least of 1, 2 and 5 times a power of ten that so large a span has so many times at most."""
    step = 10 ** math.floor(math.log10(size / most)) if size > 0 else 1
    return next(factor * step for factor in (1, 2, 5, 10) if factor * step * most >= size)


def multiples(low, high, step):
    """The multiples of a step from low to high."""
    return [number * step for number in range(math.ceil(low / step - 1e-9), math.floor(high / step + 1e-9) + 1)]


class EvenTimes:
    """Places of true times between left and right, on a linear scale."""

    def __init__(self, times, left, right):
        self.first, self.last, self.left, self.right = min(times, default=0), max(times, default=0), left, right
        # (it begins at 0 if that is near)
        if 0 < self.first < self.last / 10:
            self.first = 0
        self.unit, self.name = unit_of(self.last - self.first, SPANS)

    def __call__(self, at):
        """The place of a true time."""
        return self.left + (self.right - self.left) * (at - self.first) / max(self.last - self.first, 1)

    @staticmethod
    def between(begin, end, apart=2.0):
        """What lies between two times is a straight line."""
        return [begin, end] if end > begin else [begin]

    def marks(self):
        """Rounded times, each with its label."""
        low, high = self.first / self.unit, self.last / self.unit
        return [(at * self.unit, f'{at:g}') for at in multiples(low, high, rounded_step(high - low, 10))]


class EvenValues:
    """Heights of values between top and bottom, on a linear scale that has 0."""

    def __init__(self, values, top, bottom):
        low, high = min([*values, 0]), max([*values, 0])
        beyond = (high - low) / 20 or 1
        self.low, self.high, self.top, self.bottom = low - beyond * (low < 0), high + beyond * (high > 0 or low == 0), top, bottom

    def moved(self, top, bottom):
        """The same values between another top and bottom."""
        other = EvenValues((), top, bottom)
        other.low, other.high = self.low, self.high
        return other

    def __call__(self, value):
        return self.bottom - (value - self.low) / (self.high - self.low) * (self.bottom - self.top)

    def marks(self):
        """The rounded values to mark."""
        return multiples(self.low, self.high, rounded_step(self.high - self.low, max((self.bottom - self.top) // 28, 2)))

    def ends(self):
        """How far it goes below 0 and above."""
        return round(-self.low), round(self.high)

    def label(self, value):
        """A value with its sign and unit."""
        unit, name = unit_of(max(self.high, -self.low), AMOUNTS)
        return f'{value / unit:+g} {name}' if value else '0'


class Logarithmic:
    """Scales by logarithms, and what is said of them."""
    times, values = Times, Values
    of_values = ', at the logarithm of its size'


class Linear:
    """Linear scales, and what is said of them."""
    times, values = EvenTimes, EvenValues
    of_values = ''
