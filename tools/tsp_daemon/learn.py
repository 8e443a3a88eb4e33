"""The rate of a daemon's counter against its network's, as the daemon's own corrections tell it, and the file in which that is kept.

Rates are whole parts in 10^9, by which a counter is to be faster than the machine's. Corrections add up: what a clock was corrected by between two
rounds, and what the rate in use gave it meanwhile, is what the machine's counter lacks, and only the errors of the first and the last measurement are in it.

Two things are made of that: the rate to count by from now on, by the last hour, which a daemon that runs takes at once; and an estimate with its error,
by the hours of a day, which is kept for the next start.
"""
from __future__ import annotations

import fcntl
import itertools
import os
import re
import stat
from collections import namedtuple

from tsp_texts import tool

# Where what is learned is kept, unless TSP_LEARN says another place; and what TSP_RATE is then.
PATH, WORD = '/var/lib/tsp/rate', 'learn'
BILLION = 1_000_000_000
# The greatest rate, and that of a counter which is taken for one that counts.
MOST_RATE = 1_000_000
# An estimate is over so many microseconds at least, and the last so many of them count: those of a day.
HOUR, DAY = 3_600_000_000, 24
# Before an hour is over, so many corrections give an estimate.
FEWEST = 4
# The rate to count by comes of so many corrections at most, which are those of an hour, over so many microseconds at least; a round takes so many.
WINDOW, LEAST, ROUND = 16, 120_000_000, 240_000_000
# A correction that is greater than any rate explains, by more than clocks of a group are apart, is none of a rate.
APART = 20_000
# Hours whose error is so many times the usual one don't count; and so great a part of the others lies within the error.
TIMES, PART = 3, 0.9
LINE, LONGEST_FILE = re.compile('(-?[0-9]{1,7}) ([0-9]{1,18})'), 4096


class Estimate(namedtuple('Estimate', 'rate error')):
    """A rate, and by how much it may be wrong."""
    __slots__ = ()


def median(values):
    """The middle one of some values."""
    # (this takes long to load, and few calls need it)
    import statistics
    return statistics.median(values)


def slope_of(points):
    """The slope of points, in parts in 10^9, which a few bad ones don't move."""
    return median([(moved - before) * BILLION / (tick - since) for (since, before), (tick, moved) in itertools.combinations(points, 2)])


def fitted(points):
    """The slope of points, and by how much it may be wrong, as the points lie beside it."""
    slope, count, span = slope_of(points), len(points), points[-1][0] - points[0][0]
    beside = [moved - slope * (tick - points[0][0]) / BILLION for tick, moved in points]
    return slope, (max(beside) - min(beside) + 2) * count / max(count - 2, 1) * BILLION / span


def within(rate):
    """A rate as it can be applied."""
    return max(-MOST_RATE, min(round(rate), MOST_RATE))


def usual(hours):
    """The hours that count."""
    most = TIMES * median(hour.error for hour in hours) if hours else 0
    return [hour for hour in hours if hour.error <= most]


def middle(hours):
    """What the estimates of some hours say together. Where they aren't of one rate the error says so, since most of them lie within it."""
    used = usual(hours)
    rate = median(hour.rate for hour in used)
    away = sorted(abs(hour.rate - rate) for hour in used)
    least = median(hour.error for hour in used) / len(used) ** 0.5
    return Estimate(round(rate), max(round(away[int(PART * (len(away) - 1))]), round(least), 1))


class Given:
    """What a daemon's counter gained on its machine's, by the rates with which it counts, in microseconds."""

    def __init__(self, applied):
        self.applied, self.tick, self.gained = applied, 0, 0

    def at(self, tick):
        """What it gained until a tick."""
        return self.gained + self.applied * (tick - self.tick) / BILLION

    def change(self, tick, applied):
        """From this tick on it counts with this rate."""
        self.gained, self.tick, self.applied = self.at(tick), tick, applied


class Recent:
    """The corrections of the last hour, and the rate that they give: the whole of the first one, and less of each later one."""

    def __init__(self, rate, count):
        # (a rate that is known stands for as many corrections)
        self.points = [(number * ROUND, number * ROUND * rate / BILLION) for number in range(1 - count, 1)]
        self.rate = rate if count else None

    def begin(self, tick):
        """What came until this tick teaches nothing: as if the clock had needed what it was thought to."""
        since, needed = self.points[-1] if self.points else (tick, 0)
        if self.rate is None or tick < since:
            self.points = [(tick, 0)]
        elif tick > since:
            self.add(tick, needed + (tick - since) * self.rate / BILLION)

    def add(self, tick, needed):
        """Until this tick the machine's counter lacked so much."""
        self.points = [*self.points, (tick, needed)][-WINDOW:]

    def takes(self, tick, needed):
        """The same; it changes the rate."""
        self.add(tick, self.points[-1][1] + needed)
        if tick - self.points[0][0] >= LEAST:
            self.rate = within(slope_of(self.points))


class Learning:
    """What is learned, and is to be kept: `kept` is the estimate that counts, `hours` are those of the last day, and `applied` is the rate with
    which the daemon counts. `recent` has the rate with which it should."""

    def __init__(self, applied=0, kept: Estimate | None = None, hours: list[Estimate] | None = None):
        self.kept, self.hours = kept, list(hours or ())
        self.begin(applied)

    def begin(self, applied):
        """The daemon starts, and counts with this rate."""
        self.masters, self.closed, self.given, self.gained = set(), {}, Given(applied), 0
        self.recent = Recent(applied, WINDOW - 1 if self.hours else FEWEST - 1 if self.kept or applied else 0)
        self.anew()

    @property
    def applied(self):
        """The rate with which the daemon counts."""
        return self.given.applied

    @property
    def wanted(self):
        """The rate with which it should count; None while nothing is known of that."""
        return self.recent.rate

    def applies(self, tick, rate):
        """From this tick on the daemon counts with this rate."""
        self.given.change(tick, rate)

    def anew(self):
        """What was gathered of this hour says nothing of a rate."""
        self.points = []

    def change(self, change, is_set=False):
        """Takes a change of the daemon's state, and says whether that changed what is kept. `is_set` says of a correction that it set the clock."""
        if change.kind == 'correction':
            is_set = is_set or change.values['way'] == 'step' or change.port in self.masters and self.closed.get(change.port) != change.tick
            return self.corrected(change.tick, change.values['amount_us'], is_set)
        if change.kind == 'round':
            self.closed[change.port] = change.tick if change.values['clocks'] > 1 else None
        elif change.kind in ('start', 'role', 'trace'):
            self.anew()
        if change.kind == 'role':
            (self.masters.add if change.values['role'] == 'master' else self.masters.discard)(change.port)
        return False

    def corrected(self, tick, amount, is_set):
        """The clock was corrected: the amount says what the counter lacked since the last time. Where it was set, or is corrected by more than any
        rate explains, or by a master with which no clock agrees, another hour begins: after a clock was set with the next correction, since its datagram's
        way is in what it shows, and since all hosts learn of one round then, the master too."""
        since, moved = self.points[-1] if self.points else (tick, 0)
        is_apart = abs(amount) * BILLION > MOST_RATE * (tick - since) + APART * BILLION
        needed, self.gained = amount + self.given.at(tick) - self.gained, self.given.at(tick)
        if is_set or is_apart or tick <= since:
            self.points = [] if is_set else [(tick, 0)]
            self.recent.begin(tick)
            return False
        self.points.append((tick, moved + needed))
        self.recent.takes(tick, needed)
        return self.learned()

    def learned(self):
        """Looks at what was gathered, after a correction."""
        is_whole = self.points[-1][0] - self.points[0][0] >= HOUR
        if len(self.points) < FEWEST or self.hours and not is_whole:
            return False
        hour = self.begun()
        if is_whole:
            self.hours, self.points = [*self.hours, hour][-DAY:], [(self.points[-1][0], 0)]
        return self.keep(middle(self.hours) if self.hours else hour) or is_whole

    def begun(self):
        """The estimate by what was gathered so far, or None."""
        if len(self.points) < FEWEST:
            return None
        slope, error = fitted(self.points)
        return Estimate(within(slope), round(error))

    def keep(self, found):
        """Keeps an estimate that is no worse than the one that is kept, or that a whole day says against it."""
        had = self.kept
        if had and found.error > had.error and (len(self.hours) < DAY or abs(found.rate - had.rate) <= found.error + had.error):
            return False
        self.kept = found
        return found != had

    @property
    def found(self):
        """The rate that is kept, and by how much it may be wrong: its own error, or as far as the hours of the last day are from it, of which the
        last one and the one that has begun count in any case, since others may have changed. None where nothing is kept."""
        if self.kept is None:
            return None
        begun = self.begun()
        hours = usual(self.hours) + self.hours[-1:] + ([begun] if begun else [])
        return Estimate(self.kept.rate, max([self.kept.error, *(abs(hour.rate - self.kept.rate) + hour.error for hour in hours)]))


def counter_name():
    """The counter of which a rate is learned: that of the daemons of this host."""
    return 'monotonic' if os.environ.get('TSP_COUNTER') == 'monotonic' else 'raw'


def text_of(learning):
    """The lines of the file: what was found, what is kept, then the hours of the last day, and which counter has this rate."""
    return ''.join(f'{rate} {error}\n' for rate, error in [learning.found, learning.kept, *learning.hours]) + f'counter {counter_name()}\n'


def estimate_of(line):
    """The estimate of a line, or None."""
    found = LINE.fullmatch(line)
    numbers = [int(word) for word in found.groups()] if found else [MOST_RATE + 1]
    return Estimate(*numbers) if abs(numbers[0]) <= MOST_RATE else None


def read(path):
    """What a file keeps: the estimate, and the hours of the last day. ValueError comes where it keeps none of this counter, and OSError where it can't be
    read."""
    # (whoever opened a named pipe would wait for its writer)
    number = os.open(path, os.O_RDONLY | os.O_NONBLOCK | os.O_CLOEXEC)
    with open(number, 'rb') as file:
        if not stat.S_ISREG(os.fstat(number).st_mode):
            raise ValueError('it is no file')
        lines = file.read(LONGEST_FILE).decode('ascii', 'replace').splitlines()
    # (what doesn't say so was learned of the other one)
    counter = lines.pop().partition(' ')[2] if lines[-1:] and lines[-1].startswith('counter ') else 'monotonic'
    found = [estimate_of(line) for line in lines]
    if not found or None in found:
        raise ValueError('it has no rate from -1000000 to 1000000, and its error')
    if counter != counter_name():
        raise ValueError(f'it was learned of another counter than the {counter_name()} one')
    return (found[1:2] or found)[0], found[2:][-DAY:]


def write(path, learning):
    """Writes the file by a rename."""
    tool.write(path, text_of(learning).encode('ascii'))


class Kept:
    """A file and what is learned for it, of which this is the only writer. `say` takes a line for the log."""

    def __init__(self, path, say):
        self.path, self.say, self.is_faulty = path, say, False
        self.learning, self.lock = Learning(), self.locked()
        try:
            self.learning = Learning(0, *read(path))
        except FileNotFoundError:
            say(f'{path}: nothing is learned of the counter\'s rate yet')
        except (OSError, ValueError) as fault:
            say(f'{path}: {fault.strerror if isinstance(fault, OSError) else fault}; the rate is 0')

    def locked(self):
        """The lock of the file; None where another supervisor has it, or there is no place for it."""
        try:
            number = os.open(self.path + '.lock', os.O_RDWR | os.O_CREAT | os.O_NOFOLLOW | os.O_CLOEXEC, 0o600)
        except OSError:
            # (that the file itself can't be written is said when it is to be)
            return None
        try:
            fcntl.flock(number, fcntl.LOCK_EX | fcntl.LOCK_NB)
        except OSError:
            os.close(number)
            self.say(f'{self.path}: another supervisor keeps what it learns there, so what this one learns isn\'t kept')
            self.is_faulty, self.write = True, lambda: None
            return None
        return number

    def begin(self, most):
        """The daemon starts: the rate with which it is to count at first. Counters are wrong by so many parts in 10^9 at most, so an estimate that may be wrong
        by more is worth nothing, as one of few corrections may be."""
        learning = self.learning
        if learning.kept and learning.kept.error > most:
            self.say(f'{self.path}: it may be wrong by {learning.kept.error / 1000:.3f} parts in a million, more than TSP_DRIFT allows a counter; '
                     'the rate is 0')
            learning.kept, learning.hours = None, []
        known = learning.wanted or 0
        learning.begin(learning.kept.rate if learning.kept else known if abs(known) <= most else 0)
        return learning.applied

    def write(self):
        """Writes the file; that it can't be written is said once."""
        try:
            write(self.path, self.learning)
            self.is_faulty = False
        except tool.Fault as fault:
            if not self.is_faulty:
                self.say(f'what is learned isn\'t kept: {fault.text}')
            self.is_faulty = True


def path_of():
    """Where what is learned is kept."""
    return os.environ.get('TSP_LEARN') or PATH
