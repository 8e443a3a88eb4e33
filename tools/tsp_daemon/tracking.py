"""How this host is, as its page says, without a question to anybody: in words, as an object of JSON, and as metrics."""
import time
from collections import namedtuple

import tsp_clock
from tsp_daemon import metrics, reading, times
from tsp_texts import tool

ROLES = {tsp_clock.NOBODY: 'nobody', tsp_clock.FOLLOWS: 'follows', tsp_clock.LEADS: 'leads'}
COUNTERS = {tsp_clock.RAW: 'CLOCK_MONOTONIC_RAW, which nobody slews', tsp_clock.MONOTONIC: 'CLOCK_MONOTONIC, which chrony and ntpd slew'}
# In so many microseconds after its start no daemon is corrected.
QUIET = 80_000_000
# How often the own clock is compared with the daemon's counter.
LOOKS = 4
# How many columns the names of values have.
NAMES = 16


class Tracking(namedtuple('Tracking', 'daemon look tick told own')):
    """A page at a moment: its two halves, the daemon's tick, what a reader makes of it, and this machine's own clock. Of a page that is stale, or isn't there,
    nothing else is known."""
    __slots__ = ()

    @property
    def is_known(self):
        """Whether a daemon writes the page."""
        return self.told.status != tsp_clock.STALE

    @property
    def is_looked(self):
        """Whether the supervisor has looked at a master in this life."""
        return self.is_known and self.look.is_of(self.daemon, self.tick)

    @property
    def master(self):
        """The name of the host that leads, as far as the page has it, or nothing."""
        is_followed = self.told.role == tsp_clock.FOLLOWS and self.is_looked and self.look.master == self.daemon.master
        return tool.one_line(self.told.master) if is_followed or self.told.role == tsp_clock.LEADS else ''

    @property
    def own_offset(self):
        """By how much this machine's own clock is ahead of the network's time."""
        return self.own - self.told.shown if self.is_known else None

    @property
    def width(self):
        """How wide the interval is in which the master's clock lies."""
        return None if self.told.earliest is None else self.told.latest - self.told.earliest

    @property
    def master_offset(self):
        """By how much the interval's middle is ahead of the shown value."""
        return None if self.width is None else self.told.earliest + self.width // 2 - self.told.shown

    @property
    def master_error(self):
        """How far the master's clock may be from that middle."""
        return None if self.width is None else self.width - self.width // 2

    @property
    def error(self):
        """How far the shown value may be from the master's clock."""
        return None if self.width is None else reading.Told(self.told.shown, self.told.earliest, self.told.latest).error

    @property
    def to_slew(self):
        """What is still to be slewed."""
        return self.daemon.target_at(self.tick) - self.told.shown if self.is_known else None

    @property
    def corrected(self):
        """How long ago the clock was corrected, in this life."""
        daemon = self.daemon
        return self.tick - daemon.tick if self.is_known and (daemon.steps or daemon.moved or daemon.tick > QUIET) else None


# What is known where there is no page.
NOTHING = Tracking(tsp_clock.Daemon(), tsp_clock.Look(), 0, tsp_clock.Now(), 0)


def own_less(counter):
    """By how many nanoseconds this machine's own clock is ahead of a counter: the least of some, since a pause between two readings adds to it."""
    return min(-time.clock_gettime_ns(counter) + time.time_ns() for _ in range(LOOKS))


def track(clock):
    """What the page of a clock says now."""
    found = clock.read()
    if found is None:
        return NOTHING
    (daemon, look), now = found
    counter = tsp_clock.MONOTONIC if daemon.counter == tsp_clock.MONOTONIC else tsp_clock.RAW
    return Tracking(daemon, look, daemon.tick_at(now), tsp_clock.now_of(*found), (now + own_less(counter)) // 1000)


def leader_text(seen):
    """Who leads, as far as the page tells."""
    if seen.told.role == tsp_clock.LEADS:
        return f'this host, {seen.master}' if seen.master else 'this host'
    if seen.told.role == tsp_clock.FOLLOWS:
        return seen.master or f'peer {seen.daemon.master}, whose clock isn\'t looked at yet'
    return f'nobody; {tool.one_line(seen.told.master)} was the last one' if seen.told.master else 'nobody'


def beside(offset, what):
    """An offset from something, in words."""
    return f'{metrics.seconds(abs(offset))} seconds {"behind" if offset < 0 else "ahead of"} {what}'


def ago(passed, otherwise):
    """How long ago something was."""
    return otherwise if passed is None else f'{metrics.seconds(passed)} seconds ago'


def parts(rate):
    """A rate in parts in 10^9, as parts in a million."""
    return f'{rate / 1000:+.3f} parts in a million'


def master_text(seen):
    """Where the master's clock is."""
    if seen.width is None:
        return 'not known'
    return f'{beside(seen.master_offset, "the shown time")}, give or take {metrics.seconds(seen.master_error)}'


def rows(seen, is_utc):
    """The names and values of what is known, in words."""
    told, daemon, is_looked = seen.told, seen.daemon, seen.is_looked
    yield 'Status', reading.STATUSES[told.status]
    yield 'Who leads', leader_text(seen)
    yield 'Last look', 'none, since this host leads' if told.role == tsp_clock.LEADS else ago(told.age, 'none in this life')
    yield 'Shown time', times.rfc_3339(told.shown, is_utc)
    yield 'Own clock', beside(seen.own_offset, 'the shown time')
    yield 'Master\'s clock', master_text(seen)
    yield 'Interval', 'not known' if seen.width is None else f'{metrics.seconds(seen.width)} seconds wide'
    yield 'Last correction', ago(seen.corrected, 'none in this life')
    yield 'Still to slew', f'{metrics.signed(seen.to_slew)} seconds'
    yield 'Corrections', f'{metrics.signed(daemon.moved)} seconds in this life, all together'
    yield 'Steps', f'{daemon.steps} in this life'
    yield 'Life', f'{metrics.seconds(seen.tick)} seconds since the daemon\'s start, number {daemon.life:016x}'
    yield 'Rate', f'{parts(daemon.rate)}, by which the daemon counts faster than the counter'
    yield 'Learned rate', parts(seen.look.learned) if is_looked and seen.look.learned else 'none yet' if not is_looked else 'none, by the page'
    yield 'Drift allowed', f'{seen.look.drift} parts in a million' if is_looked else 'not known'
    yield 'Counter', COUNTERS[daemon.counter]


def lines(seen, is_utc):
    """The same, a line each."""
    return ''.join(f'{name.ljust(NAMES)}: {value}\n' for name, value in rows(seen, is_utc))


def json_text(seen):
    """An object of JSON: null where something isn't known, and times in microseconds."""
    import json
    told, daemon, is_looked = seen.told, seen.daemon, seen.is_looked
    return json.dumps({
        'status': reading.STATUSES[told.status], 'role': ROLES[told.role], 'master': seen.master or None, 'look_age_us': told.age,
        'shown_us': told.shown, 'earliest_us': told.earliest, 'latest_us': told.latest, 'width_us': seen.width,
        'own_offset_us': seen.own_offset, 'master_offset_us': seen.master_offset, 'master_error_us': seen.master_error,
        'correction_age_us': seen.corrected, 'to_slew_us': seen.to_slew, 'moved_us': daemon.moved, 'steps': daemon.steps,
        'life': f'{daemon.life:016x}', 'life_us': seen.tick, 'rate_ppb': daemon.rate, 'learned_ppb': seen.look.learned if is_looked else None,
        'drift_ppm': seen.look.drift if is_looked else None, 'counter': 'raw' if daemon.counter == tsp_clock.RAW else 'monotonic',
    }, indent=1) + '\n'


def one_of(name, text, label, values, value):
    """A metric with a series for each value, of which one is 1."""
    metric = metrics.Metric(name, text)
    for each in values:
        metric.add(int(each == value), **{label: each})
    return metric


def gauge(name, text, value, kind='gauge'):
    """A metric of one value, or without one where that isn't known."""
    metric = metrics.Metric(name, text, kind)
    if value is not None:
        metric.add(value)
    return metric


def times_of(seen):
    """The names of metrics in seconds, what they tell, and their values in microseconds."""
    return [
        ('own_offset', 'By how much this machine\'s own clock is ahead of the network\'s time.', None if seen.width is None else seen.own_offset),
        ('error', 'How far the network\'s time, as it is shown here, may be from the master\'s clock.', seen.error),
        ('master_offset', 'By how much the middle of the interval is ahead of the shown time.', seen.master_offset),
        ('width', 'How wide the interval is in which the master\'s clock lies.', seen.width),
        ('look_age', 'How long ago the master\'s clock was looked at.', seen.told.age),
        ('correction_age', 'How long ago the clock was corrected, in this life of the daemon.', seen.corrected),
        ('to_slew', 'What is still to be slewed.', seen.to_slew),
        ('life', 'How long the daemon runs.', seen.tick if seen.is_known else None),
    ]


def prometheus(seen):
    """Text for node_exporter. Where nobody writes the page it says just that."""
    status, is_known, daemon = reading.STATUSES[seen.told.status], seen.is_known, seen.daemon
    found = [one_of('tsp_clock_status', 'What the page says of the network\'s time.', 'status', reading.STATUSES.values(), status)]
    if is_known:
        found.append(one_of('tsp_clock_role', 'Whether this host leads, follows a master, or has none.', 'role', ROLES.values(), ROLES[seen.told.role]))
    for name, text, value in times_of(seen):
        found.append(gauge(f'tsp_clock_{name}_seconds', text, None if value is None else metrics.seconds(value)))
    rate, learned = daemon.rate if is_known else None, seen.look.learned if seen.is_looked else None
    for name, text, value in (('rate', 'By how many parts in a million the daemon counts faster than its counter.', rate),
                              ('learned_rate', 'By how many it would have to, by what is learned; 0 while nothing is.', learned)):
        found.append(gauge(f'tsp_clock_{name}_ppm', text, None if value is None else f'{value / 1000:.3f}'))
    found.append(gauge('tsp_clock_steps_total', 'Steps of the clock in this life of the daemon.', daemon.steps if is_known else None, 'counter'))
    is_raw = int(daemon.counter == tsp_clock.RAW) if is_known else None
    found.append(gauge('tsp_clock_raw', 'Whether the daemon counts by CLOCK_MONOTONIC_RAW, which nobody slews.', is_raw))
    return metrics.text_of(found)
