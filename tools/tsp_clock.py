"""The network's time on this host, read from the page that the daemon and tsp-launch write.

    clock = tsp_clock.Clock()
    now = clock.now()
    print(now.shown, now.earliest, now.latest, now.status)

Times are microseconds since 1970. tsp_clock(3) says what they are.
"""
import errno
import mmap
import os
import stat
import struct
import time
from typing import NamedTuple, Optional

PATH = '/run/tsp/clock'
# What a page says of the clock.
STALE, WAITING, SYNCHRONISED, HOLDING = 0, 1, 2, 3
NOBODY, FOLLOWS, LEADS = 0, 1, 2

MAGIC, VERSION, SIZE = int.from_bytes(b'tspclock', 'little'), 2, 4096
# Magic word, version and length; and where the two halves begin, with their sequences. All numbers are little-endian.
HEAD, SEQUENCE, DAEMON_AT, LOOK_AT = struct.Struct('<QII'), struct.Struct('<Q'), 64, 512
# Whom a look was for, how far its master was ahead, and the master's name.
DAEMON_FIELDS, LOOK_FIELDS = struct.Struct('<QQqQqQqqqqQQQQ'), struct.Struct('<QqQqqQQQq256s')
# The clocks by which a daemon may count, by the kernel's numbers.
COUNTERS = RAW, MONOTONIC = 4, 1
# A look, and a daemon that writes nothing, count for so many microseconds.
LASTS = 64_000_000
# A look that is older than these microseconds has the wider width(x + 2 * width(x)).
RECKONED = 100_000_000
SLEW, MILLION, BILLION = 200, 1_000_000, 1_000_000_000
# How often a page that is being written is read again at once, and then for how many seconds after pauses of so many.
AT_ONCE, PATIENCE, PAUSE = 64, 0.04, 0.00005
NEVER = -1 << 63
# The greatest numbers of a page: an origin's nanoseconds, ticks, times and drifts; and the greatest nanosecond of a clock.
MOST_ORIGIN, MOST_ORIGIN_TICK, MOST_TICK, MOST_TIME, MOST_DRIFT = 1 << 62, 1 << 51, 1 << 53, 1 << 56, 1000
MOST_NOW = 1 << 62


class Daemon(NamedTuple):
    """What the daemon writes: its clock, and whom it follows. Ticks are the microseconds that it counts."""
    life: int = 0
    counter: int = RAW
    # (what that clock read in nanoseconds at the tick of the next field, from which on the daemon counts so many parts in 10^9 faster)
    origin: int = 0
    origin_tick: int = 0
    rate: int = 0
    # (when the clock was corrected last, what it aimed at then, what was still to be slewed of that, and the least that may be shown)
    tick: int = 0
    target: int = 0
    rest: int = 0
    least: int = NEVER
    # (the sum of all corrections of this life, and how many were steps)
    moved: int = 0
    steps: int = 0
    role: int = NOBODY
    master: int = 0
    # (when it wrote last)
    alive: int = 0

    def is_sound(self):
        """Whether a daemon can have written this."""
        return (self.counter in COUNTERS and 0 <= self.origin < MOST_ORIGIN and self.origin_tick <= MOST_ORIGIN_TICK and abs(self.rate) <= MILLION
                and self.tick <= MOST_TICK and all(abs(value) <= MOST_TIME for value in (self.target, self.rest, self.moved)))

    def tick_at(self, now):
        """The daemon's tick at a nanosecond of its clock."""
        passed = (now - self.origin) // 1000
        return self.origin_tick + passed + passed * self.rate // BILLION

    def is_alive(self, tick):
        """Whether it is known at a tick that the daemon runs."""
        return 0 <= self.alive <= tick <= MOST_TICK and tick - self.alive <= LASTS

    def target_at(self, tick):
        """What the daemon's clock aims at."""
        return self.target + tick - self.tick

    def shown_at(self, tick):
        """What the daemon's clock shows."""
        return max(self.target_at(tick) - eased(self.rest, max(tick - self.tick, 0)), self.least)


# Where no daemon runs.
NOBODY_WRITES = Daemon(alive=-1)


class Look(NamedTuple):
    """What the supervisor writes: its last look at the master."""
    # (of the daemon that it looked for, and that one's corrections until then)
    life: int = 0
    moved: int = 0
    # (the tick at which it began to ask, and by how much the master's clock was ahead of the target)
    looked: int = 0
    low: int = 0
    high: int = 0
    master: int = 0
    # (by how many parts in a million any counter of the network may be wrong, and whether there was a look)
    drift: int = 100
    had: int = 0
    # (by how many parts in 10^9 the daemon should count faster, as far as that is known)
    learned: int = 0
    name: bytes = b''

    def is_sound(self):
        """Whether a supervisor can have written this."""
        return self.drift <= MOST_DRIFT and all(abs(value) <= MOST_TIME for value in (self.moved, self.low, self.high))

    def is_of(self, daemon, tick):
        """Whether this is of a look for a daemon, which was before a tick."""
        return self.had == 1 and self.life == daemon.life and self.looked <= tick


class Page(NamedTuple):
    """What a page holds."""
    daemon: Daemon = Daemon()
    look: Look = Look()


class Now(NamedTuple):
    """The network's time at a moment. `earliest` and `latest` are None where the status gives no interval: the master's clock, as it ran on since it
    was asked, lies between them. `age` is how long ago it was asked, in microseconds."""
    shown: Optional[int] = None
    earliest: Optional[int] = None
    latest: Optional[int] = None
    status: int = STALE
    age: Optional[int] = None
    life: int = 0
    steps: int = 0
    role: int = NOBODY
    master: str = ''


def eased(rest, passed):
    """What is still to be slewed after so many ticks, of so much."""
    moved = passed // SLEW
    return max(rest - moved, 0) if rest > 0 else min(rest + moved, 0)


def width(drift, passed):
    """By how many microseconds a counter may be wrong after so many."""
    return (drift * passed + MILLION - 1) // MILLION + 1


def spread(drift, passed):
    """By how many microseconds two clocks may have parted since the own counter was so many microseconds back: twice the width of the true time that may
    have passed since."""
    own = width(drift, passed)
    return 2 * width(drift, passed + (2 * own if passed > RECKONED else own))


def now_of(page, now):
    """The time that a page gives at a nanosecond of the daemon's clock."""
    daemon, look = page
    tick = daemon.tick_at(now)
    if not 0 <= now < MOST_NOW or not daemon.is_sound() or not look.is_sound() or not daemon.is_alive(tick):
        return Now(life=daemon.life, steps=daemon.steps)
    role = daemon.role if daemon.role <= LEADS else NOBODY
    said = Now(daemon.shown_at(tick), status=WAITING, life=daemon.life, steps=daemon.steps, role=role)
    target = daemon.target_at(tick)
    if role == LEADS:
        name = look.name if look.is_of(daemon, tick) and not look.master else b''
        return said._replace(earliest=target, latest=target, status=SYNCHRONISED, age=0, master=text_of(name))
    if not look.is_of(daemon, tick):
        return said
    age = tick - look.looked
    is_known = role == FOLLOWS and look.master == daemon.master and age <= LASTS
    target, apart = target - (daemon.moved - look.moved), spread(look.drift, age)
    return said._replace(earliest=target + look.low - apart, latest=target + look.high + apart, status=SYNCHRONISED if is_known else HOLDING, age=age,
                         master=text_of(look.name))


def text_of(name):
    """A name of a page."""
    return name.partition(b'\0')[0].decode('ascii', 'replace')


def read_once(octets_at):
    """The page, and the nanosecond of the daemon's clock at which it was read; None where it was written meanwhile. `octets_at` gives so many octets from
    a place on."""
    def sequences():
        return [SEQUENCE.unpack(octets_at(place, SEQUENCE.size))[0] for place in (DAEMON_AT, LOOK_AT)]
    before = sequences()
    daemon = Daemon(*DAEMON_FIELDS.unpack(octets_at(DAEMON_AT + SEQUENCE.size, DAEMON_FIELDS.size)))
    look = Look(*LOOK_FIELDS.unpack(octets_at(LOOK_AT + SEQUENCE.size, LOOK_FIELDS.size)))
    now = time.clock_gettime_ns(MONOTONIC if daemon.counter == MONOTONIC else RAW)
    if sequences() != before or any(number % 2 for number in before):
        return None
    return Page(daemon if before[0] else NOBODY_WRITES, look), now


def read(octets_at):
    """The same, again while the page is being written; None where that never ends."""
    until = None
    for number in range(1 << 20):
        found = read_once(octets_at)
        if found:
            return found
        if number >= AT_ONCE:
            until = until or time.monotonic() + PATIENCE
            if time.monotonic() > until:
                break
            time.sleep(PAUSE)
    return None


class Clock:
    """A page that is read. `path` is that of TSP_CLOCK, or /run/tsp/clock, where it is left out. OSError comes where there is no page: EINVAL if something else is
    there, or a page of another version. Each thread needs one of its own; it is closed once nothing refers to it."""

    def __init__(self, path=None):
        self.path = path or os.environ.get('TSP_CLOCK') or PATH
        self.map, self.tried = None, 0
        self.open()

    def open(self):
        """Opens the page that is at the path now."""
        number = os.open(self.path, os.O_RDONLY | os.O_CLOEXEC | os.O_NONBLOCK)
        try:
            about = os.fstat(number)
            if not stat.S_ISREG(about.st_mode) or about.st_size < SIZE:
                raise OSError(errno.EINVAL, 'it is no page of the network\'s time', self.path)
            found = mmap.mmap(number, SIZE, access=mmap.ACCESS_READ)
        finally:
            os.close(number)
        if HEAD.unpack_from(found) != (MAGIC, VERSION, SIZE):
            raise OSError(errno.EINVAL, 'it is no page of the network\'s time, or one of another version', self.path)
        self.map = found

    def read(self):
        """The page, and the nanosecond of the daemon's clock at which it was read; None where it is written and never done."""
        return read(lambda place, count: self.map[place:place + count])

    def now(self):
        """The network's time now."""
        begun = time.monotonic()
        found = self.read()
        now = now_of(*found) if found else Now()
        if now.status == STALE and time.monotonic() - self.tried > 1:
            self.tried = time.monotonic()
            # (one that has waited for a writer leaves that page to the next call)
            now = self.anew(self.tried - begun < PATIENCE) or now
        return now

    def anew(self, is_read):
        """Opens the page that is at the path by now, if a service that started again has put another one there; the time by that one, if it is to be read."""
        try:
            self.open()
        except OSError:
            return None
        found = self.read() if is_read else None
        return now_of(*found) if found else None


def wait_after(clock, stamp, longest=None):
    """Waits until the master's clock is surely past this stamp, within so many seconds, if they are given. True if the interval, of whatever master the host
    knows then, also of one that is gone, lies after it. Read the time again after that: if its status isn't SYNCHRONISED, or its life, its steps or its
    master is another one than before, True says nothing."""
    until = None if longest is None else time.monotonic() + longest
    while True:
        now = clock.now()
        if now.earliest is not None and now.earliest > stamp:
            return True
        if until is not None and time.monotonic() >= until:
            return False
        time.sleep(0.0005 if now.earliest is None else max(min((stamp - now.earliest) / MILLION / 2, 0.1), 0.0001))
