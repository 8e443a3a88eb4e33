"""Samples of the network's time for chronyd: which looks at the page become one, and what the journal has of it. Nothing here reads a clock or a socket."""
import struct
from collections import namedtuple

import tsp_clock

# A sample as chronyd's SOCK clock takes it: a timeval, by how many seconds true time is ahead of it, pulse, leap, a pad, and a magic number.
SAMPLE, MAGIC = struct.Struct('@qqdiiii'), 0x534f434b
BILLION = 1_000_000_000
# A look is left out if it is wider than so many times the best of the last ones.
WIDER, LAST = 1.5, 8
# A host that leads has no looks; it is sampled each so many microseconds.
APART = 16_000_000
# chronyd slews by a twelfth at most. More than that, and so many nanoseconds, is a step of this machine's clock.
SLEWED, STEPPED = 0.1, 200_000_000
# CLOCK_BOOTTIME runs on while a machine sleeps, and is so many nanoseconds ahead then.
SLEPT = BILLION
SAID = {
    tsp_clock.STALE: 'nobody writes the page: nothing is sent',
    tsp_clock.WAITING: 'the daemon waits for a master and its correction: nothing is sent',
    tsp_clock.HOLDING: 'the master is gone: nothing is sent until another one is followed',
}


class Moment(namedtuple('Moment', 'page now real slept', defaults=(0,))):
    """A page at a moment: what the daemon's clock read then, what this machine's own clock did, and how long the machine has slept so far. All are
    nanoseconds."""
    __slots__ = ()


def packed(real, ahead):
    """The octets of a sample: the network's time was so many nanoseconds ahead of this machine's own clock when that was `real`."""
    return SAMPLE.pack(real // BILLION, real // 1000 % 1_000_000, (ahead + real % 1000) / BILLION, 0, 0, 0, MAGIC)


def ahead_of(told, real):
    """By how many nanoseconds the middle of the interval is ahead of this machine's own clock. (a page has whole microseconds: half of one is lost)"""
    return (told.earliest + told.latest) // 2 * 1000 + 500 - real


def leader(told):
    """The name of the host that leads."""
    return told.master or 'a host without a name'


class Feed:
    """What was seen last of a page and of this machine's clocks; `say` writes a line."""

    def __init__(self, say):
        self.say = say
        self.status, self.life, self.steps, self.master = None, None, None, None
        self.sampled, self.halves, self.before, self.is_told_of_rate = None, [], None, False

    def no_page(self, text):
        """There is no page that can be read."""
        if self.status != text:
            self.say(f'{text}: nothing is sent')
        self.status, self.before = text, None

    def sample(self, moment):
        """The octets of a sample, or None where this moment gives none."""
        told = tsp_clock.now_of(moment.page, moment.now)
        self.compare_clocks(moment)
        self.tell(told)
        if told.status != tsp_clock.SYNCHRONISED or not self.is_taken(moment, told):
            return None
        self.tell_rate(moment.page)
        return packed(moment.real, ahead_of(told, moment.real))

    def compare_clocks(self, moment):
        """Says where the machine slept, or somebody stepped its clock."""
        counter, before = (moment.page.daemon.life, moment.page.daemon.counter), self.before
        self.before = counter, moment
        if before is None or before[0] != counter:
            return
        passed, slept = moment.now - before[1].now, moment.slept - before[1].slept
        moved = moment.real - before[1].real - passed - slept
        if slept > SLEPT:
            self.say(f'the machine slept for {slept / BILLION:.0f} s: nothing is sent until the daemon was started again and corrected')
        elif abs(moved) > SLEWED * passed + STEPPED:
            self.say(f'somebody, or chronyd in its first updates, stepped this machine\'s clock by {moved / BILLION:+.3f} s: samples go on')

    def tell(self, told):
        """Says what is another than before: the daemon's life, its steps, its status and its master."""
        if self.life not in (None, told.life) and told.status != tsp_clock.STALE:
            self.say('the daemon started again: nothing is sent until it was corrected')
            self.sampled, self.halves = None, []
        elif self.status in (tsp_clock.SYNCHRONISED, tsp_clock.HOLDING) and told.steps > self.steps and told.life == self.life:
            self.say('the network\'s clock stepped: samples go on, and chronyd slews this machine\'s clock, or steps it as its makestep says')
        if told.status != self.status or (told.status == tsp_clock.SYNCHRONISED and told.master != self.master):
            self.say(SAID.get(told.status) or f'{leader(told)} leads: samples are sent')
        if told.master != self.master:
            # (looks at another master may be wider for good)
            self.halves = []
        if told.status != tsp_clock.STALE:
            self.life, self.steps = told.life, told.steps
        self.status, self.master = told.status, told.master

    def is_taken(self, moment, told):
        """Whether this is a new look, and about as narrow as the best of the last ones."""
        daemon, look = moment.page
        if told.role == tsp_clock.LEADS:
            return self.is_new(('leads', told.life, daemon.tick_at(moment.now) // APART))
        if not self.is_new(('follows', told.life, look.looked)):
            return False
        half = (look.high - look.low) / 2
        self.halves = (self.halves + [half])[-LAST:]
        return half <= WIDER * min(self.halves)

    def is_new(self, sampled):
        """Whether there was no sample of this yet."""
        is_new, self.sampled = sampled != self.sampled, sampled
        return is_new

    def tell_rate(self, page):
        """Says once that clocks move until a rate is learned."""
        if not self.is_told_of_rate and not page.daemon.rate:
            self.say('the daemon counts by no learned rate yet: until then own clocks move by some ten milliseconds in a round, or where the master changes')
        self.is_told_of_rate = True
