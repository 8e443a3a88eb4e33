"""Models the loop of a machine's own clock that is fed with samples: clocks that chronyd slews, daemons that count, and what tsp-feed makes of their pages.

Counted by the raw counter own clocks settle; by the one that chronyd slews they run away together.
"""
import os
import sys

sys.dont_write_bytecode = True
sys.path.insert(0, os.path.dirname(os.path.dirname(os.path.realpath(__file__))))

import tsp_clock  # noqa: E402
from tsp_clock import MONOTONIC, RAW, Daemon, Look, Page  # noqa: E402
from tsp_daemon import feed  # noqa: E402

BILLION = 10 ** 9
# When all begins, in seconds since 1970; for how long it runs; and how often the master is looked at.
BEGIN, LONG, LOOKS = 1_800_000_000, 1800, 16
# How much of an offset goes into the rate, and how much is slewed away until the next sample.
TO_RATE, TO_PHASE = 0.3, 0.7


class Machine:
    """A machine whose crystal is off by so many parts in a million, and whose own clock by so many seconds."""

    def __init__(self, ppm, off, counter):
        self.crystal, self.counter = 1 + ppm / 1e6, counter
        self.raw, self.own, self.off = 0.0, 0.0, off
        self.rate, self.slew = 0.0, 0.0
        self.feed, self.said = feed.Feed(self.hear), []
        self.daemon = Daemon(1, counter, 0, 0, tick=0, target=BEGIN * 1_000_000, alive=0)
        self.look = Look()

    def hear(self, text):
        """Takes a line of the feed."""
        self.said.append(text)

    def run(self, seconds):
        """Lets so many seconds pass: chronyd slews the own clock, and CLOCK_MONOTONIC with it."""
        passed = seconds * self.crystal
        self.raw += passed
        self.own += passed * (1 + self.rate + self.slew)

    def now(self):
        """The nanoseconds of the clock by which the daemon counts."""
        return int((self.raw if self.counter == RAW else self.own) * BILLION)

    def tick(self):
        """The daemon's tick."""
        return self.daemon.tick_at(self.now())

    def target(self):
        """The daemon's clock."""
        return self.daemon.target_at(self.tick())

    def real(self):
        """The nanoseconds of the own clock."""
        return BEGIN * BILLION + int((self.own + self.off) * BILLION)

    def take(self):
        """Hands a sample of the page to chronyd, if there is one."""
        page = Page(self.daemon._replace(alive=self.tick()), self.look)
        octets = self.feed.sample(feed.Moment(page, self.now(), self.real()))
        if octets:
            assert len(octets) == 40
            seconds, parts, ahead, *_, magic = feed.SAMPLE.unpack(octets)
            assert magic == 0x534f434b and (seconds * BILLION + parts * 1000) // 1000 == self.real() // 1000
            self.rate += TO_RATE * ahead / LOOKS
            self.slew = TO_PHASE * ahead / LOOKS


def ran(counter):
    """Runs two machines, of which one leads and the other one follows, and gives by how much their own clocks differ and their rates, once a second."""
    master, slave = Machine(41, 0.004, counter), Machine(-24, -0.006, counter)
    master.daemon = master.daemon._replace(role=tsp_clock.LEADS)
    slave.daemon = slave.daemon._replace(role=tsp_clock.FOLLOWS, master=1)
    seen = []
    for second in range(LONG):
        if second % LOOKS == 0:
            ahead = master.target() - slave.target()
            slave.look = Look(1, 0, slave.tick(), ahead - 300, ahead + 300, 1, had=1, name=b'm')
        for machine in (master, slave):
            machine.take()
            machine.run(1)
        seen.append((abs(master.real() - slave.real()) / 1e6, max(abs(machine.rate) * 1e6 for machine in (master, slave))))
    return seen, slave.said


def main():
    settled, said = ran(RAW)
    apart, rate = (max(values) for values in zip(*settled[300:]))
    assert apart < 1.5, f'fed by the raw counter own clocks are {apart} ms apart'
    assert rate < 80, f'fed by the raw counter chronyd has a rate of {rate} parts in a million'
    assert said == ['m leads: samples are sent', 'the daemon counts by no learned rate yet: until then own clocks move by some ten milliseconds in a round, '
                    'or where the master changes'], said
    away, _ = ran(MONOTONIC)
    assert away[-1][1] > 1000 and away[-1][1] > 2 * away[LONG // 3][1], f'fed by the slewed counter chronyd has a rate of {away[-1][1]} parts in a million'
    print(f'raw: {settled[-1][0]:.3f} ms apart, at a rate of {settled[-1][1]:.1f} parts in a million; slewed: {away[-1][1]:.0f}')


main()
