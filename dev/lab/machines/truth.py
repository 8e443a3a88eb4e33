"""How far clocks of machines are apart, by the one counter of the processor on which they run."""
import bisect
import subprocess
import time
from collections import namedtuple

from lab.hosts import Failed

# A line of the sampler that took more counts than this was cut in two by something else; samples between which a clock is read are no farther apart.
WIDEST, APART = 1_000_000, 3_000_000
STALE, SYNCHRONISED, LEADS = 0, 2, 2
# Microseconds: by how many a correction of a master is noted, and until each host has looked at it since.
NOTED, LOOKED = 150, 20_000_000
# A clock is stepped if it moves by more than so many microseconds, and by more than chronyd slews, which is a twelfth.
STEPPED, SLEWED = 10_000, 0.084
# Seconds: how long the host answers, and between two moments at which clocks are compared.
ANSWERS, PACE = 60, 0.5


class Sample(namedtuple('Sample', 'real_at real page_at shown earliest latest status role life steps width')):
    """A line of the sampler."""
    __slots__ = ()


class Clock:
    """A clock of one machine: what it showed, in microseconds, and when, in microseconds by the host's counter."""

    def __init__(self, pairs):
        self.at, self.shown = [at for at, _ in pairs], [shown for _, shown in pairs]

    def read(self, moment):
        """What it showed at a moment, between two samples; None where there are none near by."""
        place = bisect.bisect_left(self.at, moment)
        if place in (0, len(self.at)) or self.at[place] - self.at[place - 1] > APART:
            return None
        share = (moment - self.at[place - 1]) / (self.at[place] - self.at[place - 1])
        return self.shown[place - 1] + share * (self.shown[place] - self.shown[place - 1])


def both(answerer):
    """The host's counter, and its own clock at it in microseconds."""
    count, clock = subprocess.run([answerer, 'now'], stdout=subprocess.PIPE, check=True).stdout.split()
    return int(count), int(clock) / 1000


def counts_in_microsecond(answerer):
    """How many counts the host's counter makes in a microsecond, by the host's own clock."""
    (first, begun), _, (last, ended) = both(answerer), time.sleep(2), both(answerer)
    return (last - first) / (ended - begun)


def now(network):
    """The host's counter."""
    return both(network.answerer)[0]


def begin(network, seconds, machines=None):
    """Begins samples on machines, for so many seconds."""
    def one(machine):
        machine.must('systemctl stop sampler 2>/dev/null; rm -f /srv/samples; '
                     f'systemd-run --quiet --collect --unit=sampler sh -c "exec /srv/sampler {seconds} >/srv/samples"')
    network.each(one, machines)


def offset(network, machine):
    """By how many counts the host's counter is ahead of a machine's, and by how many that may be wrong."""
    with subprocess.Popen([network.answerer, machine.shared, str(ANSWERS)]) as answering:
        try:
            words = machine.must('/srv/sampler offset $(dirname $(grep -l 0x1110 /sys/bus/pci/devices/*/device | head -n 1))/resource2').split()
        finally:
            answering.kill()
    return int(words[0]), int(words[1]) // 2 + 1


def samples(network, machine):
    """The samples of a machine, by the host's counter."""
    ahead, _ = offset(network, machine)
    return of_lines(machine.get('/srv/samples').decode().split('\n'), ahead)


def of_lines(lines, ahead):
    """The samples of lines of the sampler, where the host's counter is ahead by so many counts."""
    found = []
    for line in lines:
        words = line.split(' ')
        if len(words) == len(Sample._fields) and int(words[-1]) <= WIDEST:
            one = Sample(*map(int, words))
            found.append(one._replace(real_at=one.real_at + ahead, page_at=one.page_at + ahead))
    return found


class Truth:
    """What was sampled on machines: the samples of each, and how many counts a microsecond has. `taken` gives those of a machine."""

    def __init__(self, network, machines=None, taken=samples):
        self.rate = counts_in_microsecond(network.answerer)
        self.machines = machines or network.machines
        # (one after the other, since each keeps a processor busy)
        self.samples = [taken(network, machine) for machine in self.machines]
        empty = [machine.name for machine, found in zip(self.machines, self.samples) if not found]
        if empty:
            raise Failed(f'{", ".join(empty)} has no samples')

    def clocks(self, what):
        """The clocks of all machines: `own`, `shown` or `middle`."""
        return [Clock([self.pair(sample, what) for sample in found if what == 'own' or sample.status == SYNCHRONISED]) for found in self.samples]

    def pair(self, sample, what):
        """When a clock was read, and what it showed."""
        if what == 'own':
            return sample.real_at / self.rate, sample.real / 1000
        return sample.page_at / self.rate, sample.shown if what == 'shown' else (sample.earliest + sample.latest) / 2

    def moments(self):
        """The moments at which clocks are compared."""
        begun, ended = max(found[0].page_at for found in self.samples) / self.rate, min(found[-1].page_at for found in self.samples) / self.rate
        return [begun + 1e6 * PACE * step for step in range(int((ended - begun) / 1e6 / PACE))]

    def apart(self, what, begun=0, ended=float('inf')):
        """How far each two clocks were apart at each moment, in microseconds, in order; at those of a part of the time, where that is named."""
        clocks, found = self.clocks(what), []
        for moment in (moment for moment in self.moments() if begun <= moment < ended):
            read = [value for value in (clock.read(moment) for clock in clocks) if value is not None]
            found += [abs(one - other) for place, one in enumerate(read) for other in read[:place]]
        return sorted(found)

    def missed(self):
        """How many readings of followers had an interval, and how many of these didn't have the master's clock in it."""
        found = self.judged()
        return len(found), sum(late != 0 for _, _, late in found)

    def judged(self):
        """Of each reading of a follower that had an interval: its machine, when it was, and by how many microseconds the interval is too late (or early, below
        0) to have the master's clock in it. Those that came between a correction of the master and the next look at it aren't judged."""
        leading = [[sample for sample in found if sample.role == LEADS] for found in self.samples]
        clocks = [Clock([(sample.page_at / self.rate, sample.earliest) for sample in led]) for led in leading]
        moved, judged = sorted(moment for led in leading for moment in self.corrected(led)), []
        for machine, found in zip(self.machines, self.samples):
            for sample in (sample for sample in found if sample.status == SYNCHRONISED and sample.role != LEADS):
                moment = sample.page_at / self.rate
                true = [value for value in (clock.read(moment) for clock in clocks) if value is not None]
                if len(true) == 1 and not is_within(moved, moment - LOOKED, moment + PACE * 1e6):
                    judged.append((machine, moment, max(sample.earliest - true[0], 0) + min(sample.latest - true[0], 0)))
        return judged

    def falls(self):
        """Of each shown value that is below the one before, in the same life of a daemon and without a step between them: its machine, when it was, and by how
        many microseconds."""
        fallen = []
        for machine, found in zip(self.machines, self.samples):
            shown = [sample for sample in found if sample.status != STALE]
            fallen += [(machine, one.page_at / self.rate, before.shown - one.shown) for before, one in zip(shown, shown[1:])
                       if (before.life, before.steps) == (one.life, one.steps) and one.shown < before.shown]
        return fallen

    def stepped(self):
        """By how many milliseconds machines' own clocks were stepped: by more than chronyd slews from one sample to the next."""
        found = []
        for machine, taken in zip(self.machines, self.samples):
            for before, one in zip(taken, taken[1:]):
                passed = (one.real_at - before.real_at) / self.rate
                moved = (one.real - before.real) / 1000 - passed
                if abs(moved) > STEPPED + SLEWED * passed:
                    found.append(f'{machine.name} by {moved / 1000:+.0f} ms')
        return ', '.join(found) or 'none'

    def corrected(self, led):
        """The moments before which a master's clock was corrected."""
        return [one.page_at / self.rate for before, one in zip(led, led[1:])
                if abs((one.earliest - before.earliest) - (one.page_at - before.page_at) / self.rate) > NOTED]


def is_within(moments, begun, ended):
    """Whether one of these moments, which are in order, is in a part of the time."""
    place = bisect.bisect_left(moments, begun)
    return place < len(moments) and moments[place] <= ended


def three(values):
    """The median, 99 in 100 and the greatest, in microseconds."""
    if not values:
        return 'none'
    return ', '.join(f'{values[min(int(len(values) * share), len(values) - 1)]:.0f}' for share in (0.5, 0.99, 1))
