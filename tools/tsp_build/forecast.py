"""How far a run of proofs is, and how long the rest takes, by what this machine has done so far.

The rest is played in advance as `rt` would do it on a machine that takes as long as docs/GATE.md says: each crate as soon as those below it
are proved and a processor is free. How much slower this machine is shows in what single crates took, and in how long it took to get this far.
"""
import heapq

# What comes after the last proof: the program is compiled by two compilers, linked and tried.
BUILD = 25.0
# From one line to the next the end is put off by no greater part than this: a crate that takes long says little of the others.
PUT_OFF = 0.1
# How many times as fast a proof is by so many jobs, and how many it gets at the most.
FASTER = (1.0, 1.0, 1.6, 2.1, 2.5)
MOST_JOBS = len(FASTER) - 1


def behind_of(work, listed):
    """The work of the longest chain that begins with each crate and goes up."""
    behind = {}
    for name in reversed(listed):
        behind[name] = behind.get(name, 0.0) + work[name]
        for each in listed[name]:
            behind[each] = max(behind.get(each, 0.0), behind[name])
    return behind


def begin(work, listed, processors, first):
    """The seconds of a run's first step: the dearest of the lowest crates by as many jobs as there may be, and the others of them beside it."""
    others = sum(work[name] for name in work if not listed[name] and name != first)
    return work[first] / FASTER[min(MOST_JOBS, processors)] + others / processors


def play(work, listed, processors, first, begun=()):
    """The seconds that these crates take, played in advance, and those of each; one without work is proved already. The program's build comes last.
    Of ready crates those that are begun come first, then those with the longest chain above. A crate gets the processors that no other waits for."""
    end, takes, behind = {name: 0.0 for name in work if not work[name]}, {}, behind_of(work, listed)
    busy, now, idle = [], 0.0, processors
    if work[first]:
        now = begin(work, listed, processors, first)
        takes = {name: now for name in work if not listed[name]}
        end.update(takes)
    waiting = sorted((name for name in work if name not in end), key=lambda name: (name not in begun, -behind[name]))
    while waiting or busy:
        ready = [name for name in waiting if all(end.get(each, now + 1) <= now for each in listed[name])]
        for place, name in enumerate(ready[:idle]):
            jobs = max(1, min(MOST_JOBS, idle // (len(ready) - place)))
            takes[name] = work[name] / FASTER[jobs]
            waiting.remove(name)
            idle -= jobs
            end[name] = now + takes[name]
            heapq.heappush(busy, (end[name], jobs))
            if not idle:
                break
        if busy:
            now, jobs = heapq.heappop(busy)
            idle += jobs
    return max(end.values(), default=0.0) + BUILD, takes


class Forecast:
    """How far a run is. Percentages never fall."""

    def __init__(self, work, listed, processors, first):
        self.work, self.listed, self.first = dict(work), listed, first
        self.processors = max(1, processors)
        self.ended, self.took, self.percent, self.total = {}, {}, 0, None
        self.whole, self.alone = play(self.work, self.listed, self.processors, self.first)

    def expected(self):
        """The seconds of the whole run on a machine as docs/GATE.md has it."""
        return self.whole

    def keep(self, names):
        """These crates needn't be proved: an earlier run proved them."""
        kept = [name for name in names if name not in self.ended]
        for name in kept:
            self.ended[name] = 0.0
            self.work[name] = 0.0
        if kept:
            self.whole, self.alone = play(self.work, self.listed, self.processors, self.first)

    def end(self, names, spent, begun):
        """These crates are proved; `begun` has when each of them began."""
        for name in names:
            if name not in self.ended:
                self.ended[name] = spent
                # (what is proved beside the first one says little)
                if name in begun and (self.listed[name] or name == self.first):
                    self.took[name] = spent - begun[name]

    def reckon(self, begun, spent):
        """The percentage of the work that is done, and the seconds that are left, after so many seconds; `begun` has when each crate in work began."""
        whole, slower = self.whole, self.by_crates()
        rest = self.rest(begun, spent, slower)
        if len(self.took) >= 2:
            # (later in a run, how long it took to get this far tells more than single crates do)
            share = 1 - rest / whole
            slower = (1 - share) * slower + share * spent / max(whole - rest, 1.0)
            rest = self.rest(begun, spent, slower)
        self.percent = max(self.percent, min(99, int(100 * (1 - rest / whole))))
        # (before the second crate is proved little is known)
        total = spent + slower * rest
        if self.total is not None and len(self.took) > 2:
            total = min(total, (1 + PUT_OFF) * self.total)
        self.total = total
        return self.percent, max(total - spent, 5.0)

    def by_crates(self):
        """How many times as long as docs/GATE.md says single crates took. Before the second one is proved that isn't known."""
        work = sum(self.alone[name] for name in self.took)
        return max(0.2, sum(self.took.values()) / work) if len(self.took) >= 2 and work > 0 else 1.0

    def rest(self, begun, spent, slower):
        """The seconds that the rest takes on a machine as docs/GATE.md has it."""
        left = {name: 0.0 if name in self.ended else work for name, work in self.work.items()}
        for name, since in begun.items():
            if left.get(name):
                left[name] *= 1 - self.part(name, spent - since, slower)
        rest = play(left, self.listed, self.processors, self.first, begun)[0]
        if len(self.ended) == len(self.work):
            rest = max(rest - (spent - max(self.ended.values())) / slower, 1.0)
        return rest

    def part(self, name, seconds, slower):
        """How much of a crate in work is done, as far as can be said: never all of it."""
        share = seconds / (slower * self.alone[name])
        # (one that takes longer than was thought comes near its end more and more slowly)
        return share if share < 0.8 else 1 - 0.2 * 0.8 / share
