"""How far corrected clocks are from each other, beside what was promised of them: of a lab's run, and of a simulated one."""
from typing import NamedTuple

from lab.hosts import Failed
from tsp_texts import history, schedule, trace

MILLION, BILLION = 10**6, 10**9


class Distance(NamedTuple):
    """Two corrected clocks at a moment: how far they are apart, and how far they may be; in microseconds."""
    apart: int
    promised: int


class KnownClocks:
    """The clocks of a lab, which knows the rate and the wall clock of each host, in the place of what would be found of them. Each host has one life."""

    def __init__(self, daemons, start):
        self.daemons, self.rates, self.walls = daemons, [daemon.fast for daemon in daemons], [start + daemon.ahead for daemon in daemons]
        self.drift = max(map(abs, self.rates))

    def of(self, clocks, _count):
        """Takes the place of what a story makes of the clocks that it finds. (a wall clock doesn't run by the rate of the daemon's counter, so that the
        one that would is another one)"""
        self.bases = {life: life.base for life in clocks.matching.lives()}
        for life, base in self.bases.items():
            self.walls[life.node] -= (base - self.walls[life.node]) * self.daemons[life.node].rate // BILLION
        return self

    def tick(self, life, tick):
        return tick + self.bases[life] - self.walls[life.node]

    def at(self, turn):
        return -(-self.tick(turn.life, turn.tick) * MILLION // (MILLION + self.rates[turn.life.node]))


def history_of(story, drift):
    """The history of a story."""
    network, placing = story.network, story.placing
    nodes = [schedule.Node(name, rate, wall, flag == 'm') for name, rate, wall, flag in zip(network.names, placing.rates, placing.walls, network.flags)]
    events = [schedule.event_of(event.encode('ascii')) for event in story.events]
    told = schedule.Schedule(network.strict, drift, nodes, events)
    acts = []
    for claim in story.claims:
        node, port, tick, text = claim.text.split(' ', 3)
        acts.append(trace.Act(len(acts), claim.event, int(node), int(port), int(tick), events[claim.event - 1].at, text))
    return history.History(told, acts)


def distances(told):
    """Each follower beside its master, and each two of a master, at both ends of the time for which something is promised of them."""
    clocks = [told.clock(bound.follower, bound.begin) for bound in told.bounds]
    for place, bound in enumerate(told.bounds):
        for at in bound.begin, bound.end:
            yield Distance(abs(clocks[place].offset(at) - bound.clock.offset(at)), bound.width_at(at))
        for later in range(place + 1, len(told.bounds)):
            other = told.bounds[later]
            begin, end = max(bound.begin, other.begin), min(bound.end, other.end)
            if other.clock is bound.clock and begin <= end:
                for at in begin, end:
                    yield Distance(abs(clocks[place].offset(at) - clocks[later].offset(at)), bound.width_at(at) + other.width_at(at))


def summary(told):
    """What is to be told of a history: its rounds' corrections, the least error of a sample, the greatest distance of two corrected clocks, what
    was promised then, and the greatest part of what was promised that a distance came to."""
    found = list(distances(told))
    if not found:
        raise Failed('no round corrected a host')
    widest = max(found, key=lambda each: each.apart)
    return {'corrections': len(told.bounds), 'error': min(sample.err for sample in told.samples), 'apart': widest.apart, 'promised': widest.promised,
            'part': max(each.apart / each.promised for each in found)}
