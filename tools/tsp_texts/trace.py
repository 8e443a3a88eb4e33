"""Traces: the lines of a run, and a node's clock.

All times are microseconds. `at` is true time, `tick` a node's own count.
"""
from collections import namedtuple

from tsp_clock import MILLION, SLEW, eased


class Act(namedtuple('Act', 'place event node port tick at text')):
    """A line of a trace: its place among the lines, and the true time of its event. The text says what was done."""
    __slots__ = ()

    @property
    def words(self):
        """The words of the text, which aren't kept: a trace may have very many."""
        return self.text.split(' ')


class Post(namedtuple('Post', 'act to')):
    """A datagram that was posted; `to` is None where it went to a stranger."""
    __slots__ = ()

    @property
    def message(self):
        """The words of the message."""
        return self.act.words[3:]


def tick_at(node, at):
    """The tick of a node at a true time."""
    return at + at * node.rate // MILLION


class Clock(namedtuple('Clock', 'node base rest since')):
    """A node's clock from a boot or a correction on.

    `base` is what the target is before the node's tick, `rest` by how much the shown value was short of the target at
    `since`, a tick.
    """
    __slots__ = ()

    def offset(self, at):
        """The target less true time."""
        return self.base + tick_at(self.node, at) - at

    def shown(self, at):
        """The shown value less true time."""
        return self.offset(at) - eased(self.rest, tick_at(self.node, at) - self.since)

    def met_at(self):
        """The first true time at which the shown value is the target."""
        return -(-(self.since + abs(self.rest) * SLEW) * MILLION // (MILLION + self.node.rate))


def booted(node, act):
    """The clock of a node that boots."""
    return Clock(node, node.wall, 0, act.tick)


def corrected(clock, act):
    """A clock after a correction, by what its act says."""
    _, amount, _, shown = act.words
    base = clock.base + int(amount)
    return Clock(clock.node, base, base + act.tick - int(shown), act.tick)
