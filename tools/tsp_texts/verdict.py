"""The verdict on a schedule: what `replay` says of it, so far as that follows from its text alone.

What it doesn't know is how many datagrams were posted, so it says nothing of the number of a take.
"""
import itertools
from collections import namedtuple

from tsp_texts import schedule


class Fault(namedtuple('Fault', 'line cause field hint')):
    """A line that is refused: its number from 1, the words behind `bad LINE`, or None for a limit; field and hint."""
    __slots__ = ()

    def verdict(self):
        """The line that `replay` writes of it."""
        return f'limit {self.line}' if self.cause is None else f'bad {self.line} {self.cause}'


class Reader:
    """Reads a schedule line by line, and knows what a line may be at its place: `next` is the call that finds the fault of the next
    one, whose number is set before. Events that happen are kept, unless `keeps` is false."""

    def __init__(self, keeps=True):
        self.strict, self.drift, self.nodes, self.nets = False, None, [], []
        # (a take has no node of its own)
        self.events, self.happened, self.time, self.up = 0, [] if keeps else None, 0, {None}
        self.number, self.next, self.ended, self.stopped = 0, self.header_line, False, False

    def header_line(self, line):
        """The fault of a line of the header, or of the first one behind it."""
        if self.number == 1:
            self.strict = schedule.TITLES.get(line, False)
            return None if line in schedule.TITLES else self.header(lambda hints: hints.explain(line, hints.FIRST))
        if self.number == 2:
            self.drift = schedule.drift_of(line)
            return self.header(lambda hints: hints.explain(line, hints.DRIFT)) if self.drift is None else None
        if self.number == 3 and self.strict:
            return None if line == b'strict' else self.header(lambda hints: hints.explain(line, hints.STRICT))
        if line.startswith(b'node '):
            return self.node(line)
        if line.startswith(b'net '):
            return self.net(line)
        if not self.nodes:
            return self.header(lambda hints: (1, hints.NO_STRICT if line == b'strict' and self.number == 3 else hints.NO_NODE))
        if not schedule.is_whole(self.nodes, self.nets):
            return self.header(lambda hints: (0, hints.lonely(self.nodes, self.nets)))
        self.next = self.event
        return self.event(line)

    def header(self, explain):
        """A line of the header that isn't one: `explain` finds the field and the hint. (what finds hints is loaded where there is a fault)"""
        from tsp_texts import hints
        self.stopped = True
        return Fault(self.number, 'header', *explain(hints))

    def node(self, line):
        value = schedule.node_of(line, self.drift)
        if value is None:
            return self.header(lambda hints: hints.explain(line, hints.node_line(self.drift)))
        if self.nets:
            return self.header(lambda _: (1, 'nodes stand before networks'))
        if len(self.nodes) == schedule.MOST_NODES:
            return self.header(lambda _: (1, f'there are {schedule.MOST_NODES} nodes, and no more are taken'))
        self.nodes.append(value)
        return None

    def net(self, line):
        value = schedule.net_of(line)
        if value is None:
            return self.header(lambda hints: hints.explain_net(line, self.nodes))
        if not schedule.takes_net(self.nodes, self.nets, value):
            return self.header(lambda hints: hints.full_net(value, self.nodes, self.nets))
        self.nets.append(value)
        return None

    def event(self, line):
        """The fault of a line behind the header."""
        event = schedule.event_of(line)
        if event is None:
            return self.no_event(line)
        self.events += 1
        kind, at, node, _, _, peer, port = event
        # (nothing else can be wrong with what most events are)
        if at < self.time or node not in self.up or peer is not None or port or self.events > schedule.MOST_EVENTS:
            fault = self.fault(event) or self.surplus()
            if fault:
                return fault
        self.time = at
        if self.happened is not None:
            self.happened.append(event)
        if kind == 'boot':
            self.up.add(node)
        return None

    def no_event(self, line):
        """The fault of a line that is no event, unless it is the end."""
        if line == b'end':
            self.ended, self.next = True, self.behind_end
            return None
        from tsp_texts import hints
        self.events += 1
        return Fault(self.number, 'line', *hints.explain_event(line, self.nodes))

    def behind_end(self, _line):
        """The fault of any line behind the end."""
        self.stopped = True
        return Fault(self.number, 'after-end', 1, '`end` is the last line; nothing stands behind it')

    def fault(self, event):
        """The first fault of an event, where it follows from the text alone."""
        if event.at < self.time:
            return Fault(self.number, f'time-back {event.at} {self.time}', 2, f'the time goes back: the last event was at {self.time}')
        count = len(self.nodes)
        for field, node in (4, event.node), (5, event.peer):
            if node is not None and node >= count:
                there = f'there are {count} nodes, numbered 0 to {count - 1}' if count > 1 else 'there is one node, number 0'
                return Fault(self.number, f'no-node {node} {count}', field, there)
            if field == 4 and event.port and event.port >= (ports := len(schedule.ports_of(self.nets, node))):
                has = f'node {node} has {ports} ports, numbered from 0' if ports > 1 else f'node {node} has one port, which is named by its number alone'
                return Fault(self.number, f'no-node {node} {count}', 4, has)
        if event.kind != 'boot' and event.node not in self.up:
            name = self.nodes[event.node].name
            return Fault(self.number, f'not-up {event.node}', 4, f'node {event.node}, {name}, hasn\'t booted: `at T boot {event.node} WORD` comes first')
        return None

    def surplus(self):
        """The fault of an event where there are too many."""
        if self.events <= schedule.MOST_EVENTS:
            return None
        self.stopped = True
        return Fault(self.number, None, 0, f'there are {schedule.MOST_EVENTS} events, and no more are taken')

    def end(self):
        """The fault of the input's end, or None."""
        self.number += 1
        if not self.nodes:
            return self.header(lambda _: (0, 'the input ends before the first node'))
        if not schedule.is_whole(self.nodes, self.nets):
            return self.header(lambda hints: (0, hints.lonely(self.nodes, self.nets)))
        return None if self.ended else Fault(self.number, 'no-end', 0, 'the last line is `end`, and it is missing')

    def schedule(self):
        """What was read, of a reader that keeps events."""
        return schedule.Schedule(self.strict, self.drift, self.nodes, self.happened, self.nets)


class NotASchedule(Exception):
    """The first fault of a text that isn't a schedule."""

    def __init__(self, fault):
        super().__init__(f'line {fault.line}: {fault.hint}')


def faults_of(text, reader=None):
    """The faults of a text, one after the other. Behind a fault of the header, nothing is looked at."""
    reader = reader or Reader(keeps=False)
    last = text.count(b'\n', 0, schedule.MOST_OCTETS) if len(text) > schedule.MOST_OCTETS else None
    for reader.number, line in enumerate(itertools.islice(schedule.lines_of(text), last), 1):
        fault = reader.next(line)
        if fault:
            yield fault
            if reader.stopped:
                return
    fault = reader.end() if last is None else Fault(last + 1, None, 0, f'the input has more than {schedule.MOST_OCTETS} octets')
    if fault:
        yield fault


def read(text):
    """The schedule that a text is, whose takes aren't looked at."""
    reader = Reader()
    fault = next(faults_of(text, reader), None)
    if fault:
        raise NotASchedule(fault)
    return reader.schedule()
