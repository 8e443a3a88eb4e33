"""What a schedule and its trace tell together: clocks, roles, datagrams, measurements, rounds, and what a round promises."""
import bisect
from collections import namedtuple

import tsp_clock
from tsp_texts import trace

NUMBERED = ('adjtime', 'settime', 'election', 'conflict', 'quit')


class Span(namedtuple('Span', 'begin end value lasts', defaults=(False,))):
    """Something that lasts from one true time to another, or beyond the run: a node's clock, or a port's role."""
    __slots__ = ()


class Role(namedtuple('Role', 'name master', defaults=(None,))):
    """A port's role; a follower's has the master that it follows."""
    __slots__ = ()


class Beside(namedtuple('Beside', 'clock other')):
    """A follower's clock and its master's, as long as both are the same ones."""
    __slots__ = ()

    def offset(self, at):
        """The follower's target less its master's."""
        return self.clock.offset(at) - self.other.offset(at)


class Sample(namedtuple('Sample', 'master peer reading_at low high err trip')):
    """A measurement: `reading_at` is the true time at which the peer read its clock, `low` to `high` what that clock
    then was by it, less true time."""
    __slots__ = ()


class Group(namedtuple('Group', 'master port at low high mean own')):
    """The group of a Close: what clocks it has, their mean and the master's own, less true time."""
    __slots__ = ()


class Bound(namedtuple('Bound', 'clock master follower close correct err reading_at begin end drift lasts', defaults=(True,))):
    """What is promised of a follower that a round corrected: its clock is within `width_at` of the master's, which is `clock`.
    `close` and `correct` are the places of the round's Close and of the follower's Correct."""
    __slots__ = ()

    def width_at(self, at):
        return self.err + 2 * tsp_clock.width(self.drift, at - self.reading_at)


class Chain(namedtuple('Chain', 'bounds begin end lasts')):
    """Bounds one below the other, the highest first: while all of them stand, the last one's follower is within `width_at` of the highest one's master."""
    __slots__ = ()

    @property
    def follower(self):
        return self.bounds[-1].follower

    def width_at(self, at):
        return sum(bound.width_at(at) for bound in self.bounds)


class Send:
    """An adjustment that a Close began: whose, the sample that it comes from, and the place of the Close."""

    def __init__(self, master, sample, close):
        self.master, self.sample, self.close = master, sample, close


class History:
    """A run, read once from its first act to its last. The drift of its bounds is the schedule's, or another one."""

    def __init__(self, schedule, acts, drift=None):
        self.schedule, self.acts = schedule, acts
        self.drift = schedule.drift if drift is None else drift
        self.last = schedule.events[-1].at if schedule.events else 0
        self.clocks = [[] for _ in schedule.nodes]
        self.roles, self.corrections = {}, []
        self.posts, self.samples, self.groups, self.bounds = {}, [], [], []
        self.takes = {}
        for event in schedule.events:
            if event.kind == 'take':
                self.takes.setdefault(event.datagram, []).append(event.at)
        walk = Walk(self)
        for act in acts:
            walk.act(act)
        walk.end()

    def clock(self, node, at):
        """The last clock that a node had at a true time, or None."""
        spans = self.clocks[node]
        place = bisect.bisect_right([span.begin for span in spans], at)
        return spans[place - 1].value if place else None

    def beside(self, port):
        """Spans of a port's clock beside its master's, as long as it follows one that has booted."""
        node = port[0]
        found = []
        for role in self.roles.get(port, []):
            if role.value.master is None:
                continue
            clocks = self.clocks[node], self.clocks[role.value.master]
            times = sorted({role.begin, role.end} | {span.begin for spans in clocks for span in spans if role.begin < span.begin < role.end})
            for begin, end in zip(times, times[1:]):
                own, other = (self.clock(each, begin) for each in (node, role.value.master))
                if own and other:
                    found.append(Span(begin, end, Beside(own, other), role.lasts and end == role.end))
        return found


class Tree:
    """The chains of a run: each bound for as long as it stands, with those above it, each of which began before the Close of the one below it."""

    def __init__(self, bounds):
        self.known, self.of = {}, {}
        # (those above a bound come before it, so that they are known by then)
        ordered = sorted(bounds, key=lambda bound: bound.correct)
        for bound in ordered:
            self.of.setdefault(bound.follower, []).append(bound)
        self.chains = [chain for bound in ordered for chain in self.up_from(bound)]

    def up_from(self, bound):
        """The chains that end with a bound, in the order of time."""
        key = bound.follower, bound.correct
        if key not in self.known:
            self.known[key] = self.found(bound)
        return self.known[key]

    def found(self, bound):
        chains, free = [], bound.begin
        above = [chain for each in self.of.get(bound.master, ()) if each.correct < bound.close for chain in self.up_from(each)]
        for chain in sorted(above, key=lambda chain: chain.begin):
            begin, end = max(chain.begin, free), min(chain.end, bound.end)
            if begin < end or begin == end == bound.end and chain.lasts and bound.lasts:
                chains += self.alone(bound, free, begin)
                chains.append(Chain(chain.bounds + (bound,), begin, end, chain.lasts and bound.lasts))
                free = end
        return chains + self.alone(bound, free, bound.end) if not chains or free < bound.end else chains

    @staticmethod
    def alone(bound, begin, end):
        """A bound that none is above in this time."""
        return [Chain((bound,), begin, end, bound.lasts and end == bound.end)] if begin < end or begin == bound.begin == bound.end else []


class Walk:
    """What is known of each node and port between one act and the next."""

    def __init__(self, history):
        self.of = history
        count = len(history.schedule.nodes)
        self.clock, self.clock_since, self.moved = [None] * count, [0] * count, [-1] * count
        self.role, self.asked, self.best, self.open = {}, {}, {}, {}
        self.sends, self.promised = {}, []
        self.event, self.acted, self.closed = 0, set(), {}

    def act(self, act):
        if act.event != self.event:
            self.event, self.acted, self.closed = act.event, set(), {}
        words = act.text.split(' ')
        call = getattr(self, 'on_' + words[0], None)
        if call:
            call(act, words)

    def port(self, act):
        return act.node, act.port

    def on_ring(self, act, _words):
        self.acted.add(self.port(act))

    on_late = on_took = on_ring

    def set_clock(self, act, clock):
        """From this act on a node has another clock: what was promised of the last one ends."""
        if self.clock[act.node] is not None:
            self.of.clocks[act.node].append(Span(self.clock_since[act.node], act.at, self.clock[act.node]))
        self.clock[act.node], self.clock_since[act.node] = clock, act.at
        for each in [each for each in self.promised if act.node in (each[0], each[1].follower)]:
            self.promised.remove(each)
            self.of.bounds.append(each[1]._replace(end=act.at, lasts=False))

    def on_boot(self, act, _words):
        self.set_clock(act, trace.booted(self.of.schedule.nodes[act.node], act))
        self.moved[act.node] = act.place
        for port in [port for port in self.role if port[0] == act.node]:
            self.forget(port)

    def forget(self, port):
        """A port has another role: its round and its sends are gone."""
        for known in (self.asked, self.best, self.open):
            for key in [key for key in known if key[:2] == port]:
                del known[key]

    def on_become(self, act, words):
        port = self.port(act)
        if port in self.role:
            self.of.roles.setdefault(port, []).append(Span(self.role[port][1], act.at, self.role[port][0]))
        self.role[port] = Role(words[1], int(words[2]) if words[1] == 'follow' else None), act.at
        self.forget(port)

    def on_correct(self, act, _words):
        is_of_close = self.closed.get(self.port(act)) == act.place - 1
        self.set_clock(act, trace.corrected(self.clock[act.node], act))
        self.of.corrections.append(act)
        if not is_of_close:
            self.moved[act.node] = act.place
        self.promise(act)

    def promise(self, act):
        """A follower has taken the adjustment of a Close: what is then promised of its clock."""
        event = self.of.schedule.events[act.event - 1]
        send = self.sends.get(event.datagram) if event.kind == 'take' else None
        if send is None or self.moved[send.master] > send.close:
            return
        sample = send.sample
        bound = Bound(self.clock[send.master], send.master, act.node, send.close, act.place, sample.err, sample.reading_at, act.at, self.of.last, self.of.drift)
        self.promised.append((send.master, bound))

    def on_arm(self, act, words):
        if words[1] == 'close':
            for key in [key for key in self.best if key[:2] == self.port(act)]:
                del self.best[key]

    def on_post(self, act, words):
        number, kind = int(words[1]), words[3]
        post = trace.Post(act, None if words[2] == '-' else int(words[2]))
        self.of.posts[number] = post
        key = (*self.port(act), post.to)
        if kind == 'request':
            self.asked[(*key, words[5])] = act.tick
        if kind not in NUMBERED:
            return
        if self.port(act) in self.acted:
            self.open.pop(key, None)
            close = self.closed.get(self.port(act))
            if kind == 'adjtime' and close is not None and key in self.best:
                self.open[key] = Send(act.node, self.best[key], close)
        if key in self.open:
            self.sends[number] = self.open[key]

    def on_acked(self, act, words):
        self.open.pop((*self.port(act), int(words[1])), None)

    on_gave = on_acked

    def on_sample(self, act, words):
        peer, counter, diff, err = int(words[1]), words[2], int(words[3]), int(words[4])
        event = self.of.schedule.events[act.event - 1]
        at = self.of.posts[event.datagram].act.at if event.kind == 'take' else act.at
        asked = self.asked.get((*self.port(act), peer, counter))
        middle = self.clock[act.node].offset(at) + diff
        found = Sample(act.node, peer, at, middle - err, middle + err, err, 2 * err if asked is None else act.tick - asked)
        self.of.samples.append(found)
        key = (*self.port(act), peer)
        if key not in self.best or found.trip < self.best[key].trip:
            self.best[key] = found

    def on_close(self, act, words):
        self.closed[self.port(act)] = act.place
        _, low, width, mean = (int(word) for word in words[1:])
        own = self.clock[act.node].offset(act.at)
        self.of.groups.append(Group(act.node, act.port, act.at, own + low, own + low + width, own + mean, own))

    def end(self):
        """The run has ended: what lasts lasts to its last event."""
        for node, clock in enumerate(self.clock):
            if clock is not None:
                self.of.clocks[node].append(Span(self.clock_since[node], self.of.last, clock, True))
        for port, (role, since) in self.role.items():
            self.of.roles.setdefault(port, []).append(Span(since, self.of.last, role, True))
        self.of.bounds += [bound for _, bound in self.promised]
