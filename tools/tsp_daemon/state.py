"""A daemon's state, as its trace tells it line by line."""
from __future__ import annotations

from collections import namedtuple

from tsp_daemon import learn, rates, trace
from tsp_texts import told

ROLES = ('starting', 'loose', 'follow', 'candidate', 'master')
# Alarms that only a node with this role has; where a trace is read from its middle, they tell the role.
ROLE_OF_ALARM = {'quiet': 'starting', 'search': 'loose', 'window': 'candidate', 'probe': 'master', 'close': 'master', 'resolve': 'master', 'round': 'master'}
CORRECTIONS = ('adjtime', 'settime')
# Messages that don't bear the name of the daemon that sends them: answers to questions, clock readings, and what is handed on.
NAMELESS = ('ack', 'request', 'reply', 'refused', 'loop')


class NoDaemon(Exception):
    """The trace is one of several nodes, as `tsp replay` writes it."""


class Change(namedtuple('Change', 'tick port kind values')):
    """Something that changed: what, when, and its values by name."""
    __slots__ = ()


class Sample(namedtuple('Sample', 'offset error tick')):
    """A measurement of a peer, as far as it counts."""
    __slots__ = ()


class Correction(namedtuple('Correction', 'amount way shown tick')):
    """A correction: by so many microseconds, slewed or stepped. Right after it the clock showed `shown`."""
    __slots__ = ()


class Peer:
    """Another daemon, as this one's trace tells of it. `told` is the last correction that was sent to it, with its number; `shown` isn't known of it."""

    def __init__(self, port):
        self.port, self.is_slave, self.sample, self.is_measured = port, False, None, False
        self.told, self.number, self.finder = None, '', rates.Finder()


class Port:
    """A daemon on one of its networks. The role is empty while it isn't known; `alarms` have the tick at which each is due."""

    def __init__(self, role='', master=None):
        self.role, self.master, self.alarms, self.rivals = role, master, {}, []


class Counts:
    """What was counted since the first line, over all starts of the daemon."""

    def __init__(self):
        self.lines = self.corrections = self.late = self.unanswered = 0


class Daemon:
    """A daemon: its ports, its peers by their numbers, its last correction, what it was late with, when a QUIT came, and whom it voted for last
    and when; what is learned of its counter; and the last time that its supervisor told, in seconds since 1970, behind the tick of the line before."""

    def __init__(self, learning: learn.Learning | None = None):
        self.counts, self.learning = Counts(), learning or learn.Learning()
        self.names, self.said = {}, {}
        self.begin()

    def begin(self):
        """Forgets all that a start of the daemon makes void."""
        self.tick, self.ports, self.peers = 0, {}, {}
        self.correction: Correction | None = None
        self.late = self.quit = self.backed = None
        self.finder = rates.Finder()
        self.is_traced = True
        self.took = self.told = None

    def name(self, number):
        """A peer's name, or its number where no line told its name."""
        return self.names.get(number) or self.said.get(number) or f'peer {number}'

    def label(self, number):
        """A peer's name, with its number where another peer has the same name."""
        name = self.name(number)
        return name if sum(self.name(other) == name for other in self.peers) == 1 else f'{name} ({number})'

    @property
    def own_name(self):
        """The daemon's own name, or the empty text."""
        return self.names.get(0) or self.said.get(0) or ''

    def take(self, line) -> list[Change]:
        """Reads a line, and gives what it changed. NoDaemon is raised where it is no daemon's."""
        names = told.names_in(line)
        if names:
            self.begin()
            self.names = dict(enumerate(names))
            self.learning.begin(0)
            return [Change(0, 0, 'start', {'name': names[0], 'peers': names[1:]})]
        act = trace.line_of(line)
        if act is None:
            self.applies(*(told.rate_in(line) or ()))
            seconds = told.time_in(line)
            if seconds is not None and self.tick:
                self.told = self.tick, seconds
            return []
        if act.node:
            raise NoDaemon
        self.counts.lines += 1
        if act.tick < self.tick:
            self.begin()
            self.learning.anew()
        self.tick = act.tick
        word, *said = act.text.split(' ')
        call = getattr(self, f'on_{word}', None)
        changes = [Change(act.tick, act.port, kind, values) for kind, values in (call(act, *said) if call else ())]
        return changes + self.learned(act, changes) if changes else changes

    def applies(self, rate=None, tick=0):
        """The launcher says with which rate the daemon counts, from its start or from a tick on."""
        if tick:
            self.learning.applies(tick, rate)
        elif rate is not None:
            self.learning.begin(rate)

    def learned(self, act, changes):
        """What is learned by changes, where it is another estimate than before."""
        is_set = self.took is not None and self.took[0] == act.number and self.took[2] == 'settime'
        if not any([self.learning.change(change, is_set) for change in changes]):
            return []
        found = self.learning.found
        return [Change(act.tick, act.port, 'learned', {'learned_ppb': found.rate, 'error_ppb': found.error, 'applied_ppb': self.learning.applied})]

    def port(self, act):
        """The port of an act."""
        return self.ports.setdefault(act.port, Port())

    def peer(self, act, number):
        """A peer that an act is about."""
        return self.peers.setdefault(int(number), Peer(act.port))

    def become(self, act, role, master=None):
        """The daemon has this role from now on: no alarm is armed, and it knows no slaves and no rivals."""
        self.ports[act.port] = Port(role, master)
        for peer in self.peers.values():
            if peer.port == act.port:
                peer.is_slave = False
                peer.finder.forget()
        self.finder.forget()
        yield 'role', {'role': role, 'master': self.master_name(self.ports[act.port])}

    def must_be(self, act, role, master=None):
        """The daemon has this role, where it wasn't known yet."""
        if not self.port(act).role:
            alarms = self.port(act).alarms
            yield from self.become(act, role, master)
            self.port(act).alarms = alarms

    def master_name(self, port):
        """The name of the master that a port follows or is, or None."""
        if port.role == 'follow':
            return self.name(port.master)
        return (self.own_name or self.name(0)) if port.role == 'master' else None

    def on_become(self, act, role, number=None):
        yield from self.become(act, role, None if number is None else int(number))

    def on_took(self, act, who, *words):
        if who != '-' and words[0] not in NAMELESS and words[-1] != '%':
            self.said[int(who)] = words[-1]
        self.took = act.number, who, words[0]
        return ()

    def on_post(self, act, _, who, *words):
        if words[0] not in NAMELESS:
            self.said[0] = words[-1]
        if words[0] == 'slaveup' and who != '-':
            yield from self.must_be(act, 'follow', int(who))
        if words[0] in CORRECTIONS and who != '-':
            self.tell(act, self.peer(act, who), words)

    @staticmethod
    def tell(act, peer, words):
        """A correction is sent to a slave, again where it has the same number. A clock that is set begins anew."""
        word, number, amount, _ = words
        if number == peer.number:
            return
        peer.number = number
        if word == 'adjtime':
            peer.told = Correction(int(amount), 'slew', 0, act.tick)
            peer.finder.moves(int(amount))
        else:
            peer.told = Correction(0, 'step', int(amount), act.tick)
            peer.finder.forget()

    def on_arm(self, act, alarm, tick):
        if alarm in ROLE_OF_ALARM:
            yield from self.must_be(act, ROLE_OF_ALARM[alarm])
        alarms = self.port(act).alarms
        is_new = alarms.get(alarm) != int(tick)
        alarms[alarm] = int(tick)
        if is_new and alarm in ('round', 'elect'):
            yield 'next', {'alarm': alarm, 'in_us': int(tick) - act.tick}

    def on_ring(self, act, alarm):
        if ROLE_OF_ALARM.get(alarm) == 'master':
            yield from self.must_be(act, 'master')
        self.port(act).alarms.pop(alarm, None)
        if alarm == 'round':
            for peer in self.peers.values():
                peer.is_measured = peer.is_measured and peer.port != act.port

    def on_late(self, act, alarm):
        yield from self.on_ring(act, alarm)
        self.counts.late += 1
        self.late = alarm, act.tick
        yield 'late', {'alarm': alarm}

    def on_join(self, act, number):
        yield from self.must_be(act, 'master')
        self.peer(act, number).is_slave = True
        self.peer(act, number).finder.forget()
        yield 'join', {'peer': self.name(int(number))}

    def on_leave(self, act, number):
        self.peer(act, number).is_slave = False
        yield 'leave', {'peer': self.name(int(number))}

    def on_sample(self, act, number, _counter, offset, error, _ticket):
        """Of a round's measurements of a slave the one with the least error counts."""
        yield from self.must_be(act, 'master')
        peer, sample = self.peer(act, number), Sample(int(offset), int(error), act.tick)
        if peer.is_measured and peer.sample.error <= sample.error:
            return
        peer.sample, peer.is_measured, peer.is_slave = sample, True, True
        yield 'sample', {'peer': self.name(int(number)), 'offset_us': sample.offset, 'error_us': sample.error}

    def on_close(self, act, count, _low, width, mean):
        yield from self.must_be(act, 'master')
        yield 'round', {'clocks': int(count), 'width_us': int(width), 'mean_us': int(mean)}
        for name, peer in sorted(self.peers.items()):
            if peer.port == act.port and peer.is_measured:
                peer.finder.measures(peer.sample.tick, peer.sample.offset, peer.sample.error)
                rate = peer.finder.rate
                if rate:
                    yield 'rate', {'peer': self.name(name), 'rate_ppm': round(rate.value, 3), 'error_ppm': round(rate.error, 3)}

    def on_correct(self, act, amount, way, shown):
        turn, who, word = self.took or (0, '-', '')
        if turn == act.number and word in CORRECTIONS and who != '-':
            yield from self.must_be(act, 'follow', int(who))
            # (right after its correction it is with its master, as far as that could be measured there)
            if word == 'settime' or way == 'step':
                self.finder.forget()
            self.finder.moves(int(amount))
            self.finder.measures(act.tick, 0, None)
        for peer in self.peers.values():
            peer.finder.moves(-int(amount))
        self.counts.corrections += 1
        self.correction = Correction(int(amount), way, int(shown), act.tick)
        yield 'correction', {'amount_us': int(amount), 'way': way, 'shown_us': int(shown)}

    def on_abandon(self, *_):
        yield 'abandon', {}

    def on_rival(self, act, number):
        rivals = self.port(act).rivals
        rivals += [int(number)] if int(number) not in rivals else []
        yield 'rival', {'peer': self.name(int(number))}

    def on_back(self, act, number):
        self.backed = int(number), act.tick
        return ()

    def on_quit(self, act, number):
        self.quit = act.tick
        yield 'quit', {'peer': self.name(int(number))}

    def on_gave(self, _, number):
        self.counts.unanswered += 1
        if int(number) in self.peers:
            self.peers[int(number)].finder.forget()
        yield 'gave', {'peer': self.name(int(number))}

    def on_trace(self, _, way):
        self.is_traced = way == 'on'
        yield 'trace', {'trace': way}
