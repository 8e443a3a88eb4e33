"""What is seen of a network's hosts, and what isn't well there."""
from __future__ import annotations

import heapq
import time
from collections import namedtuple

from tsp_daemon.hosts import Host
from tsp_daemon.questions import Asker, Reading
from tsp_daemon.rates import MOST
from tsp_daemon.usage import NO_PROGRAM
from tsp_texts.tool import Fault

WARNING, CRITICAL = 1, 2
# How many names a line lists.
MOST_NAMES = 10
MOST_AT_ONCE = 256
# How far clocks may be apart where nothing is said, in microseconds.
WITHIN = 50_000
# By how many microseconds this machine's wall clock may move while clocks are read by it, which are else read again, and how often they are read.
MOVED, LOOKS = 20_000, 3


class Seen:
    """A host, and what it answered: the master that it names (none is the empty text), and its clock. A trace may tell more of it."""

    def __init__(self, host, reached=False, master='', clock=None, traced=None):
        self.host, self.reached, self.master, self.clock, self.traced = host, reached, master, clock, traced

    @property
    def rate(self):
        """Its rate against the master, where that is known."""
        return self.traced.rate if self.traced else None

    @property
    def corrected(self):
        """Its last correction in microseconds, where that is known."""
        return self.traced.amount if self.traced else None

    @property
    def role(self):
        """What it is on the first of its networks; a host that waits is neither master nor slave yet."""
        if not self.reached:
            return ''
        if not self.master:
            return 'waiting'
        return 'master' if self.master == self.host.name else 'slave'


class Trouble(namedtuple('Trouble', 'level text')):
    """Something that isn't well."""
    __slots__ = ()


class Spread(namedtuple('Spread', 'low high apart')):
    """The farthest pair of clocks: by how many microseconds they may be apart, their errors added."""
    __slots__ = ()


def first_lines(hosts: list[Host]) -> list[Host]:
    """Each host once: a gateway answers for the first of its networks."""
    firsts = {}
    for host in hosts:
        firsts.setdefault(host.name, host)
    return list(firsts.values())


def ask_masters(asker: Asker, hosts: list[Host]) -> list[Seen]:
    """Asks all hosts for their master side by side, so that many silent ones take no longer than one."""
    seen = [Seen(host) for host in hosts]
    from concurrent.futures import ThreadPoolExecutor
    with ThreadPoolExecutor(min(len(seen), MOST_AT_ONCE)) as pool:
        try:
            asking = [pool.submit(asker.master, each.host.address) for each in seen]
        except RuntimeError as fault:
            raise Fault(f'{len(seen)} hosts can\'t be asked side by side: {fault}', NO_PROGRAM) from fault
        try:
            for each, answer in zip(seen, asking):
                master = answer.result()
                each.reached, each.master = master is not None, master or ''
        except BaseException:
            for answer in asking:
                answer.cancel()
            raise
    return seen


def look(asker: Asker, hosts: list[Host]) -> list[Seen]:
    """Asks all hosts for their master, and then those that answered for their clock, some times and one after the other, so that the asking
    itself doesn't make the measurements worse. If this machine's wall clock was set meanwhile they are asked again, since all are told by that."""
    seen = ask_masters(asker, hosts)
    for _ in range(LOOKS):
        before = wall_ahead()
        for each in seen:
            if each.reached:
                each.clock = asker.best_clock(each.host.address)
        if abs(wall_ahead() - before) <= MOVED:
            break
    return seen


def wall_ahead():
    """By how many microseconds this machine's wall clock is ahead of the one that nobody sets."""
    return (time.time_ns() - time.monotonic_ns()) // 1000


def spread_of(seen: list[Seen]) -> Spread | None:
    """The farthest pair, where two clocks were read."""
    read = [each for each in seen if each.clock]
    highest = heapq.nlargest(2, read, key=lambda each: each.clock.offset + each.clock.error)
    lowest = heapq.nsmallest(2, read, key=lambda each: each.clock.offset - each.clock.error)
    pairs = [(high.clock.offset + high.clock.error - low.clock.offset + low.clock.error, low.host.name, high.host.name)
             for high in highest for low in lowest if high is not low]
    if not pairs:
        return None
    apart, low, high = max(pairs)
    return Spread(low, high, apart)


def some_of(names):
    """The first of these names, and how many more there are."""
    more = len(names) - MOST_NAMES
    return ', '.join(names[:MOST_NAMES]) + (f' and {more} more' if more > 0 else '')


class Judge:
    """Says what isn't well: of hosts that are seen, by what is wanted of them."""

    def __init__(self, hosts: list[Host], seen: list[Seen], within=WITHIN):
        self.hosts, self.seen, self.within = hosts, seen, within
        self.networks = sorted({host.network for host in hosts})
        self.by_name = {each.host.name: each for each in seen}
        self.lines = {(host.network, host.name) for host in hosts}

    def where(self, network):
        """Names a network, where there are several."""
        return f' in network {network}' if len(self.networks) > 1 else ''

    def named(self, network):
        """The masters that the hosts of a network name."""
        return sorted({each.master for each in self.seen if each.host.network == network and each.master})

    def silent(self):
        """Hosts that don't answer. It is worse where nobody of a network does."""
        silent = [each for each in self.seen if not each.reached]
        heard = {each.host.network for each in self.seen if each.reached}
        if silent:
            level = WARNING if all(each.host.network in heard for each in silent) else CRITICAL
            yield Trouble(level, f'silent: {some_of([each.host.name for each in silent])}')

    def two_masters(self):
        """Networks whose hosts don't name the same master."""
        for network in self.networks:
            names = self.named(network)
            if len(names) > 1:
                yield Trouble(CRITICAL, f'{len(names)} masters are named{self.where(network)}: {some_of(names)}')

    def strangers(self):
        """Masters that the hosts file doesn't have in their network."""
        for network in self.networks:
            for name in self.named(network):
                if (network, name) not in self.lines:
                    yield Trouble(CRITICAL, f'{name} is named as master{self.where(network)}, and isn\'t in the hosts file{" there" * (len(self.networks) > 1)}')

    def no_master(self):
        """Networks in which nobody leads, and hosts that know no master where others do."""
        for network in self.networks:
            answered = [each for each in self.seen if each.host.network == network and each.reached]
            lost = [name for name in self.named(network) if not self.leads(name, network)]
            waiting = [each.host.name for each in answered if not each.master]
            if answered and len(waiting) == len(answered):
                yield Trouble(CRITICAL, f'nobody leads{self.where(network)}')
            elif waiting:
                yield Trouble(CRITICAL, f'no master is known to {some_of(waiting)}')
            for name in lost:
                yield Trouble(CRITICAL, f'{name} is named as master{self.where(network)} and doesn\'t lead')

    def leads(self, name, network):
        """Whether a host that is named as master says so itself. A gateway says so of its first network alone, and is believed of another."""
        host = self.by_name.get(name)
        return host is None or host.role == 'master' or (host.reached and host.host.network != network)

    def apart(self):
        """Clocks that may be too far from each other, or weren't read."""
        unread = [each.host.name for each in self.seen if each.reached and not each.clock]
        if unread:
            yield Trouble(CRITICAL, f'no clock was read: {some_of(unread)}')
        spread = spread_of(self.seen)
        if spread and spread.apart > self.within:
            yield Trouble(CRITICAL, f'{spread.low} and {spread.high} may be {milliseconds(spread.apart)} ms apart, and {milliseconds(self.within)} are allowed')

    def fast(self):
        """Clocks that are too fast or too slow to be averaged."""
        for each in self.seen:
            if each.rate and each.rate.is_too_great:
                value, error = parts(each.rate)
                wrong = '' if error == '-' else f', give or take {error}'
                yield Trouble(WARNING, f'{each.host.name}\'s clock is {value} parts in a million fast{wrong}, and beyond {MOST} rounds don\'t average it')

    def troubles(self) -> list[Trouble]:
        """All that isn't well, the worst first."""
        found = [*self.silent(), *self.two_masters(), *self.strangers(), *self.no_master(), *self.apart(), *self.fast()]
        return sorted(found, key=lambda trouble: -trouble.level)


def milliseconds(microseconds):
    """Microseconds as milliseconds, exactly."""
    whole, rest = divmod(abs(microseconds), 1000)
    return f'{"-" if microseconds < 0 else ""}{whole}.{rest:03}'


def signed(microseconds):
    """An offset in milliseconds with its sign, exactly."""
    return ('' if microseconds < 0 else '+') + milliseconds(microseconds)


def parts(rate):
    """A rate in parts in a million with its sign, and how far it may be wrong, or `-`."""
    return f'{rate.value:+.1f}', '-' if rate.error is None else f'{rate.error:.1f}'
