"""The network's time as tsp-now tells it: by the page of this machine, or by questions to a host and to its master."""
import math
import os
import time
from collections import namedtuple

import tsp_clock
from tsp_daemon import hosts, usage
from tsp_texts.tool import Fault, say

STATUSES = {tsp_clock.STALE: 'stale', tsp_clock.WAITING: 'waiting', tsp_clock.SYNCHRONISED: 'synchronised', tsp_clock.HOLDING: 'holding'}
# After how many seconds a wait says that it waits.
LONG = 5


class Told(namedtuple('Told', 'shown earliest latest')):
    """A time, and between which the master's clock lies then; None if nothing is known of that. All are microseconds since 1970."""
    __slots__ = ()

    @property
    def error(self):
        """How far the time may be from the master's clock."""
        return max(self.latest - self.shown, self.shown - self.earliest)


def path():
    """Where this machine's page is."""
    return os.environ.get('TSP_CLOCK') or tsp_clock.PATH


def page():
    """This machine's page, or None where there is none, as on a machine without a daemon."""
    try:
        return tsp_clock.Clock()
    except OSError:
        return None


def no_page():
    """The fault that there is no page."""
    raise Fault(f'there is no page of the network\'s time at {path()}', usage.NOT_WELL)


def no_daemon(clock):
    """The fault that nobody writes the page."""
    raise Fault(f'the daemon of this host doesn\'t run, by {clock.path}', usage.NOT_WELL)


def by_page(clock):
    """What the page tells."""
    now = clock.now()
    if now.status == tsp_clock.STALE:
        no_daemon(clock)
    return Told(now.shown, now.earliest, now.latest)


def say_status(now):
    """Says that there is a wait, and the status that is to be another one."""
    say(f'waits for the network\'s time: status {STATUSES[now.status]}')


def wait_until(clock, within, until):
    """What the page tells once it is synchronised, and, where that is asked for, once its error is at most so many milliseconds. A long wait is said once."""
    said_at = time.monotonic() + LONG
    while True:
        now = clock.now()
        if now.status == tsp_clock.SYNCHRONISED:
            told = Told(now.shown, now.earliest, now.latest)
            if within is None or told.error <= within * 1000:
                return told
        if until is not None and time.monotonic() >= until:
            raise Fault('not synchronised in that time' if within is None else f'not synchronised within {within:g} ms in that time', usage.NOT_WELL)
        if time.monotonic() >= said_at:
            say_status(now)
            said_at = math.inf
        time.sleep(0.01)


def stamp(clock, longer, until):
    """A stamp, once each later stamp of the network is greater, and the master's clock so many milliseconds further. If another clock counts by then, or
    the master is gone, another stamp is taken."""
    while True:
        wait_until(clock, None, until)
        before = clock.now()
        if before.status == tsp_clock.SYNCHRONISED:
            wait_past(clock, before.latest + round(longer * 1000), until)
            if clock_of(clock.now()) == clock_of(before):
                return before.latest


def clock_of(now):
    """What has to stay the same from one reading to another if both are to be of one master's clock."""
    return now.status, now.master, now.life, now.steps


def wait_past(clock, moment, until):
    """Waits until the master's clock is surely past a moment. A long wait is said once."""
    longest = None if until is None else max(until - time.monotonic(), 0)
    is_long = longest is None or longest > LONG
    is_after = tsp_clock.wait_after(clock, moment, LONG if is_long else longest)
    if is_long and not is_after:
        say_status(clock.now())
        is_after = tsp_clock.wait_after(clock, moment, None if longest is None else longest - LONG)
    if not is_after:
        raise Fault('the network\'s time wasn\'t surely after the stamp in that time', usage.NOT_WELL)


def by_questions(asker, own, address, file):
    """What a host of this name, or without one, tells at its address, and its master at that of the hosts file; all of it at one moment of this
    machine's clock."""
    reading = asker.clock(address)
    name = asker.master(address)
    if reading is None or name is None:
        raise Fault(f'{address} doesn\'t answer', usage.NOT_WELL)
    shown = time.time_ns() // 1000 + reading.offset
    if not name:
        return Told(shown, None, None)
    other = None if name == own else master_of(asker, name, address, file)
    if other is None:
        return Told(shown, shown - reading.error, shown + reading.error)
    ahead, error = other.offset - reading.offset, other.error + reading.error
    return Told(shown, shown + ahead - error, shown + ahead + error)


def master_of(asker, name, address, file):
    """The clock of a host's master, or None where that is the host itself."""
    try:
        masters = [host.address for host in hosts.listed(file) if host.name == name]
    except Fault as fault:
        if str(fault).endswith(': there is no such file'):
            raise Fault(f'{fault}; a hosts file is still needed for the address of its master, {name}', usage.BAD_FILE) from fault
        raise
    if not masters:
        raise Fault(f'its master, {name}, is no host of the hosts file, so nobody can say how far its clock is from that one\'s', usage.BAD_FILE)
    if address in masters:
        return None
    found = asker.clock(masters[0])
    if found is None:
        raise Fault(f'its master, {name}, doesn\'t answer, so nobody can say how far its clock is from that one\'s', usage.NOT_WELL)
    return found
