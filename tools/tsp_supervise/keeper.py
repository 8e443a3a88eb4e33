"""Keeps the supervisor's half of the page of the network's time: looks at the master that the daemon follows, as the daemon's half says."""
import time

from tsp_clock import FOLLOWS, LEADS, RAW, Daemon, Look
from tsp_supervise import stood
from tsp_supervise.stamps import Stamps

# Seconds between two looks at the page, and at the master; and how often a look asks for the master's clock.
PACE, APART, TIMES = 0.25, 16, 4
# For so many ticks after its start a daemon corrects its clock by nothing.
QUIET = 80_000_000


class Asked:
    """A look that is going on: the daemon's half by which it is reckoned, and what the master answered."""

    def __init__(self, daemon):
        self.daemon, self.found = daemon, []

    def add(self, reading, sent, got):
        """The master's clock was read between these nanoseconds of the daemon's counter: it is ahead of the target by between two bounds."""
        before, after = self.daemon.tick_at(sent), self.daemon.tick_at(got)
        self.found.append((reading - self.daemon.target_at(after), reading - self.daemon.target_at(before), before))

    def is_of(self, daemon):
        """Whether the daemon's clock and its master are still those of the look."""
        mine = self.daemon
        return all(getattr(daemon, name) == getattr(mine, name) for name in ('life', 'moved', 'steps', 'role', 'master', 'origin', 'origin_tick', 'rate'))

    def best(self):
        """The narrowest bounds, and the tick before that question."""
        return min(self.found, key=lambda found: found[1] - found[0])


class Listener:
    """Who is told of the page, and of the network."""

    def page_mended(self, what):
        """Something had become of the page's file, which is whole again."""

    def page_gone(self, fault):
        """The page's file is gone for good."""

    def master_answers(self, master):
        """A look at this master, which the daemon follows, was well."""

    def master_silent(self, master):
        """The master that the daemon follows didn't answer, or says that it leads no more."""

    def other_leads(self, master, other):
        """The master that the daemon follows doesn't lead any more, and another host does: both by their names."""

    def stood_still(self, seconds):
        """This machine stood still for so many seconds, by other hosts' clocks."""

    def rate_changed(self, tick, rate):
        """From this tick on the daemon counts so many parts in 10^9 faster than the machine."""


class Keeper:
    """Whoever keeps a page. `networks` are the addresses of the peers of each network, which have the numbers 1, 2 and so on over all of them, and `names`
    all names from the own on."""

    def __init__(self, loop, page, networks, names, drift, listener):
        self.loop, self.page, self.names, self.drift, self.listener = loop, page, names, drift, listener
        self.peers = [peer for peers in networks for peer in peers]
        # (the network of each number)
        self.place = [None, *(place for place, peers in enumerate(networks) for _ in peers)]
        self.counter, self.seen, self.before, self.asked, self.learned, self.last = RAW, None, None, None, 0, Look()
        self.stamps = Stamps(loop, lambda: time.clock_gettime_ns(self.counter))
        self.stood = stood.Stood(drift)

    def begin(self):
        """A daemon is about to start, and what stands on the page is of one before it."""
        self.before, self.seen = self.page.page().daemon.life, None
        self.stood.begin()
        self.poll()

    def end(self):
        """The daemon runs no more."""
        self.stamps.stop()
        self.loop.cancel('page', 'look')
        self.asked = self.seen = None
        self.page.end_daemon()

    def poll(self):
        """Looks at the daemon's half: where its clock or its role is another one, the master is looked at."""
        self.loop.after('page', PACE, self.poll)
        daemon = self.daemon()
        if daemon and (self.seen is None or not Asked(self.seen).is_of(daemon)):
            if self.seen is None or self.seen.rate != daemon.rate:
                self.listener.rate_changed(daemon.origin_tick, daemon.rate)
            self.seen = daemon
            self.look()
        self.look_after()

    def look_after(self):
        """Sees to it that the page lies where its readers look for it."""
        try:
            found = self.page.mend()
            if found:
                self.listener.page_mended(found)
        except OSError as fault:
            self.listener.page_gone(fault)

    def daemon(self) -> Daemon:
        """The daemon's half, or None where this daemon wrote none yet."""
        found = self.page.read()
        daemon = found[0].daemon if found else None
        if daemon is None or daemon.life == self.before or not daemon.is_sound():
            return None
        self.counter = daemon.counter
        return daemon

    def look(self):
        """Looks at the master. (a daemon that was never corrected has nothing to say of the network's time yet)"""
        self.loop.after('look', APART, self.look)
        self.stamps.stop()
        daemon, self.asked = self.daemon(), None
        if daemon is None:
            return
        if daemon.role == LEADS:
            tick = daemon.tick_at(self.stamps.now())
            self.write(daemon, 0, 0, tick, 0)
        elif daemon.role == FOLLOWS and 0 < daemon.master <= len(self.peers):
            self.asked = Asked(daemon)
            if daemon.moved or daemon.steps or daemon.tick >= QUIET:
                self.ask()
            else:
                self.answered()

    def ask(self):
        """Asks the master for its clock once more."""
        self.stamps.ask(self.peers[self.asked.daemon.master - 1], self.answered)

    def answered(self, reading=None, sent=None, got=None):
        """The master answered, or doesn't. Once it did so often enough, it is asked whether it is the master still."""
        if reading is not None:
            self.asked.add(reading, sent, got)
            if len(self.asked.found) < TIMES:
                self.ask()
                return
        self.stamps.ask_master(self.peers[self.asked.daemon.master - 1], self.named)

    def named(self, name=None):
        """Whom the master names. A host that started again names nobody for minutes, and one that was sent away names another one: its clock, which was read
        before this, isn't that of the master any more, so the look doesn't count."""
        daemon, wanted = self.daemon(), self.names[self.asked.daemon.master]
        if not daemon or not self.asked.is_of(daemon):
            return
        # (a peer whose name isn't known stands by its address)
        if name and (name == wanted or ':' in wanted):
            if self.asked.found:
                self.write(daemon, *self.asked.best(), daemon.master)
                self.look_for_stop(daemon, *self.asked.best())
                self.listener.master_answers(wanted)
        else:
            self.listener.master_silent(wanted)
            self.seek(daemon.master)

    def look_for_stop(self, daemon, low, high, tick):
        """Where the master's clock is far ahead at once, it is looked at once more, and then others are asked whether they are ahead too."""
        ahead = self.stood.look(daemon, low, high, tick)
        if ahead:
            peers = [self.peers[number - 1] for number in self.mates(daemon.master)]
            stood.Others(daemon, self.stamps, peers[:stood.ASKED], lambda: self.listener.stood_still(ahead / 1e6))
        elif self.stood.is_in_doubt:
            self.loop.after('look', stood.AGAIN, self.look)

    def mates(self, master):
        """The numbers of the other peers on a master's network."""
        return [number for number in range(1, len(self.names)) if number != master and self.place[number] == self.place[master]]

    def seek(self, master):
        """The master that the daemon follows is silent, or says that it leads no more: the others are asked whether one of them does."""
        for number in self.mates(master):
            name = self.names[number]
            self.stamps.ask_master(self.peers[number - 1], lambda named=None, name=name: self.found(master, name, named))

    def found(self, master, name, named):
        """A host names a master: if that is itself, the daemon follows one that is gone."""
        if named and named == name and self.seen and self.seen.role == FOLLOWS and self.seen.master == master:
            self.listener.other_leads(self.names[master], name)

    def write(self, daemon, low, high, tick, master):
        """Writes a look."""
        name = self.names[master].encode('ascii', 'replace')
        self.last = Look(daemon.life, daemon.moved, tick, low, high, master, self.drift, 1, self.learned, name)
        self.page.write(self.last)

    def ask_for_rate(self, rate):
        """Asks the daemon to count with another rate. It reads that in a half of its own life, once a second."""
        self.learned = rate
        if self.seen and self.last.life == self.seen.life:
            self.last = self.last._replace(learned=rate)
            self.page.write(self.last)
