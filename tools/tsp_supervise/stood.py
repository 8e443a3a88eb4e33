"""Whether this machine stood still, as one does that its hypervisor stops. None of its own clocks tells that: all of them stood too. But the clocks of the
master and of other hosts went on, so they are ahead at once."""
from tsp_clock import spread

# By how many microseconds at least the others are ahead then, after how many seconds that is looked at once more, and how many hosts are asked.
AHEAD, AGAIN, ASKED = 1_000_000, 4, 3


class Stood:
    """What looks at a master tell of this machine. The clocks of all hosts may be so many parts in a million too fast or too slow."""

    def __init__(self, drift):
        self.drift, self.before, self.times = drift, None, 0

    def begin(self):
        """Forgets what looks told."""
        self.before, self.times = None, 0

    @property
    def is_in_doubt(self):
        """Whether the last look was one that drift doesn't explain. (a date that the master has, and this host not yet, is one too: so it is looked at again)"""
        return self.times > 0

    def look(self, daemon, low, high, tick):
        """Takes a look: at a tick the master's clock was ahead of the daemon's by so many microseconds at least and at most. Gives by how many it is ahead
        beyond what drift explains, where that is so for the second time; else 0. A daemon that was corrected meanwhile, or follows another host, tells nothing."""
        key = daemon.life, daemon.moved, daemon.steps, daemon.master
        if self.before is None or self.before[0] != key:
            self.before, self.times = (key, high, tick), 0
            return 0
        _, high_before, tick_before = self.before
        ahead = low - high_before - spread(self.drift, tick - tick_before)
        if ahead < AHEAD:
            self.before, self.times = (key, high, tick), 0
            return 0
        self.times += 1
        return ahead if self.times > 1 else 0


class Others:
    """The clocks of other hosts, which are asked whether they are ahead too: `tell` is called with nothing if they are, or if nobody answers."""

    def __init__(self, daemon, stamps, peers, tell):
        self.daemon, self.tell = daemon, tell
        self.left, self.ahead, self.not_ahead = len(peers), 0, 0
        for peer in peers:
            stamps.ask(peer, self.heard)
        if not peers:
            tell()

    def heard(self, reading=None, _sent=None, got=None):
        """A host answered, or doesn't."""
        self.left -= 1
        if reading is not None:
            is_ahead = reading - self.daemon.target_at(self.daemon.tick_at(got)) >= AHEAD
            self.ahead, self.not_ahead = self.ahead + is_ahead, self.not_ahead + (not is_ahead)
        if not self.left and self.ahead >= self.not_ahead:
            self.tell()
