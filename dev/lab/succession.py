"""The death of a master on networks inside this machine, whose daemons run under supervisors."""
import re
import signal

from lab.hosts import Daemon, Failed
from lab.supervised import Supervised

BECOME = re.compile(r'^[0-9]+ 0 [0-9]+ [0-9]+ become (.*)\n', re.MULTILINE)
# How far apart wall clocks are at most, in microseconds, and how wrong counters are at most, in parts in a million.
APART, DRIFT = 500_000, 50
# Seconds of the network's time: within which a first master leads, within which all follow the next one, and between two looks.
LED, NEXT, PACE = 3_600, 10_800, 1


class Succession:
    """One network, from its start to the moment when all follow the second master. `chance` draws clocks, counters and moments."""

    def __init__(self, hosts, chance, program, library, rate, folder):
        self.chance = chance
        daemons = [Daemon(f'h{number}', 'm', chance.randint(-APART, APART), chance.randint(-DRIFT, DRIFT)) for number in range(hosts)]
        self.lab = Supervised(2 * DRIFT, [daemons], program, library, rate, folder, seed=chance.randrange(2**32), capture=False)

    def role(self, daemon):
        """What a host became last: `master`, or the host that it follows, or else None."""
        with open(daemon.trace[-1], encoding='utf-8', errors='replace') as trace:
            found = BECOME.findall(trace.read())
        words = found[-1].split() if found else [None]
        if words[0] != 'follow':
            return words[0]
        return [other for other in self.lab.daemons if other is not daemon][int(words[1]) - 1]

    def until(self, is_so, seconds, what):
        """The second at which something is so."""
        end = self.lab.seconds() + seconds
        while not is_so():
            ended = [daemon.name for daemon in self.living() if daemon.process.poll() is not None]
            if ended:
                raise Failed(f'the supervisor of {ended[0]} ended')
            if self.lab.seconds() > end:
                raise Failed(f'after {seconds} s {what}: ' + ', '.join(f'{daemon.name} {self.role(daemon)}' for daemon in self.living()))
            self.lab.sleep(PACE)
        return self.lab.seconds()

    def living(self):
        """The hosts that run."""
        return [daemon for daemon in self.lab.daemons if daemon.process]

    def leaders(self):
        """The hosts that lead."""
        return [daemon for daemon in self.living() if self.role(daemon) == 'master']

    def is_joined(self):
        """Whether all that run follow one master."""
        leaders = self.leaders()
        return len(leaders) == 1 and all(self.role(daemon) is leaders[0] for daemon in self.living() if daemon is not leaders[0])

    def settled(self, least, most):
        """The master that all follow, so many seconds at least and at most after they came to do so. (on a busy machine hosts are late, and may have left it)"""
        while True:
            self.until(self.is_joined, LED, 'not all follow one master')
            first = self.leaders()
            self.lab.sleep(self.chance.uniform(least, most))
            if self.is_joined() and self.leaders() == first:
                return first[0]

    def whole(self, least, most):
        """Starts all, kills the master so many seconds at least and at most after all came to follow it, and gives the seconds from that until another one led,
        and until all followed that."""
        try:
            self.lab.tell('late 20 60')
            for daemon in self.lab.daemons:
                self.lab.start(daemon)
            first = self.settled(least, most)
            self.lab.stop(first, signal.SIGKILL)
            died = self.lab.seconds()
            led = self.until(self.leaders, NEXT, 'nobody leads')
            return led - died, self.until(self.is_joined, NEXT, 'not all follow the next master') - died
        finally:
            self.lab.close()
