"""Supervisors of simulated daemons. They look at the master that their daemon follows, and start the daemon again, when `keeper` and `supervise` do so. What they
ask and start takes no time, but for an answer that doesn't come."""
from random import Random

from tsp_supervise.follow import Follow
from tsp_supervise.keeper import APART, PACE
from tsp_supervise.stamps import PATIENCE

MILLION = 1_000_000


class Supervisor:
    """That of one daemon: how often the daemon booted and its clock or role changed, whether it leads, and which node it follows, or None."""

    def __init__(self, draw):
        self.follow, self.lives, self.changes, self.leads, self.master = Follow(draw.uniform), 0, 0, False, None


class Supervisors:
    """Those of a network's nodes. The network carries their questions, plans what they do later, and boots a daemon that is started again."""
    KINDS = 'look', 'seek', 'again'

    def __init__(self, network, count, seed):
        self.network, self.draw = network, Random(f'{seed} supervisors')
        self.all = [Supervisor(self.draw) for _ in range(count)]

    def plan(self, seconds, kind, node, what):
        """Plans what is done so many seconds later."""
        self.network.plan(self.network.now + round(seconds * MILLION), kind, node, what)

    def begin(self, node):
        """A node's machine boots, and with it a supervisor that remembers nothing."""
        self.all[node].follow = Follow(self.draw.uniform)

    def acted(self, node, words):
        """A daemon's act. Where it changes the clock or the role, the supervisor sees that when it next looks at the page."""
        mine = self.all[node]
        if words[0] == 'boot':
            mine.lives += 1
        elif words[0] == 'become':
            mine.leads, mine.master = words[1] == 'master', int(words[2]) if words[1] == 'follow' else None
        elif words[0] != 'correct':
            return
        mine.changes += 1
        self.plan(self.draw.uniform(0, PACE), 'look', node, mine.changes)

    def happen(self, kind, node, what):
        """What was planned is due."""
        if kind == 'look':
            self.look(node, what)
        elif kind == 'seek':
            self.seek(node, what)
        elif what == self.all[node].lives:
            self.network.happen('boot', node, None)

    def leads(self, node, other):
        """Whether another node tells a node that it leads; None where no answer comes."""
        return self.all[other].leads if self.network.hears(node, other) else None

    def look(self, node, change):
        """Asks the master, unless a change came since this was planned. One that is silent is asked twice: for its clock, and for who leads."""
        mine = self.all[node]
        if mine.changes != change or mine.master is None:
            return
        self.plan(APART, 'look', node, change)
        led = self.leads(node, mine.master)
        if not led:
            self.plan(2 * PATIENCE if led is None else 0, 'seek', node, mine.master)

    def seek(self, node, master):
        """Asks the others whether one of them leads, if the daemon follows this master still."""
        mine = self.all[node]
        if mine.master == master and any(self.leads(node, other) for other in range(len(self.all)) if other not in (node, master)):
            wait = mine.follow.wait(self.network.now / MILLION)
            if wait is not None:
                self.plan(wait, 'again', node, mine.lives)
