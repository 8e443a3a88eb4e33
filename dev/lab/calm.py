"""Random networks that grow calm: from some time on nobody boots, nothing comes from outside, and each datagram is taken in time. They tell how long such a
network has no master, or more than one, how long it takes until all follow one, and how far clocks are apart then."""
from lab.nets import DRIFT, ELECT_MIN, MILLION, SPREAD, WALL, Net, Node

# When a network is calm at the latest; and from when on clocks agree by the law, after all follow.
ROUGH = 2500 * MILLION
AGREED = 767 * MILLION


class Member(Node):
    """A node that waits so long before it stands, with its role and its clock."""

    def __init__(self, chance, number, delay):
        super().__init__(chance, number)
        self.word, self.role, self.moved = WALL + delay - ELECT_MIN, None, 0

    def start(self, at):
        """It boots: its clock is its wall clock, which counts by its own ticks."""
        super().start(at)
        self.role, self.moved = 'starting', 0

    def target(self, at):
        """What its clock aims at, at a true time."""
        return WALL + self.tick(at) + self.moved

    def act(self, event, tick, act):
        super().act(event, tick, act)
        if act[0] == 'become':
            self.role = ' '.join(act[1:])
        elif act[0] == 'correct':
            self.moved += int(act[1])


class Calm(Net):
    """A network that is calm from the time `rough` on, in which one node waits less than each other one by the lead that the law asks for."""

    def __init__(self, asked, named, seed):
        late, long = round(asked.late * MILLION), round(asked.long * MILLION)
        # (WINDOW, 10 ms, looks, datagrams, and what two counters part in 800 s)
        self.lead = 5_010_000 + 2 * late + 3 * long + 2 * -(-DRIFT * (ELECT_MIN + SPREAD + 200 * MILLION) // MILLION) + 1
        super().__init__(asked, named, seed)
        self.rough, self.most = self.chance.choice((4 * MILLION, self.chance.randrange(4 * MILLION, ROUGH))), {}
        # since when it has no master, an only one, and all follow that; and when the last round closed
        self.bare, self.reign, self.joined, self.closed = None, None, None, 0
        self.gone, self.is_calm = set(), False

    def members(self):
        """Two to five, one of which is ahead."""
        first = self.chance.choice((ELECT_MIN, self.chance.randrange(ELECT_MIN, ELECT_MIN + SPREAD - self.lead)))
        others = [self.chance.choice((first + self.lead, self.chance.randrange(first + self.lead, ELECT_MIN + SPREAD)))
                  for _ in range(self.chance.choice((1, 1, 2, 3, 4)))]
        delays = [first, *others]
        self.chance.shuffle(delays)
        self.ahead = delays.index(first)
        return [Member(self.chance, number, delay) for number, delay in enumerate(delays)]

    def follow(self, at, number, tick, act):
        super().follow(at, number, tick, act)
        if act[0] == 'close':
            self.closed = at

    def step(self, at, number, what):
        """An event, if its node isn't gone; and what is so before and after it, if the network is calm."""
        if at >= self.rough and not self.is_calm:
            self.calm()
        if number in self.gone:
            return
        if self.is_calm:
            self.apart(at)
        super().step(at, number, what)
        if self.is_calm:
            self.roles(at)

    def calm(self):
        """It grows calm: in half of the networks masters go, but not the node that is ahead."""
        self.is_calm = True
        if self.chance.random() < 0.5:
            self.gone = {number for number, node in enumerate(self.nodes) if node.role == 'master' and number != self.ahead}

    def note(self, what, value):
        """Something took so long, or is so far."""
        self.most[what] = max(self.most.get(what, 0), value)

    def roles(self, at):
        """Who leads, and who follows."""
        roles = {number: node.role for number, node in enumerate(self.nodes) if number not in self.gone}
        masters = [number for number, role in roles.items() if role == 'master']
        self.note('headless', 0 if self.bare is None else at - self.bare)
        self.bare = None if masters else at if self.bare is None else self.bare
        if len(masters) > 1:
            self.note('many', at - self.rough)
        only = masters[0] if len(masters) == 1 else None
        if only is None or self.reign is None or self.reign[0] != only:
            self.reign = None if only is None else (only, at)
        if only is not None and all(number == only or role == f'follow {only}' for number, role in roles.items()):
            self.joined = at if self.joined is None else self.joined
        else:
            self.note('followed', 0 if self.reign is None else at - self.reign[1])
            self.joined = None

    def apart(self, at):
        """How far clocks are apart before an event, if all follow one for so long as the law asks, and the last Close is over."""
        if self.joined is not None and at > self.joined + AGREED + 3 * self.long and at > self.closed + self.long:
            targets = [node.target(at) for number, node in enumerate(self.nodes) if number not in self.gone]
            self.note('apart', max(targets) - min(targets))
