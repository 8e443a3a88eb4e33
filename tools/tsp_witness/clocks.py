"""The clocks of a network: what true time each turn of a daemon had, and the rates and walls of the schedule's nodes."""
from tsp_texts import schedule
from tsp_witness import Unusable, times

MILLION, BILLION = 10**6, 10**9
# So often clocks are moved by whole microseconds, where what was found fits no more as whole numbers.
TRIES = 40


class Clocks:
    """Rates and offsets of the hosts' clocks, and of each life that doesn't tell its own. `apart` gives each life a clock of its own."""

    def __init__(self, matching, most, apart=False):
        self.matching, self.most, self.apart = matching, most, apart
        self.number = {}
        for life in matching.lives():
            self.number.setdefault(self.name(life), len(self.number))
        self.begun = [None] * len(self.number)
        for life in matching.lives():
            first, number = self.shown(life, 0), self.clock(life)
            self.begun[number] = first if self.begun[number] is None else min(first, self.begun[number])
        self.find()
        matching.choose(self.at, self.freedom)
        self.find()

    def name(self, life):
        """What clock a life has: its host's, or one of its own."""
        return life.node, life.number if self.apart or life.base is None else None

    @staticmethod
    def shown(life, tick):
        """What a life's clock shows, corrections aside."""
        return tick if life.base is None else life.base + tick

    def clock(self, life):
        """The number of a life's clock."""
        return self.number[self.name(life)]

    def ways(self):
        """The way of each datagram whose post is known."""
        for life in self.matching.lives():
            for turn in life.turns:
                if turn.post:
                    post = turn.post.turn
                    yield times.Way(self.clock(post.life), self.clock(life), self.shown(post.life, post.tick), self.shown(life, turn.tick))

    def find(self):
        """Finds rates and offsets, by the posts that are known so far."""
        self.bounds = times.Bounds(len(self.number), self.ways(), self.begun)
        self.fit = times.fit(self.bounds, self.most)

    def at(self, turn):
        """The true time of a turn, not yet as a whole number."""
        clock = self.clock(turn.life)
        return self.fit.offsets[clock] + times.stretched(self.shown(turn.life, turn.tick) - self.begun[clock], self.fit.rates[clock])

    def freedom(self, one, other):
        """How far the times of two lives may be moved against each other, so far as their datagrams tell."""
        pair = self.clock(one), self.clock(other)
        ways = [way for way in (pair, pair[::-1]) if way in self.bounds.hulls]
        return sum(self.bounds.bound(way, self.fit.rates) for way in ways) if len(ways) == 2 else 0

    def step(self, first, later, faster=0):
        """How much later a life of a host began than by its wall clock and that of its first life, whose counter is so many parts in 10^9 faster."""
        one, other = self.clock(first), self.clock(later)
        rate = (MILLION + self.fit.rates[one]) / (1 + faster / BILLION) - MILLION
        return self.fit.offsets[other] - self.fit.offsets[one] - times.stretched(self.begun[other] - self.begun[one], rate)


class Placing:
    """Clocks as a schedule tells them: whole rates and walls, and whole times."""

    def __init__(self, clocks, count):
        self.clocks, self.count = clocks, count
        fit, begun = clocks.fit, clocks.begun
        self.drift = -min(fit.rates)
        earliest = [max(first - schedule.FARTHEST, 0) * MILLION / (MILLION + rate) - offset for first, rate, offset in zip(begun, fit.rates, fit.offsets)]
        # (walls are as small as they may be, and a second less, so that times can be told in seconds)
        self.origin = (int(max(earliest)) // MILLION + 2) * MILLION
        # (by so many microseconds each clock begins later than it was found to)
        self.later = [0] * len(begun)
        self.place()
        for _ in range(TRIES):
            if not self.put_off():
                break
            self.place()

    def place(self):
        """Finds the walls of nodes and the bases of lives."""
        self.bases, told = {}, set()
        self.rates, self.walls = [0] * self.count, [0] * self.count
        for (node, life), number in self.clocks.number.items():
            self.rates[node] = self.clocks.fit.rates[number]
            if life is None:
                told.add(node)
                self.walls[node] = self.clocks.begun[number] - self.begins(node, number)
        for life in self.clocks.matching.lives():
            self.bases[life] = self.base_of(life, told)
        if any(abs(wall) > schedule.FARTHEST for wall in self.walls):
            raise Unusable('the wall clocks are further apart, or later, than a schedule can tell')

    def put_off(self):
        """Lets clocks begin later by which something is taken before it was posted, as whole numbers have it; says whether there are any."""
        early = {}
        for life in self.clocks.matching.lives():
            for turn in life.turns:
                by = self.at(turn.post.turn) - self.at(turn) if turn.post else 0
                if by > 0:
                    number = self.clocks.clock(life)
                    early[number] = max(by, early.get(number, 0))
        for number, by in early.items():
            self.later[number] += by
        return bool(early)

    def begins(self, node, number):
        """The node's tick where a clock of it begins."""
        at = self.origin + round(self.clocks.fit.offsets[number]) + self.later[number]
        return at + at * self.rates[node] // MILLION

    def base_of(self, life, told):
        """A life's wall clock at its start; where no line tells it, one that fits its datagrams. The node of such a life has the wall clock that
        fits, where no other life of it tells one."""
        if life.base is not None:
            return life.base
        begins, (rest, spread) = self.begins(life.node, self.clocks.clock(life)), life.residue()
        if life.node in told:
            near = begins + self.walls[life.node]
            return near + (rest - near + spread // 2) % spread - spread // 2
        near = begins + max(max(self.walls) - spread, 0)
        base = near + (rest - near) % spread
        told.add(life.node)
        self.walls[life.node] = base - begins
        return base

    def tick(self, life, tick):
        """The tick of a life's node at a tick of the life."""
        return tick + self.bases[life] - self.walls[life.node]

    def at(self, turn):
        """The first true time at which a turn's node shows its tick."""
        return -(-self.tick(turn.life, turn.tick) * MILLION // (MILLION + self.rates[turn.life.node]))
