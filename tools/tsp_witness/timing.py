"""Whether there are counters within the drift by which a network's turns had their times: what is taken was posted before, and a start comes
after the end of the one before it. Nothing is asked of wall clocks."""
import copy
import heapq

from tsp_witness.drift import MILLION, Times
from tsp_witness.journal import Turn
from tsp_witness.matching import LIFE

# So many microseconds apart times tell of one moment.
NEAR = 5_000_000


class Readings:
    """The turns whose times matter, in an order of time and of cause and effect: those in which a datagram was taken whose post is known, or that may
    have been posted there, and each start and end. `ways` are those datagrams: the turn that took, and the turns that may have posted."""

    def __init__(self, matching):
        self.lives = matching.lives()
        told = ((turn, [turn.post] if turn.post else matching.choices.get(turn, [])) for life in self.lives for turn in life.turns)
        self.ways = [(turn, [post.turn for post in posts]) for turn, posts in told if posts]
        needed = {turn for way in self.ways for turn in (way[0], *way[1])}
        # (a microsecond has a bound of its own)
        needed |= {turn for life in self.lives for pair in zip(life.turns, life.turns[1:]) if pair[1].tick - pair[0].tick == 1 for turn in pair}
        self.chains = {life: [Turn(life, 0, 0), *(turn for turn in life.turns if turn in needed or turn is life.turns[-1])] for life in self.lives}
        self.groups = []
        self.begins = self.found_begins()
        self.turns = self.ordered()
        self.place = {turn: place for place, turn in enumerate(self.turns)}
        # (the ways of each start whose posts aren't known)
        self.open = {life: [] for life in self.lives}
        for way in self.ways:
            for life in {turn.life for turn in (way[0], *way[1])} if len(way[1]) > 1 else ():
                self.open[life].append(way)

    def found_begins(self):
        """Roughly the time of each start: by the first datagram of each two whose post is known; and of others by wall clocks, or behind the start before.
        `groups` are the starts that such datagrams join, the largest first."""
        near, ways = {life: {} for life in self.lives}, sorted((way for way in self.ways if len(way[1]) == 1), key=lambda way: way[0].tick)
        for turn, (post,) in ways:
            near[turn.life].setdefault(post.life, turn.tick - post.tick)
            near[post.life].setdefault(turn.life, post.tick - turn.tick)
        before, begins = {later: life for life, later in zip(self.lives, self.lives[1:]) if life.node == later.node}, {}
        for first in sorted(self.lives, key=lambda life: life.base is None):
            if first in begins:
                continue
            last = before.get(first)
            begins[first] = first.base if first.base is not None else begins[last] + last.turns[-1].tick if last in begins else 0
            self.groups.append([first])
            for life in self.groups[-1]:
                for other, later in near[life].items():
                    if other not in begins:
                        begins[other] = begins[life] + later
                        self.groups[-1].append(other)
        self.groups.sort(key=lambda group: -sum(len(self.chains[life]) for life in group))
        return begins

    def rough(self, turn):
        """Roughly a turn's time."""
        return self.begins[turn.life] + turn.tick

    def followers(self):
        """The last turn of each start, and the next start of its host."""
        for life, later in zip(self.lives, self.lives[1:]):
            if life.node == later.node:
                yield self.chains[life][-1], self.chains[later][0]

    def ordered(self):
        """The turns, causes before effects where they aren't their own."""
        behind, waits = {}, {turn: 0 for chain in self.chains.values() for turn in chain}
        pairs = [pair for chain in self.chains.values() for pair in zip(chain, chain[1:])] + list(self.followers())
        for earlier, later in pairs + [(posts[0], turn) for turn, posts in self.ways if len(posts) == 1]:
            behind.setdefault(earlier, []).append(later)
            waits[later] += 1
        ready = [(self.rough(turn), number, turn) for number, turn in enumerate(waits) if not waits[turn]]
        heapq.heapify(ready)
        found, number = [], len(waits)
        while ready:
            turn = heapq.heappop(ready)[2]
            found.append(turn)
            for later in behind.get(turn, ()):
                waits[later] -= 1
                if not waits[later]:
                    number += 1
                    heapq.heappush(ready, (self.rough(later), number, later))
        known = set(found)
        return found + sorted((turn for turn in waits if turn not in known), key=self.rough)

    def times(self, drifts):
        """The readings' times before anything is known of datagrams, by the drift that each host's counters keep, or None."""
        follows = [None] * len(self.turns)
        for chain in self.chains.values():
            for turn, later in zip(chain, chain[1:]):
                follows[self.place[turn]] = self.place[later], later.tick - turn.tick, drifts[turn.life.node]
        times = Times([self.rough(turn) for turn in self.turns], follows)
        for last, first in self.followers():
            times.order(self.place[last], self.place[first])
        return times


class Fitting:
    """Times that fit the datagrams. Of a datagram that may have been one of several posts, the last post is taken that leaves times that fit; but none
    from which it would have been on its way for longer than a datagram lives, if there is another."""

    def __init__(self, readings, drifts):
        self.readings, self.times = readings, readings.times(drifts)
        self.posts, self.choices = {}, {}
        for turn, posts in readings.ways:
            if len(posts) == 1:
                self.take(turn, posts[0])
        self.contradiction = self.times.settle()
        if not self.contradiction:
            self.choose_well()

    def take(self, turn, post):
        """The turn took what that one posted."""
        self.posts[turn] = post
        self.times.order(self.readings.place[post], self.readings.place[turn])

    def drop(self, turn):
        """Nothing is known any more of when that turn's datagram was posted."""
        self.times.release(self.readings.place[self.posts.pop(turn)], self.readings.place[turn])

    def time(self, turn):
        """A turn's time so far, in microseconds."""
        return self.times.times[self.readings.place[turn]] / MILLION

    def choose_well(self):
        """Chooses posts by times that fit what is known of others, and finds times."""
        joined = set(self.readings.groups[0])
        for group in self.readings.groups[1:]:
            self.move(group, joined)
            joined.update(group)
        self.contradiction = self.times.settle()
        if not self.contradiction:
            self.choose()
            self.settle()

    def move(self, group, joined):
        """Moves starts of which no datagram tells when they were against those of which one does: so that most of what was taken may just have been posted,
        and by as little as that leaves."""
        group, votes = set(group), []
        for turn, posts in [way for life in group for way in self.readings.open[life]]:
            for post in posts:
                if turn.life in group and post.life in joined or turn.life in joined and post.life in group:
                    votes.append((self.time(post) - self.time(turn)) * (1 if turn.life in group else -1))
        votes.sort()
        best, first = None, 0
        for last, vote in enumerate(votes):
            while vote - votes[first] > NEAR:
                first += 1
            found = last - first, -abs(vote), vote
            best = max(best or found, found)
        if best:
            self.times.move([self.readings.place[turn] for life in group for turn in self.readings.chains[life]], round(best[2] * MILLION))

    def choose(self):
        """Chooses the post of each datagram of which there may be several: the last one before it, or one that seems to come right behind."""
        for turn, posts in self.readings.ways:
            if len(posts) > 1:
                here, told = self.time(turn), sorted(posts, key=self.time)
                before = [post for post in told if self.time(post) <= here]
                is_old = not before or here - self.time(before[-1]) > LIFE
                place = len(before) - 1 if before else 0
                if is_old and len(before) < len(told) and self.time(told[len(before)]) <= here + LIFE:
                    place = len(before)
                self.choices[turn] = [post for post in told[:place] if here - self.time(post) <= LIFE]
                self.take(turn, told[place])

    def settle(self):
        """Finds times, or a contradiction that no other choice of posts takes away."""
        while True:
            self.contradiction = self.times.settle()
            turn = next((turn for turn in self.taken() if self.choices.get(turn)), None)
            if turn is None:
                return
            self.drop(turn)
            self.take(turn, self.choices[turn][-1])
            self.choices[turn] = self.choices[turn][:-1]

    def taken(self):
        """The turns whose datagrams contradict each other."""
        turns = self.readings.turns
        pairs = [(turns[bound.earlier], turns[bound.later]) for bound in self.contradiction if bound.kind == 'order']
        return [later for earlier, later in pairs if self.posts.get(later) is earlier]

    def without(self, turn):
        """The same without that turn's datagram."""
        made = copy.copy(self)
        made.times, made.posts, made.choices = self.times.copy(), dict(self.posts), dict(self.choices)
        made.drop(turn)
        if made.choices or made.times.settle():
            made.settle()
        else:
            made.choose_well()
        return made

    def late(self):
        """How many datagrams were on their way for longer than a datagram lives."""
        return sum(self.time(turn) - self.time(post) > LIFE for turn, post in self.posts.items())

    def lack(self):
        """By how many microseconds the bounds contradict each other."""
        return self.times.lack(self.contradiction)

    def spans(self):
        """How many microseconds are counted around the contradiction, in spans that take the least time and in those that take the most."""
        turns, spans = self.readings.turns, {'least': 0, 'most': 0, 'order': 0}
        for bound in self.contradiction:
            spans[bound.kind] += turns[bound.later].tick - turns[bound.earlier].tick if bound.kind != 'order' else 0
        return spans['least'], spans['most']

    def hosts(self):
        """The hosts whose counters are in the contradiction."""
        return sorted({self.readings.turns[bound.later].life.node for bound in self.contradiction if bound.kind != 'order'})

    def merged(self):
        """The contradiction's bounds as pairs of turns, with spans of one counter that follow each other put together."""
        found, turns = [], self.readings.turns
        for bound in self.contradiction:
            earlier, later = turns[bound.earlier], turns[bound.later]
            last = found[-1] if found else None
            if last and last[2] == bound.kind != 'order' and (last[1] is earlier or last[0] is later):
                found[-1] = (last[0], later, bound.kind) if last[1] is earlier else (earlier, last[1], bound.kind)
            else:
                found.append((earlier, later, bound.kind))
        return found
