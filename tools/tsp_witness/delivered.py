"""How late the daemons of a network looked at their alarms and sends, how long their datagrams were on their way, and how long things took that the laws of
progress bound (docs/PROGRESS.md)."""
import bisect
from collections import namedtuple

from tsp_texts import progress
from tsp_witness import faults

MILLION = 10**6
# Twice this is how long a search waits for its answer, so what is proved of answers asks for less.
LONG = 2_500_000
# Of so many starts late looks are shown.
MOST_SHOWN = 10
# A datagram's time is bounded by so many of those that were taken before it and after it.
NEAR = 4


class Way(namedtuple('Way', 'post take least most')):
    """A datagram that was taken: where it was posted and taken, and how many microseconds that took at least and at most; None where nothing tells that."""
    __slots__ = ()

    def words(self):
        """Its message line."""
        return ' '.join(self.take.took().words[2:])


class Drift:
    """How much true time passes while a counter within the drift counts so much, backwards too, in whole microseconds. (that share of a span is rounded up)"""

    def __init__(self, drift):
        self.drift, self.rounded = drift, int(drift > 0)

    def most(self, ticks):
        """At most so much."""
        ticks += self.rounded
        return -(-ticks * MILLION // (MILLION - self.drift if ticks > 0 else MILLION + self.drift))

    def least(self, ticks):
        """At least so much."""
        return -self.most(-ticks)


class Pair:
    """Two starts, and the datagrams from the first to the second whose posts are known, and those back, each as its post and its take."""

    def __init__(self, forth, back):
        self.forth, self.back = sorted(forth, key=lambda way: way[0].tick), sorted(back, key=lambda way: way[1].tick)
        self.posted, self.taken = [way[0].tick for way in self.forth], [way[1].tick for way in self.back]

    def way(self, post, take, drift):
        """A datagram from the first to the second, whose time is bounded by those around it in the same direction, none of which was taken before it was posted,
        and by those back."""
        near = bisect.bisect(self.posted, post.tick)
        least = [drift.least(take.tick - other[1].tick) + drift.least(other[0].tick - post.tick)
                 for other in self.forth[max(near - NEAR, 0):near + NEAR] if other[1] is not take]
        near = bisect.bisect(self.taken, post.tick)
        most = [drift.most(take.tick - other[0].tick) + drift.most(other[1].tick - post.tick) for other in self.back[max(near - NEAR, 0):near + NEAR]]
        return Way(post, take, max([0, *least]), min(most, default=None))


class Delivery:
    """The datagrams that hosts with traces posted to each other: those that were taken, and those that weren't though their addressee was there, each as its
    turn and act. None of both where no times fit."""

    def __init__(self, judgement):
        self.judgement, self.fitting, self.drift = judgement, judgement.fitting, Drift(judgement.drift)
        self.ways, self.lost, self.readings, self.pairs = [], [], {}, {}
        known = {}
        for take, post in self.fitting.posts.items():
            if len(judgement.matching.candidates(take)) == 1:
                known.setdefault((post.life, take.life), []).append((post, take))
        self.known = known
        for take, post in self.fitting.posts.items():
            self.ways.append(self.way(take, post))
        self.find_lost()

    def bounded(self, post, take):
        """A datagram with its bounds."""
        here, there = post.life, take.life
        if (here, there) not in self.pairs:
            self.pairs[here, there] = Pair(self.known.get((here, there), ()), self.known.get((there, here), ()))
        return self.pairs[here, there].way(post, take, self.drift)

    def way(self, take, post):
        """A datagram that was taken. One that equals several posts counts as the last of them that it can have been."""
        posts = self.judgement.matching.candidates(take)
        if len(posts) > 1:
            last = self.time(take) + LONG
            for other in sorted((other.turn for other in posts if self.time(other.turn) <= last), key=self.time, reverse=True)[:NEAR]:
                way = self.bounded(other, take)
                if way.most is None or way.most >= 0:
                    return way
        return self.bounded(post, take)

    def time(self, turn):
        """Roughly a turn's time: that of the reading next to it in its start, and the ticks between."""
        if turn.life not in self.readings:
            chain = self.fitting.readings.chains[turn.life]
            self.readings[turn.life] = [reading.tick for reading in chain], chain
        ticks, chain = self.readings[turn.life]
        near = chain[max(bisect.bisect(ticks, turn.tick) - 1, 0)]
        return self.fitting.time(near) + turn.tick - near.tick

    def find_lost(self):
        """Finds the posts that nobody took. Equal datagrams are taken for as many of them as can be. A host is there from its first line on, until a while before
        its last."""
        matching, there, equal = self.judgement.matching, {}, {}
        for life in matching.lives():
            there.setdefault(life.node, []).append((self.time(life.turns[0]), self.time(life.turns[-1]) - LONG))
        for way in self.ways:
            equal.setdefault(id(matching.candidates(way.take)), []).append(way)
        for (_, _, to, _), posts in matching.index.items():
            for post in self.untaken(posts, equal.get(id(posts), [])):
                if post.turn.number and any(first <= self.time(post.turn) < last for first, last in there.get(to, ())):
                    self.lost.append(post)

    def untaken(self, posts, ways):
        """Those of equal posts that weren't taken. One that was taken twice may have been two."""
        taken, twice = set(), []
        for way in ways:
            (twice.append(way) if way.post in taken else taken.add(way.post))
        for post in posts:
            if post.turn not in taken:
                at = self.time(post.turn)
                way = next((way for way in twice if at <= self.time(way.take) < at + LONG), None)
                if way:
                    twice.remove(way)
                else:
                    yield post

    def name(self, turn):
        """How a turn is named to a reader."""
        return f'{faults.turn_name(self.judgement.network, self.judgement.journals, turn)} at {progress.seconds(turn.tick)}'

    def longest(self, since=None):
        """The datagram that took the longest of those that were posted after some time, or None."""
        bounded = [way for way in self.ways if way.most is not None and (since is None or self.time(way.post) > since)]
        return max(bounded, key=lambda way: way.most, default=None)

    def most(self):
        """How long any datagram was on its way at most, or None."""
        longest = self.longest()
        return longest and longest.most

    def lines(self):
        """Lines that say how long datagrams took, and since when they came in time."""
        sent, longest = len(self.ways) + len(self.lost), self.longest()
        if not sent:
            yield 'these hosts posted no datagram to each other'
            return
        yield f'{len(self.ways)} of {sent} datagrams that these hosts posted to each other were taken'
        if longest:
            yield f'they took at most {progress.seconds(longest.most)}, and at least {progress.seconds(max(way.least for way in self.ways))} in one case: ' \
                f'the longest was "{longest.words()}", posted by {self.name(longest.post)}'
        late = [(self.time(way.post), f'"{way.words()}"', way.post) for way in self.ways if way.least >= LONG]
        lost = [(self.time(post.turn), f'"{" ".join(post.act.words[3:])}"', post.turn) for post in self.lost]
        if late or lost:
            at, what, turn = max(late + lost, key=lambda broken: broken[0])
            last = self.longest(at)
            yield f'lost, or {progress.seconds(LONG)} or more on their way, where what is proved of deliveries in time doesn\'t hold: {len(lost)} and {len(late)}; ' \
                f'the last one was {what}, posted by {self.name(turn)}; ' + \
                (f'since then they took at most {progress.seconds(last.most)}' if last else 'none was taken since then')


def kept_of(judgement):
    """What is kept of the looks of each start."""
    for journal in judgement.journals.values():
        for life in journal.lives:
            looks = progress.Looks(faults.name_of(judgement.network, judgement.journals, life))
            for turn in life.turns:
                for act in turn.acts:
                    looks.act(turn.number, turn.tick, act.port, act.words)
            yield looks.finish()


def lines(judgement):
    """What is told of a network."""
    whole, broke = progress.Kept(), []
    for kept in kept_of(judgement):
        whole.add(kept)
        broke += kept.broke()
    yield from broke[:MOST_SHOWN]
    if len(broke) > MOST_SHOWN:
        yield f'and so on {len(broke) - MOST_SHOWN} starts more'
    yield from whole.attended()
    delivery = None if judgement.fitting.contradiction else Delivery(judgement)
    yield from delivery.lines() if delivery else ['how long datagrams took isn\'t told, as no times fit']
    have_all = set(judgement.journals) == set(range(len(judgement.network.names)))
    yield from whole.answered(delivery.most() if delivery and have_all else None)
    yield from whole.laws()
