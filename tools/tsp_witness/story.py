"""What a network lived through: its daemons' turns in an order and at times, as a schedule and the claims that belong to it."""
import heapq
import itertools
import struct
from collections import namedtuple

from tsp_texts import grammar, schedule
from tsp_witness import Unusable, faults, rules
from tsp_witness.clocks import Clocks, Placing
from tsp_witness.datagram import octets_of
from tsp_witness.matching import Matching

MILLION = 1_000_000
# So many datagrams may be what they are by chance.
MOST_DOUBTED, MOST_TRIED = 3, 12


class Claim(namedtuple('Claim', 'event text turn act')):
    """A line that is claimed: its event, the text behind the event's number, and the turn and act that it is of."""
    __slots__ = ()

    def line(self):
        return f'{self.event} {self.text}'


class Story:
    """The schedule and the claims of a network's journals. `placing` makes rates, walls and times of the clocks that were found. `altered` are
    datagrams that came otherwise than they were posted, `notes` what else isn't in its place."""

    def __init__(self, network, journals, most=0, placing=Placing):
        self.network, self.journals, self.most = network, journals, most
        self.doubted = []
        if len(network.names) > schedule.MOST_NODES:
            raise Unusable(f'there are {len(network.names)} hosts, and a schedule has at most {schedule.MOST_NODES}')
        self.placing = placing(self.clocks(), len(network.names))
        self.notes = faults.notes_of(network, journals, self.matching)
        self.altered = faults.altered_of(network, journals, self.matching)
        self.events, self.claims, self.posted = [], [], 0
        self.write()

    def name(self, life):
        """How a life is named to a reader."""
        return faults.name_of(self.network, self.journals, life)

    def turn_name(self, turn):
        """How a turn is named to a reader."""
        return faults.turn_name(self.network, self.journals, turn)

    def leave_out_silent(self):
        """A life that tells nothing of its clock and exchanged nothing with others has no place in time."""
        turns = [turn for life in self.matching.lives() for turn in life.turns]
        met = {turn.life for turn in turns if turn.post or turn in self.matching.choices}
        met |= {post.turn.life for turn in turns for post in [turn.post, *self.matching.choices.get(turn, [])] if post}
        for journal in self.journals.values():
            kept = [life for life in journal.lives if life.base is not None or life in met]
            journal.notes += [f'{self.name(life)} is left out: no line tells its clock, and nothing that it posted was taken'
                              for life in journal.lives if life not in kept]
            journal.lives = kept

    def clocks(self):
        """Clocks by which nothing is taken before it was posted. A datagram or a few of which that can't be so are taken for changed ones, which are
        by chance what was posted at another time."""
        while True:
            self.matching = Matching(self.network, self.journals, self.doubted)
            self.leave_out_silent()
            if not self.matching.lives():
                raise Unusable('there is no line of a trace')
            clocks = Clocks(self.matching, self.most)
            if clocks.fit.least >= 0:
                return clocks
            if not self.doubted:
                text = self.unfit_text(clocks)
                if self.ends_at_step():
                    continue
            if len(self.doubted) == MOST_DOUBTED:
                raise Unusable(text)
            self.doubted.append(self.doubtful(clocks))

    def doubtful(self, clocks):
        """The turn without whose datagram the clocks fit best: one of those that bound two clocks the most."""
        bounding = {}
        for life in self.matching.lives():
            for turn in life.turns:
                if turn.post:
                    post = turn.post.turn
                    passed = clocks.shown(life, turn.tick) - clocks.shown(post.life, post.tick)
                    pair = clocks.clock(post.life), clocks.clock(life)
                    bounding[pair] = min(bounding.get(pair, (passed, turn)), (passed, turn), key=lambda each: each[0])
        turns = sorted((turn for _, turn in bounding.values()), key=lambda turn: clocks.at(turn) - clocks.at(turn.post.turn))[:MOST_TRIED]
        return max(turns, key=lambda turn: Clocks(Matching(self.network, self.journals, [*self.doubted, turn]), self.most).fit.least)

    def worst(self, clocks):
        """The turn that took its datagram the farthest before that was posted."""
        turns = [turn for life in self.matching.lives() for turn in life.turns if turn.post]
        return min(turns, key=lambda turn: clocks.at(turn) - clocks.at(turn.post.turn))

    def unfit_text(self, clocks):
        """Which datagram would go back in time the most, and that there is at least one the other way."""
        turn = self.worst(clocks)
        return f'no constant rates within a drift of {self.most} fit: "{" ".join(turn.took().words[2:])}" would reach {self.turn_name(turn)}, ' \
            f'{clocks.at(turn.post.turn) - clocks.at(turn):.0f} us before it left {self.turn_name(turn.post.turn)}, or another one likewise'

    def ends_at_step(self):
        """Ends the story before a start at which a host's wall clock had been stepped, or was another one than its counter, where that is why no
        times fit; says whether it is: a schedule has one clock for each node."""
        apart = Clocks(self.matching, self.most, apart=True)
        steps = {life: apart.step(journal.lives[0], life) for journal in self.journals.values() for life in journal.lives[1:] if life.base is not None}
        if apart.fit.least < 0 or not steps:
            return False
        stepped = max(steps, key=lambda life: abs(steps[life]))
        begun, lines = apart.fit.offsets[apart.clock(stepped)], 0
        name, first = self.name(stepped), self.journals[stepped.node].lives[0]
        is_set = abs(apart.step(first, stepped, first.mean_rate())) > abs(steps[stepped]) / 2
        least, most = min(rate for _, rate in first.rates), max(rate for _, rate in first.rates)
        rates = str(most) if least == most else f'{least} to {most}'
        why = f'its wall clock had been stepped by {-steps[stepped]:.0f} us, and a schedule has one for each node' if is_set else \
            f'its counter was {rates} parts in 10^9 faster than its wall clock, and a schedule has one for both'
        for life in self.matching.lives():
            lines += sum(len(turn.acts) for turn in life.turns if apart.at(turn) >= begun)
            life.turns = [turn for turn in life.turns if apart.at(turn) < begun]
        for journal in self.journals.values():
            journal.lives = [life for life in journal.lives if life.turns]
        self.journals[stepped.node].notes.append(f'{name}: {why}: the {lines} lines from there on aren\'t witnessed')
        return True

    def chain(self, journal):
        """A host's turns, with a boot before those of each life."""
        for life in journal.lives:
            yield rules.boot(self.network, life)
            yield from life.turns

    def ordered(self):
        """All turns, in the order of time and of cause and effect."""
        behind, waits, ready, count = {}, {}, [], itertools.count()
        for journal in self.journals.values():
            before = None
            for turn in self.chain(journal):
                causes = [cause for cause in (before, turn.post and turn.post.turn) if cause]
                waits[turn], turn.at, before = len(causes), self.placing.at(turn), turn
                for cause in causes:
                    behind.setdefault(cause, []).append(turn)
        for turn in [turn for turn in waits if not waits[turn]]:
            heapq.heappush(ready, (turn.at, next(count), turn))
        while ready:
            turn = heapq.heappop(ready)[2]
            del waits[turn]
            yield turn
            for later in behind.get(turn, []):
                waits[later] -= 1
                if not waits[later]:
                    heapq.heappush(ready, (later.at, next(count), later))
        if waits:
            first = min(waits, key=lambda turn: turn.at)
            raise Unusable(f'what is told of {self.turn_name(first)} and of others would each follow from the other')

    def write(self):
        """Writes each turn as an event, and its acts as claims."""
        last = 0
        for turn in self.ordered():
            if turn.at < last:
                raise Unusable(f'what is told of {self.turn_name(turn)} would be {last - turn.at} us before what it follows from')
            last = turn.at
            self.events.append(f'at {turn.at} {self.event(turn)}')
            for act in turn.acts:
                self.claims.append(Claim(len(self.events), self.claim(turn, act), turn, act))
        if last > schedule.FARTHEST:
            raise Unusable('the wall clocks are later than a schedule can tell')

    def event(self, turn):
        """The words of a turn's event behind its time."""
        node, took = turn.life.node, turn.took()
        if turn.acts[0].words == ['boot']:
            return f'boot {node} {self.placing.bases[turn.life]}'
        if took is None:
            return f'turn {node}'
        if turn.post:
            return f'take {turn.post.act.number}'
        place = f'{node}/{took.port}' if took.port else str(node)
        try:
            octets = octets_of(took.words[2:])
        except (ValueError, struct.error):
            raise Unusable(f'{turn.place}: "{" ".join(took.words[2:])}" is no datagram') from None
        return f'bytes {place} {self.node_word(node, took.words[1])} {octets.hex()}'

    def node_word(self, node, peer):
        """A peer of a daemon as the node's number that it is."""
        return peer if peer == '-' else str(self.network.peers[node][int(peer)].node)

    def claim(self, turn, act):
        """An act in the schedule's numbers."""
        words, node = list(act.words), turn.life.node
        place = grammar.place_of_peer(words)
        if place is not None:
            words[place] = self.node_word(node, words[place])
        if words[0] == 'arm':
            words[2] = str(self.placing.tick(turn.life, int(words[2])))
        if words[0] == 'post':
            act.number, self.posted = self.posted, self.posted + 1
            words[1] = str(act.number)
        return f'{node} {act.port} {self.placing.tick(turn.life, turn.tick)} {" ".join(words)}'

    def schedule(self, count=None):
        """The schedule's text, up to so many events."""
        header = self.network.header(self.placing.drift, self.placing.rates, self.placing.walls)
        return '\n'.join([*header, *self.events[:count], 'end', ''])

    def claimed(self, count=None):
        """The text of the claims, up to those of so many events."""
        return ''.join(f'{claim.line()}\n' for claim in self.claims if count is None or claim.event <= count)
