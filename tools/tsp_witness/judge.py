"""The judgement of a network's journals: whether each daemon did what the rules say, and whether there are counters within the drift by which all
of it happened. Then it was a run, and it is proved that these keep the promises, as long as each counter stays within the drift."""
import tempfile

from tsp_witness import Unusable, faults, rules
from tsp_witness.matching import LIFE, Matching
from tsp_witness.timing import Fitting, Readings

# So many datagrams may be what they are by chance, and so often it is tried whether it is these.
MOST_DOUBTED, MOST_TRIED = 3, 40
# How far a counter may be off that is tried as the one beyond the drift, in parts in a million; None where it may stand still, or jump.
LOOSE = (5000, 50_000, None)
# Of so many starts the first act that differs is shown.
MOST_SHOWN = 5
MILLION = 1_000_000


class Judgement:
    """What is found of the journals. `altered` are datagrams that came otherwise than they were posted, `notes` what else isn't in its place."""

    def __init__(self, program, network, journals, drift):
        self.network, self.journals, self.drift = network, journals, drift
        self.alike, self.differences, self.unjudged, self.is_whole = 0, [], [], True
        if not any(journal.lives for journal in journals.values()):
            raise Unusable('there is no line of a trace')
        self.compare(program)
        self.matching = Matching(network, journals)
        self.readings = Readings(self.matching)
        self.fitting, self.doubted, self.lacks, self.beyond, self.tried = self.fitted(), [], [], [], 0
        if self.fitting.contradiction:
            self.explain()
        self.late = 0 if self.fitting.contradiction else self.fitting.late()
        self.notes = faults.notes_of(network, journals, self.matching)
        self.altered = faults.altered_of(network, journals, self.matching) + [self.doubted_text(turn, lack) for turn, lack in zip(self.doubted, self.lacks)]

    def name(self, life):
        """How a start is named to a reader."""
        return faults.name_of(self.network, self.journals, life)

    def compare(self, program):
        """Compares the acts of each start with those of the rules."""
        with tempfile.TemporaryDirectory(prefix='tsp-witness-') as folder:
            ruled = rules.Rules(program, self.network, folder)
            self.compare_with(ruled)
        if self.unjudged and ruled.lacks:
            self.unjudged.append(ruled.lacks)

    def compare_with(self, ruled):
        """The same, with what says what the rules are."""
        for node, journal in self.journals.items():
            if not ruled.can_judge(node):
                self.is_whole = False
                self.unjudged.append(f'{self.network.names[node]}, which has more than {ruled.most_peers()} peers')
                continue
            for life in journal.lives:
                found = ruled.compare(life)
                self.alike += found.alike
                if found.difference:
                    self.differences.append((life, found))
                elif found.judged < len(life.turns):
                    self.unjudged.append(f'{self.name(life)} from turn {life.turns[found.judged].number} on, as a replay has room for {rules.MOST_TURNS} turns')

    def explain(self):
        """Finds a datagram, a host or a few datagrams without which there are times."""
        if not self.doubt(self.fitting, [], [], 1):
            self.beyond = next(filter(None, map(self.culprits, LOOSE)), [])
            if not self.beyond:
                any(self.doubt(self.fitting, [], [], count) for count in range(2, MOST_DOUBTED + 1))

    def fitted(self, node=None, loose=None):
        """Times by the drift, where one host's counter may keep another, or none."""
        return Fitting(self.readings, {other: loose if other == node else self.drift for other in self.journals})

    def culprits(self, loose):
        """The hosts of the contradiction with whose counter all fits if it keeps this drift, or none."""
        return [node for node in self.fitting.hosts() if not self.fitted(node, loose).contradiction]

    def doubt(self, fitting, doubted, lacks, left):
        """Whether there are times without so many datagrams more."""
        for turn in fitting.taken():
            self.tried += 1
            if self.tried > MOST_TRIED:
                return False
            other = fitting.without(turn)
            found, by = [*doubted, turn], [*lacks, fitting.lack()]
            if not other.contradiction:
                self.fitting, self.doubted, self.lacks = other, found, by
                return True
            if left > 1 and self.doubt(other, found, by, left - 1):
                return True
        return False

    def doubted_text(self, turn, lack):
        """What a daemon took at a time at which it can't have been posted."""
        what = f'{self.name(turn.life)} took "{" ".join(turn.took().words[2:])}" of {self.network.names[self.matching.sender(turn)[0]]} in turn {turn.number}'
        return f'{what}, which by its trace posted that to it at another time alone: at least {lack:.0f} us later, by any counters within the drift'

    def is_well(self):
        """Whether all that was judged is as it should be."""
        return self.is_whole and not self.differences and not self.fitting.contradiction

    def text(self):
        """The verdict in a line."""
        said = f'{self.alike} acts alike'
        if self.differences:
            said += ', and then one that differs' + (f', on each of {len(self.differences)} starts' if len(self.differences) > 1 else '')
        if self.fitting.contradiction:
            said += f', but no counters within a drift of {self.drift} fit what was taken when'
        elif not self.differences:
            said += ', holds so far' if self.unjudged else ', holds'
        if self.late:
            said += f'; of {self.late} datagrams that were on their way for more than {LIFE // MILLION} s some promises say nothing'
        return said + (f'; not compared: {"; ".join(self.unjudged)}' if self.unjudged else '')

    def explained(self):
        """Lines for a reader: the first acts that differ, and the datagrams that contradict each other."""
        for life, found in self.differences[:MOST_SHOWN]:
            yield from rules.explain(self.network, self.name(life), found.difference)
        if len(self.differences) > MOST_SHOWN:
            yield f'and {len(self.differences) - MOST_SHOWN} starts more'
        if self.fitting.contradiction:
            yield from self.contradiction()

    def contradiction(self):
        """Why no times fit, in lines for a reader."""
        (least, most), lack = self.fitting.spans(), f'{self.fitting.lack():.0f} us'
        for node in self.beyond:
            also = '' if len(self.beyond) == 1 else ', or that of another host'
            yield f'with any other counter of {self.network.names[node]} all fits: its counter is beyond the drift{also}, or its ticks were changed'
        if most and least < 2 * most:
            apart = (least - most) * MILLION / most
            yield f'these contradict each other by {lack}: two counters are {apart:.0f} parts in a million apart, and may be {2 * self.drift}'
        else:
            yield f'these contradict each other by {lack}'
        for earlier, later, kind in self.fitting.merged():
            yield f'  {self.bound_text(earlier, later, kind)}'

    def bound_text(self, earlier, later, kind):
        """One of the bounds that contradict each other."""
        if kind != 'order':
            passed = (later.tick - earlier.tick) / MILLION
            return f'{faults.turn_name(self.network, self.journals, later)} has counted {passed:.6f} s since turn {earlier.number}'
        if later.number == 0:
            return f'{self.name(later.life)} starts behind turn {earlier.number} of the start before'
        return f'{faults.turn_name(self.network, self.journals, later)} takes "{" ".join(later.took().words[2:])}", ' \
            f'which {faults.turn_name(self.network, self.journals, earlier)} posts'
