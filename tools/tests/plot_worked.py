"""What tsp-plot reads off a run, beside values that were worked out by hand from the protocol's rules."""
import glob
import unittest

import tsp_clock
from tsp_texts import claims, history, schedule, trace, verdict

FOLDER = 'tools/tests/plot/'


def run_of(name):
    """The schedule of this name, and the acts of its trace."""
    with open(f'{FOLDER}{name}.tsp', 'rb') as file:
        read = verdict.read(file.read())
    return read, claims.read(f'{FOLDER}{name}.trace', read)


def history_of(name):
    return history.History(*run_of(name))


class Round(unittest.TestCase):
    """Two nodes: a is elected, sets b's clock by -10,400, measures it 500 behind, and corrects both to the mean."""

    def setUp(self):
        self.run = history_of('round')

    def test_measurement(self):
        # The reading is posted at 630,000,300; a's clock is true time then, and b's 400 behind it.
        sample, = self.run.samples
        self.assertEqual((sample.master, sample.peer, sample.reading_at, sample.err, sample.trip), (0, 1, 630000300, 401, 801))
        self.assertEqual((sample.low, sample.high), (-500 - 401, -500 + 401))
        self.assertEqual(self.run.clock(1, 630000300).offset(630000300), -400)

    def test_group(self):
        self.assertEqual(self.run.groups, [history.Group(0, 0, 638000000, -500, 0, -250, 0)])

    def test_bound(self):
        # From b's correction on: its error of 401, and twice what 8.0004 s of a drift of 100 can do, 802.
        bound, = self.run.bounds
        self.assertEqual((bound.follower, bound.begin, bound.end, bound.lasts), (1, 638000400, 638000700, True))
        self.assertEqual(bound.width_at(638000700), 401 + 2 * 802)
        master, follower = (self.run.clock(node, 638000700).offset(638000700) for node in (0, 1))
        self.assertEqual((master, follower), (-250, -150))
        self.assertEqual(bound.clock.offset(638000700), master)

    def test_bound_by_another_drift(self):
        read, acts = run_of('round')
        bound, = history.History(read, acts, 1000).bounds
        # 8.0004 s of a drift of 1,000 are 8,000.4, rounded up, and 1 more.
        self.assertEqual(bound.width_at(638000700), 401 + 2 * 8002)

    def test_roles(self):
        self.assertEqual([(span.value.name, span.begin) for span in self.run.roles[0, 0]],
                         [('starting', 0), ('loose', 80000000), ('candidate', 385000000), ('master', 390000000)])
        self.assertEqual([(span.value.name, span.begin) for span in self.run.roles[1, 0]],
                         [('starting', 0), ('loose', 80000000), ('follow', 390000500)])

    def test_beside_the_master(self):
        # b follows from 390,000,500 on. It is set by -10,400 at 390,001,400, and then 400 behind; a moves by -250, so b is 150 behind, and then by 250.
        found = [(span.begin, span.end, span.value.offset(span.begin)) for span in self.run.beside((1, 0))]
        self.assertEqual(found, [(390000500, 390001400, 10000), (390001400, 638000000, -400), (638000000, 638000400, -150), (638000400, 638000700, 100)])
        self.assertEqual(self.run.beside((0, 0)), [])

    def test_datagrams(self):
        # Posts 0, 1, 8, 11, 12 and 13 are never taken.
        self.assertEqual(sorted(set(self.run.posts) - set(self.run.takes)), [0, 1, 8, 11, 12, 13])


class Bounds(unittest.TestCase):
    """When a bound ends: the same round, with an event behind it."""

    def bound_with(self, event, *lines):
        read, acts = run_of('round')
        read.events.append(schedule.event_of(event))
        for line in lines:
            words = line.split()
            acts.append(trace.Act(len(acts), 24, int(words[0]), 0, int(words[1]), read.events[-1].at, ' '.join(words[2:])))
        bound, = history.History(read, acts).bounds
        return bound

    def test_a_boot_of_the_follower_ends_it(self):
        bound = self.bound_with(b'at 638000900 boot 1 3', '1 638000900 boot')
        self.assertEqual((bound.end, bound.lasts), (638000900, False))

    def test_a_correction_of_the_master_ends_it(self):
        bound = self.bound_with(b'at 640000000 turn 0', '0 640000000 correct 5 slew 639999751')
        self.assertEqual((bound.end, bound.lasts), (640000000, False))

    def test_a_correction_of_the_master_before_the_follower_has_its_own(self):
        read, acts = run_of('round')
        at = next(place for place, act in enumerate(acts) if act.words[:2] == ['correct', '-250']) + 1
        acts.insert(at, acts[at - 1]._replace(text='correct 5 slew 638000000'))
        acts = [act._replace(place=place) for place, act in enumerate(acts)]
        self.assertEqual(history.History(read, acts).bounds, [])

    def test_a_turn_ends_nothing(self):
        bound = self.bound_with(b'at 640000000 turn 0')
        self.assertEqual((bound.end, bound.lasts), (640000000, True))


def bound(master, follower, close, correct, begin, end, err, lasts=True):
    """A bound of a round, whose reading was at its beginning, by a drift of 0."""
    return history.Bound(None, master, follower, close, correct, err, begin, begin, end, 0, lasts)


class Chains(unittest.TestCase):
    """Bounds one below the other."""

    def chains(self, *bounds):
        return sorted((chain.begin, chain.end, [each.follower for each in chain.bounds], chain.lasts) for chain in history.Tree(bounds).chains)

    def test_of_two_rounds(self):
        first, second = bound(0, 1, 10, 12, 100, 500, 402), bound(1, 2, 20, 22, 200, 500, 196)
        self.assertEqual(self.chains(first, second), [(100, 500, [1], True), (200, 500, [1, 2], True)])
        # Each error, and twice the microsecond that a width has at least: 404 and 198.
        chain = history.Tree([first, second]).chains[-1]
        self.assertEqual((chain.follower, chain.width_at(300)), (2, 602))

    def test_a_close_before_the_correction_above_it_is_in_no_chain(self):
        self.assertEqual(self.chains(bound(0, 1, 10, 12, 100, 500, 5), bound(1, 2, 11, 22, 200, 500, 5)), [(100, 500, [1], True), (200, 500, [2], True)])

    def test_what_is_left_when_the_top_is_moved(self):
        self.assertEqual(self.chains(bound(0, 1, 10, 12, 100, 300, 5, False), bound(1, 2, 20, 22, 200, 500, 5)),
                         [(100, 300, [1], False), (200, 300, [1, 2], False), (300, 500, [2], True)])

    def test_a_chain_that_comes_to_stand_between_two_others(self):
        self.assertEqual(self.chains(bound(0, 1, 10, 12, 100, 300, 5, False), bound(0, 1, 30, 32, 300, 500, 5), bound(1, 2, 20, 22, 200, 500, 5)),
                         [(100, 300, [1], False), (200, 300, [1, 2], False), (300, 500, [1], True), (300, 500, [2], True)])

    def test_of_three_rounds(self):
        self.assertEqual(self.chains(bound(2, 3, 30, 32, 300, 400, 5), bound(0, 1, 10, 12, 100, 400, 5), bound(1, 2, 20, 22, 200, 400, 5)),
                         [(100, 400, [1], True), (200, 400, [1, 2], True), (300, 400, [1, 2, 3], True)])

    def test_without_rounds(self):
        self.assertEqual(self.chains(), [])

    def test_of_the_examples(self):
        # What is promised is kept: each clock stays so near to the one at the top, from the chain's beginning to its end.
        count = 0
        for path in sorted(glob.glob('examples/*.tsp')):
            with open(path, 'rb') as file:
                read = verdict.read(file.read())
            run = history.History(read, claims.read(path[:-3] + 'trace', read))
            for chain in history.Tree(run.bounds).chains:
                clock, top = run.clock(chain.follower, chain.begin), chain.bounds[0].clock
                for at in range(chain.begin, chain.end + 1, max((chain.end - chain.begin) // 50, 1)):
                    self.assertLessEqual(abs(clock.offset(at) - top.offset(at)), chain.width_at(at), path)
                count += 1
        self.assertGreaterEqual(count, 3)


class BestSample(unittest.TestCase):
    """Three exchanges of one round: round trips of 40, 10 and 10. The first of the shortest counts."""

    EVENTS = [b'at 0 boot 0 0', b'at 0 boot 1 0', b'at 10 turn 0', b'at 20 take 0', b'at 50 take 1', b'at 60 turn 0', b'at 65 take 2',
              b'at 70 take 3', b'at 80 turn 0', b'at 83 take 4', b'at 90 take 5', b'at 100 turn 0', b'at 110 take 6']
    LINES = """
        1 0 0 boot
        1 0 0 become master
        2 1 0 boot
        2 1 0 become follow 0
        3 0 10 ring round
        3 0 10 arm close 100
        3 0 10 post 0 1 request 0 0
        4 1 20 took 0 request 0 0
        4 1 20 post 1 0 reply 0 0 0 20
        5 0 50 took 1 reply 0 0 0 20
        5 0 50 sample 1 0 -10 20 0
        6 0 60 ring probe
        6 0 60 post 2 1 request 0 1
        7 1 65 post 3 0 reply 0 0 1 65
        8 0 70 took 1 reply 0 0 1 65
        8 0 70 sample 1 1 0 5 0
        9 0 80 ring probe
        9 0 80 post 4 1 request 0 2
        10 1 83 post 5 0 reply 0 0 2 83
        11 0 90 took 1 reply 0 0 2 83
        11 0 90 sample 1 2 -2 5 0
        12 0 100 ring close
        12 0 100 close 2 0 0 0
        12 0 100 correct 0 slew 100
        12 0 100 post 6 1 adjtime 0 0 a
        13 1 110 took 0 adjtime 0 0 a
        13 1 110 correct 0 slew 110
    """

    def test_first_of_the_shortest(self):
        events = [schedule.event_of(line) for line in self.EVENTS]
        read = schedule.Schedule(False, 1000, [schedule.Node('a', 0, 0, True), schedule.Node('b', 0, 0, False)], events)
        acts = []
        for line in self.LINES.split('\n'):
            if words := line.split():
                event = int(words[0])
                acts.append(trace.Act(len(acts), event, int(words[1]), 0, int(words[2]), events[event - 1].at, ' '.join(words[3:])))
        run = history.History(read, acts)
        self.assertEqual([(sample.reading_at, sample.trip) for sample in run.samples], [(20, 40), (65, 10), (83, 10)])
        bound, = run.bounds
        # 45 microseconds of a drift of 1,000 are 1, rounded up, and 1 more.
        self.assertEqual((bound.err, bound.reading_at, bound.width_at(110)), (5, 65, 5 + 2 * 2))


class Clock(unittest.TestCase):
    """The shown value slews by a microsecond in 200 ticks."""

    def clock(self, rest, since=0, rate=0):
        return trace.Clock(schedule.Node('a', rate, 0, True), rest, rest, since)

    def test_slewing_upwards(self):
        clock = self.clock(10000, 82000000)
        self.assertEqual(clock.shown(82000000), 0)
        self.assertEqual(clock.shown(83000000), 5000)
        self.assertEqual(clock.met_at(), 84000000)

    def test_slewing_downwards(self):
        clock = self.clock(-20000000)
        self.assertEqual(clock.shown(0) - clock.offset(0), 20000000)
        self.assertEqual(clock.shown(3999999999) - clock.offset(3999999999), 1)
        self.assertEqual(clock.shown(4000000000) - clock.offset(4000000000), 0)

    def test_ticks(self):
        self.assertEqual(trace.tick_at(schedule.Node('a', -100, 0, True), 10000), 9999)
        self.assertEqual(trace.tick_at(schedule.Node('a', -100, 0, True), 10001), 9999)
        self.assertEqual(trace.tick_at(schedule.Node('a', 100, 0, True), 9999), 9999)

    def test_width(self):
        self.assertEqual(tsp_clock.width(100, 10000000), 1001)


if __name__ == '__main__':
    unittest.main()
