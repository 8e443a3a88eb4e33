"""What dev/machines reckons of samples, against distances that were worked out by hand: `machines.py`, from the top of the repository."""
import os
import sys
from types import SimpleNamespace

HERE = os.path.dirname(os.path.realpath(__file__))
TOP = os.path.dirname(os.path.dirname(HERE))
sys.dont_write_bytecode = True
sys.path[:0] = os.path.join(TOP, 'dev'), os.path.join(TOP, 'tools')
from lab.machines import day, pages, paths, printed, record  # noqa: E402
from lab.machines.truth import LEADS, SYNCHRONISED, Clock, Sample, Truth, of_lines, three  # noqa: E402

# Counts in a microsecond, and microseconds: between two samples, and of the whole.
RATE, PACE, LASTS = 2500, 500_000, 60_000_000
BASE = 1_800_000_000_000_000


def wanted(is_so, text):
    """Ends where something isn't so."""
    if not is_so:
        sys.exit(f'machines: {text}')


def sample(moment, ahead, role, low=0, high=0, own=0, life=1, steps=0):
    """A sample of a clock that is ahead of the true one by so much, with an interval around that."""
    shown = BASE + moment + ahead
    return Sample(moment * RATE, (BASE + moment + own) * 1000, moment * RATE, shown, shown + low, shown + high, SYNCHRONISED, role, life, steps, 1000)


def made(*machines):
    """What was seen of machines, whose samples are these."""
    truth = Truth.__new__(Truth)
    truth.rate, truth.machines, truth.samples = RATE, list(machines), list(machines)
    return truth


def moments(shift=0):
    """The moments of samples; machines aren't sampled at the same ones."""
    return range(shift, LASTS, PACE)


def falls(leads, half):
    """A shown value that goes back by 2 s (of which half a second passed meanwhile) fell; it didn't where the clock was stepped, or another daemon began."""
    for told, count in (({}, 1), ({'steps': 1}, 0), ({'life': 2}, 0)):
        back = [sample(moment, -2_000_000, 1, **told) if moment >= half else sample(moment, 0, 1) for moment in moments()]
        seen = made(leads, back)
        seen.machines = ['m1', 'm2']
        found = seen.falls()
        wanted(found == [('m2', half, 1_500_000)][:count], f'with {told} in the second half these fell: {found}')
    # Of a reading that misses the master it is told by how much: an interval from 1 to 400 above the master's clock, and one below it.
    for ahead, low, high, late in ((300, -299, 100, 1), (-300, -100, 290, -10), (300, -300, 100, 0)):
        judged = made(leads, [sample(moment, ahead, 1, low, high) for moment in moments(123_456)]).judged()
        wanted({one for _, _, one in judged} == {late}, f'an interval from {low} to {high} around {ahead} misses by {judged[:3]}')


def day_and_record():
    """A day has each sort of event as often as the others, one in the first half of each part of it, and the same by the same seed; samples are told from
    the counters that were asked for before and after."""
    for hours, times in ((24, 4), (1.2, 1), (0.5, 1)):
        plan = day.planned(hours, 7)
        sorts, part = [sort for _, sort in plan], hours * 3600 / (times * len(day.SORTS))
        wanted(all(sorts.count(sort) == times for sort in day.SORTS) and len(sorts) == times * len(day.SORTS), f'a day of {hours} hours has {sorts}')
        wanted(all(number * part <= second <= (number + 0.5) * part for number, (second, _) in enumerate(plan)), f'the events are at {plan}')
        wanted(plan == day.planned(hours, 7) != day.planned(hours, 8), 'the seed isn\'t what the plan is drawn from')
    marks = [record.Mark('a', 10, 500), record.Mark('a', 20, 510), record.Mark('a', 30, 90_000)]
    wanted(record.pieces(marks, 40) == [(0, 10, 500), (10, 20, 500), (30, 40, 90_000)], f'the pieces are {record.pieces(marks, 40)}')
    found = of_lines(['100 5 200 6 7 8 2 1 9 3 1000', '100 5 200 6 7 8 2 1 9 3 2000000', '100 5'], 40)
    wanted(found == [Sample(140, 5, 240, 6, 7, 8, 2, 1, 9, 3, 1000)], f'the samples of three lines are {found}')


def main():
    # A master that is right, and a follower that shows 300 microseconds too much; its interval is from 400 below that to 100 above.
    leads = [sample(moment, 0, LEADS) for moment in moments()]
    follows = [sample(moment, 300, 1, -400, 100, own=7000) for moment in moments(123_456)]
    seen = made(leads, follows)
    wanted(three(seen.apart('shown')) == '300, 300, 300', f'shown values are {three(seen.apart("shown"))} apart')
    # (the middle of the interval is 150 microseconds below what is shown)
    wanted(three(seen.apart('middle')) == '150, 150, 150', f'middles are {three(seen.apart("middle"))} apart')
    wanted(three(seen.apart('own')) == '7000, 7000, 7000', f'own clocks are {three(seen.apart("own"))} apart')
    judged, outside = seen.missed()
    # (the first and last sample have no sample of the master's on one side)
    wanted(outside == 0 and len(follows) - 2 <= judged <= len(follows), f'of {judged} readings {outside} miss the master')
    # An interval that doesn't reach down to the master's clock misses it each time.
    judged, outside = made(leads, [sample(moment, 300, 1, -299, 100) for moment in moments(123_456)]).missed()
    wanted(outside == judged > 100, f'of {judged} readings that miss {outside} do')
    # A master that is corrected by 5 ms in the middle: readings of the next 20 s aren't judged, the later ones miss it.
    half = LASTS // 2
    stepped = [sample(moment, 5000 * (moment >= half), LEADS) for moment in moments()]
    judged, outside = made(stepped, follows).missed()
    late = sum(moment > half + 20_000_000 for moment in moments(123_456)) - 1
    wanted(late - 2 <= outside <= late + 1 and judged <= len(follows) - 39, 
           f'of {judged} readings {outside} miss a master that was corrected, and {late} are late')
    # An own clock that is stepped back by 120 ms, beside one that is slewed by 8 percent all the time; and the distances of the first half alone.
    seen = made([sample(moment, 0, 1, own=moment * 8 // 100) for moment in moments()],
                [sample(moment, 0, 1, own=-120_000 * (moment >= half)) for moment in moments()])
    seen.machines = [SimpleNamespace(name='m1'), SimpleNamespace(name='m2')]
    wanted(seen.stepped() == 'm2 by -120 ms', f'stepped were {seen.stepped()}')
    seen = made(leads, [sample(moment, 300 + 700 * (moment >= half), 1) for moment in moments()])
    first = three(seen.apart('shown', 0, half - PACE))
    wanted(first == '300, 300, 300', f'in the first half shown values are {first} apart')
    falls(leads, half)
    day_and_record()
    # Each command for systemd on the pages has a step, and no step is without a page; the guide has the blocks that the lab runs.
    wanted(printed.not_tried() == ([], []), f'commands without a step, and steps without a command: {printed.not_tried()}')
    wanted(len(pages.blocks(paths.SECTION)) == 3 and len(pages.blocks(printed.NEAR)) == 3, 'the guide has other blocks than the lab runs')
    # A clock isn't told where samples are far apart.
    clock = Clock([(0, 0), (1000, 1000), (9_000_000, 9_000_000)])
    wanted((clock.read(500), clock.read(5_000_000), clock.read(-1), clock.read(10_000_000)) == (500, None, None, None), 'a clock is told where it isn\'t known')
    wanted(three(list(range(1, 101))) == '51, 100, 100' and three([]) == 'none', f'of 1 to 100 the three are {three(list(range(1, 101)))}')


main()
