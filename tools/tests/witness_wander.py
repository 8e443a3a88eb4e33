"""Networks whose counters wander and that restart by other clocks have a verdict, and what is changed in their traces is found and named:
`witness_wander.py PROGRAM [HOSTS HOURS RESTARTS]`, of a short time if nothing else is said."""
import glob
import os
import random
import re
import shutil
import subprocess
import sys
import tempfile

import wander
from tsp_witness import drift

WITNESS = os.path.join(os.path.dirname(os.path.dirname(os.path.realpath(__file__))), 'tsp-witness')
# How far counters wander, in parts in a million, and by how many microseconds a datagram comes too early.
DRIFT, EARLY = 50, 2000
# A turn in which a master's MASTERUP is taken and answered.
MASTERUP = rb'^([0-9]+) 0 0 ([0-9]+) (took [0-9]+ masterup .*)\n\1 0 0 \2 arm elect ([0-9]+)\n\1 0 0 \2 (post [0-9]+ [0-9]+ slaveup .*)\n(?!\1 )'
# How much is tried of each change.
TIMES = 3


def wanted(is_so, text):
    """Ends where something isn't so."""
    if not is_so:
        sys.exit(text)


def judged(folder, *options):
    """How the judge ends, what it says, and what besides."""
    traces = [f'{os.path.basename(path).partition("-")[0]}={path}' for path in sorted(glob.glob(os.path.join(folder, '*.trace')))]
    words = [sys.executable, WITNESS, '--check', '--file', os.path.join(folder, 'hosts'), '--program', sys.argv[1], *options, *traces]
    ran = subprocess.run(words, stdout=subprocess.PIPE, stderr=subprocess.PIPE, check=False)
    return ran.returncode, ran.stdout.decode().splitlines(), ran.stderr.decode().splitlines()


def acts(folder):
    """How many acts the traces have."""
    return sum(len(re.findall(rb'^[0-9]', octets(path), re.MULTILINE)) for path in glob.glob(os.path.join(folder, '*.trace')))


def octets(path):
    """A file's octets."""
    with open(path, 'rb') as file:
        return file.read()


def holds(folder, *options):
    """The traces hold, and nothing is said besides."""
    found = judged(folder, '--drift', str(DRIFT), *options)
    wanted(found == (0, [f'{acts(folder)} acts alike, holds'], []), f'{folder}: {found}')


def tells_progress(folder):
    """What is said of looks and datagrams is true of a network in which no look at an alarm was later than LATE, nor one at a send than three times that, since
    each counts from the one before; and no datagram was longer on its way than WAY has it."""
    status, said, _ = judged(folder, '--drift', str(DRIFT), '--progress')
    late = re.match(r'looks at alarms and sends came at most ([0-9.]+) s late', said[1])
    took = re.match(r'they took at most ([0-9.]+) s, and at least ([0-9.]+) s in one case', said[3])
    wanted(status == 0 and late and took, f'{folder}: {said}')
    (looks,), (most, least) = ([round(float(text) * 10**6) for text in found.groups()] for found in (late, took))
    wanted(wander.LATE // 2 <= looks <= 3 * wander.LATE and least <= wander.WAY[1] <= most, f'{folder}: {looks} us late, {least} to {most} us on their way')


class Changed:
    """A copy of some traces, of which one file is changed."""

    def __init__(self, folder, chance):
        self.folder, self.chance = f'{folder}-changed', chance
        shutil.rmtree(self.folder, ignore_errors=True)
        shutil.copytree(folder, self.folder)
        self.paths = sorted(glob.glob(os.path.join(self.folder, '*.trace')))

    def change(self, pattern, new):
        """Changes one place, and says in which file, and the place."""
        found = [(path, match) for path in self.paths for match in re.finditer(pattern, octets(path), re.MULTILINE)]
        self.chance.shuffle(found)
        for path, match in found:
            text = new(path, match)
            if text:
                whole = octets(path)
                with open(path, 'wb') as file:
                    file.write(whole[:match.start()] + text + whole[match.end():])
                return os.path.basename(path).partition('-')[0], match
        sys.exit(f'nothing is like {pattern}')


def finds_act(folder, chance):
    """A changed act is named, with what the rules say."""
    changed = Changed(folder, chance)
    name, match = changed.change(rb'^([0-9]+) 0 0 ([0-9]+) arm elect ([0-9]+)$', lambda _, found: found[0] + b'1')
    status, said, besides = judged(changed.folder, '--drift', str(DRIFT))
    number, tick, due = (part.decode() for part in match.groups())
    line = f', turn {number}, tick {tick}: it did "arm elect {due}1", and by the rules it is "arm elect {due}"'
    wanted(status == 1 and 'acts alike, and then one that differs' in said[0] and said[1].startswith(name) and said[1].endswith(line),
           f'{match[0]}: {said} {besides}')


def finds_early(folder, chance):
    """A datagram that comes before it was posted is named."""
    def earlier(path, found):
        """The same turn, earlier than what it took was posted, or None where the one before it was that late."""
        before = re.findall(rb'^[0-9]+ 0 0 ([0-9]+) ', octets(path)[:found.start()], re.MULTILINE)
        by = wander.WAY[1] + EARLY
        number, tick, took, due, post = found.groups()
        moved = b''.join(b'%s 0 0 %d %s\n' % (number, int(tick) - by, act) for act in (took, b'arm elect %d' % (int(due) - by), post))
        return moved if int(before[-1]) < int(tick) - by else None
    changed = Changed(folder, chance)
    name, match = changed.change(MASTERUP, earlier)
    status, said, besides = judged(changed.folder, '--drift', str(DRIFT))
    named = [line for line in besides if f'in turn {match[1].decode()}, which by its trace posted that to it at another time alone' in line]
    wanted(status == 1 and said[0].endswith('acts alike, holds') and len(besides) == 1 and len(named) == 1 and f' {name} ' in named[0].replace(' (', '  ('),
           f'{name} {match[0]}: {said} {besides}')


def finds_counter(folder, plan):
    """A counter that goes too far is named."""
    wander.run(sys.argv[1], folder, plan._replace(beyond=1, restarts=0))
    status, said, besides = judged(folder, '--drift', str(DRIFT))
    wanted(status == 1 and said[0] == f'{acts(folder)} acts alike, but no counters within a drift of {DRIFT} fit what was taken when' and not besides
           and said[1].startswith('with any other counter of h01 all fits: its counter is beyond the drift, or its ticks were changed'), f'{said} {besides}')


def keeps_law(chance):
    """A line of the slope that is asked for, at whole times, keeps the law of a counter, for any two of them."""
    for most in (0, 1, 50, 100, 1000):
        for _ in range(40):
            place, tick, told = 0, 0, []
            for _ in range(60):
                told.append((tick, (place + drift.PARTS // 2) // drift.PARTS))
                passed = chance.choice((1, 2, 700, 5000, 10_001, 240_000_000)) * chance.randint(1, 3)
                bound = chance.choice((drift.most_of, drift.least_of))(passed, drift.slope(most))
                tick, place = tick + passed, place + bound
            for number, (first, begin) in enumerate(told):
                for last, end in told[number + 1:]:
                    off = abs((last - first) - (end - begin))
                    wanted(off <= -(-most * (end - begin) // 10**6), f'{first} to {last} in {begin} to {end} at {most}')


def main():
    hosts, hours, restarts = map(int, sys.argv[2:5]) if len(sys.argv) > 2 else (4, 2, 5)
    chance, plan = random.Random(7), wander.Plan(hosts, hours * 3600, DRIFT, 7, restarts)
    keeps_law(chance)
    with tempfile.TemporaryDirectory() as folder:
        good = os.path.join(folder, 'good')
        wander.run(sys.argv[1], good, plan)
        wanted(any(b'lines of supervisors left out' in octets(path) for path in glob.glob(f'{good}/*.trace')), 'no question is left out')
        holds(good)
        tells_progress(good)
        for _ in range(TIMES):
            finds_act(good, chance)
            finds_early(good, chance)
        finds_counter(os.path.join(folder, 'beyond'), plan)


main()
