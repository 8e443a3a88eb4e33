"""Compares what `tsp-lint --premises` says of schedules with the premises' definitions, written here anew and by force: a premise
is asked of each beginning of the schedule, whose run is made for it, and the last line of the first beginning without it breaks it.

usage: premises_random.py PROGRAM SEED COUNT [SCHEDULE..]

Random schedules are those of tsp-sim, changed at random. Where schedules are named, these are looked at, and nothing at random.
"""
import random
import subprocess
import sys

NAMES = ['Sealed', 'Prompt', 'Apart', 'Short', 'NamesDiffer']


def run(words, text):
    done = subprocess.run(words, input='\n'.join(text) + '\n', stdout=subprocess.PIPE, stderr=subprocess.PIPE, check=False, encoding='latin-1')
    return done.returncode, done.stdout.splitlines()


def is_event(line):
    return line.startswith('at ')


class Force:
    """A schedule of which each beginning is run, by how many lines it has."""

    def __init__(self, program, text):
        self.program, self.text, self.known = program, text, {}

    def posted_at(self, length):
        """The true times of the posts of the run of a beginning, in their order."""
        if length not in self.known:
            text = self.text[:length]
            status, trace = run([self.program, 'replay'], text + ['end'])
            if status:
                sys.exit(f'a beginning is refused: {trace[-1:]}')
            times = [int(line.split()[1]) for line in text if is_event(line)]
            self.known[length] = [times[int(line.split()[0]) - 1] for line in trace if line.split()[4] == 'post']
        return self.known[length]

    def names(self, length):
        return [line.split()[1] for line in self.text[:length] if line.startswith('node ')]

    def keeps(self, length):
        """Which premises a beginning keeps, by their definitions."""
        lines = [(place, line.split()) for place, line in enumerate(self.text[:length]) if is_event(line)]
        words = [event[4] for _, event in lines if event[2] == 'boot']
        return [all(event[2] != 'bytes' or event[4] == '-' for _, event in lines),
                all(int(event[1]) <= self.posted_at(place)[int(event[3])] + 30000000 for place, event in lines if event[2] == 'take'),
                all(one != other for place, one in enumerate(words) for other in words[:place]),
                len(self.posted_at(length)) < 32768, self.names_differ(length)]

    def names_differ(self, length):
        names = self.names(length)
        return all(one != other for place, one in enumerate(names) for other in names[:place])

    def first_breaks(self):
        """For each premise the line, from 1, that is last in the first beginning that breaks it, or None."""
        found = [None] * len(NAMES)
        for length in range(3, len(self.text)):
            if is_event(self.text[length - 1]):
                kept = self.keeps(length)
            else:
                # (of a beginning within the header only names can be asked)
                kept = [True] * 4 + [self.names_differ(length)]
            found = [length if line is None and not holds else line for line, holds in zip(found, kept)]
        return found


def said(program, text):
    """What tsp-lint says: its status, and for each premise the line that breaks it, or None."""
    status, lines = run(['tools/tsp-lint', '--program', program, '--premises'], text)
    if status not in (0, 5):
        return status, lines
    if [line.split()[0] for line in lines] != NAMES:
        sys.exit(f'tsp-lint says {lines}')
    return status, [None if line.endswith(' holds') else int(line.split(':')[2]) for line in lines]


def changed(text, draw):
    """A schedule in which something is changed that a premise may speak of."""
    events = [place for place, line in enumerate(text) if is_event(line)]
    nodes = [place for place, line in enumerate(text) if line.startswith('node ')]
    takes = [place for place in events if text[place].split()[2] == 'take']
    kind = draw.choice((0, 0, 1, 2, 3, 4))
    if kind == 0:
        place, later = draw.choice(takes or events), draw.choice((1000000, 29999000, 30000000, 31000000, 60000000))
        return text[:place] + [' '.join([line.split()[0], str(int(line.split()[1]) + later)] + line.split()[2:]) if is_event(line) else line for line in text[place:]]
    if kind == 1:
        one, other = (draw.choice([place for place in events if text[place].split()[2] == 'boot']) for _ in range(2))
        return text[:one] + [' '.join(text[one].split()[:4] + text[other].split()[4:])] + text[one + 1:]
    if kind == 2:
        place = draw.choice(events[len(nodes):])
        node = draw.randrange(len(nodes))
        return text[:place] + [f'at {text[place].split()[1]} bytes {node} {draw.choice(["-", str(draw.randrange(len(nodes)))])} 00'] + text[place:]
    if kind == 3:
        one, other = draw.choice(nodes), draw.choice(nodes)
        return text[:one] + [' '.join(['node', text[other].split()[1]] + text[one].split()[2:])] + text[one + 1:]
    place = draw.choice(takes or events)
    return text[:place] + [text[place]] + text[place:]


def random_text(program, draw):
    """A small schedule of tsp-sim, changed a few times."""
    words = ['tools/tsp-sim', '--program', program, '--nodes', str(draw.randint(2, 4)), '--seed', str(draw.getrandbits(30)),
             '--until', str(draw.choice((82, 100, 390))), '--loss', str(draw.choice((0, 0.2)))]
    text = run(words, [])[1]
    for _ in range(draw.choice((0, 1, 1, 2, 3))):
        text = changed(text, draw)
    return text


def many_posts():
    """A schedule of 64 nodes that search for a master until more than enough is posted."""
    yield from ['tsp-schedule 1', 'drift 0']
    yield from (f'node n{node} 0 0 s' for node in range(64))
    yield from (f'at 0 boot {node} {node}' for node in range(64))
    for search in range(9):
        # (a node waits a microsecond more for each of its word)
        begin = 80000000 + 305000064 * search
        for at in (begin, begin + 5000000):
            yield from (f'at {at} turn {node}' for node in range(64))
    yield 'end'


def compare(program, text, name):
    """Compares both on a schedule; whether it was accepted, and what breaks."""
    status, lines = said(program, text)
    if status not in (0, 5):
        return None
    wanted = Force(program, text).first_breaks()
    if lines != wanted or status != (5 if any(wanted) else 0):
        sys.exit(f'{name}: tsp-lint says {lines} with status {status}, and by force it is {wanted}:\n' + '\n'.join(text))
    return wanted


def main():
    program, draw, count = sys.argv[1], random.Random(int(sys.argv[2])), int(sys.argv[3])
    broken, kept = [0] * len(NAMES), [0] * len(NAMES)
    named = []
    for path in sys.argv[4:]:
        with open(path, encoding='latin-1') as file:
            named.append((file.read().splitlines(), path))
    accepted = 0
    for text, name in named or ((random_text(program, draw), 'a random schedule') for _ in range(count)):
        found = compare(program, text, name)
        accepted += found is not None
        for place, line in enumerate(found or ()):
            broken[place] += line is not None
            kept[place] += line is None
    print(accepted, *broken)
    if named:
        return
    if accepted * 2 < count or any(number * 20 < accepted for number in broken[:3] + broken[4:] + kept):
        sys.exit(f'{accepted} of {count} schedules were accepted, of which {broken} broke a premise')
    # Of a run with many posts by its own count: 63 at each search of a node, so number 32,768 is one of the 521st search.
    text = list(many_posts())
    status, lines = said(program, text)
    search = -(-32768 // 63)
    if (status, lines) != (5, [None, None, None, 2 + 64 + 64 + (search - 1) // 64 * 128 + (search - 1) % 64 + 1, None]):
        sys.exit(f'of many posts tsp-lint says {lines} with status {status}')


main()
