"""How a demonstration is shown: drawn anew at each look on a terminal, or as a line for each thing that happens."""
import sys
import textwrap

import tsp_clock
from tsp_daemon.network import milliseconds, signed
from tsp_daemon.views import span

COLUMNS, HEIGHT, SCALE = 78, 19, 60
CLEAR, HOME, CLEAR_LINE, CLEAR_BELOW = '\x1b[2J', '\x1b[H', '\x1b[K', '\x1b[J'
# The ends of the scale in microseconds.
ENDS = [digit * 10 ** power for power in range(2, 8) for digit in (1, 2, 5)]
STATUS = {tsp_clock.STALE: 'starts', tsp_clock.WAITING: 'waits for an election', tsp_clock.HOLDING: 'has lost its master'}


def time_text(seconds):
    """Seconds of fast time."""
    return span(round(seconds * 1e6)).rjust(6)


def role_text(seen):
    """What a host does, by its page."""
    if seen is None:
        return '-'
    if seen.now.role == tsp_clock.LEADS:
        return 'leads'
    return f'follows {seen.now.master}' if seen.now.status == tsp_clock.SYNCHRONISED else STATUS[seen.now.status]


class Lines:
    """Writes a line for each thing that happens."""

    def __init__(self, out):
        self.out, self.written = out, 0

    def show(self, story):
        """Writes what happened since the last look."""
        for seconds, text in story.events[self.written:]:
            self.out.write(f'{time_text(seconds)}  {text}\n')
        self.written = len(story.events)
        self.out.flush()

    def end(self):
        """Nothing is left to do."""

    def sum_up(self, text):
        """Writes the last line."""
        self.out.write(f'{text}\n')


class Screen:
    """Draws the hosts, a scale on which their clocks stand, and what happened last."""

    def __init__(self, out):
        self.out = out
        out.write(CLEAR)

    def show(self, story):
        """Draws all of it."""
        self.out.write(HOME + ''.join(f'{line[:COLUMNS]}{CLEAR_LINE}\n' for line in self.lines(story)) + CLEAR_BELOW)
        self.out.flush()

    def lines(self, story):
        """The lines of the picture."""
        network = story.network
        yield f'Three hosts whose time runs {network.speed} times as fast{time_text(network.seconds()):>{COLUMNS - 46}}'
        yield ''
        yield f'{"host":6}{"":26}{"ahead of the master":>22}{"interval":>22}'
        middle = self.middle(story)
        for host in network.hosts:
            yield self.host_line(host, story.seen.get(host), middle)
        yield ''
        yield from self.scale(story, middle)
        yield ''
        for seconds, text in story.events[-(HEIGHT - 11):]:
            yield f'{time_text(seconds)}  {text}'

    @staticmethod
    def middle(story):
        """The time that others are compared with: the master's clock, or the first that runs."""
        seen = story.seen.get(story.master) or next(filter(None, story.seen.values()), None)
        return seen.target if seen else 0

    @staticmethod
    def host_line(host, seen, middle):
        """A host's line."""
        if host.process is None:
            return f'{host.name:6}killed'
        ahead = f'{signed(seen.target - middle)} ms' if seen else '-'
        has_interval = seen and seen.now.earliest is not None
        width = f'{milliseconds(seen.now.latest - seen.now.earliest)} ms' if has_interval else '-'
        return f'{host.name:6}{role_text(seen):26}{ahead:>22}{width:>22}'

    @staticmethod
    def scale(story, middle):
        """A scale on which each clock stands, as wide as it has to be."""
        ahead = {host: seen.target - middle for host, seen in story.seen.items() if seen and host.process}
        most = max(map(abs, ahead.values()), default=0)
        end = next((value for value in ENDS if value >= most), ENDS[-1])
        row = [' '] * (SCALE + 1)
        for host, value in ahead.items():
            place = round((value + end) * SCALE / (2 * end))
            row[place] = host.name[0] if row[place] == ' ' else '*'
        label = f'{end // 1000} ms' if end >= 1000 else f'{end} us'
        yield f'{"-" + label:>8} {"".join(row)} +{label}'
        yield f'{"":8} {"|".center(SCALE + 1, "-")}'

    def end(self):
        """Leaves the picture where it is."""

    def sum_up(self, text):
        """Writes the last line below it, cut between words."""
        self.out.write('\n' + textwrap.fill(text, COLUMNS) + '\n')


def for_output(is_lines):
    """What fits standard output."""
    return Lines(sys.stdout) if is_lines or not sys.stdout.isatty() else Screen(sys.stdout)
