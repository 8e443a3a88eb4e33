"""What the supervisor says on standard error: lines with their priority, if the journal takes them."""
import os

from tsp_texts import tool

# The priorities of sd-daemon(3).
FAULT, WARNING, NOTICE, INFO, DEBUG = 3, 4, 5, 6, 7
# A repeated line is said so often; after that it is counted for an hour, then for two, and so on up to so many seconds.
FEW, HOUR, LONGEST = 3, 3600, 8 * 3600


def is_journal(number):
    """Whether the journal takes a stream, as systemd says by JOURNAL_STREAM, or TSP_LOG does."""
    asked = os.environ.get('TSP_LOG', '')
    if asked:
        return asked == 'journal'
    try:
        found = os.fstat(number)
    except OSError:
        return False
    return os.environ.get('JOURNAL_STREAM') == f'{found.st_dev}:{found.st_ino}'


def mark(level):
    """The mark of a priority at the beginning of a line."""
    return b'<%d>' % level


def marked(octets, level=DEBUG):
    """Whole lines, each with the mark of its priority."""
    return b''.join(mark(level) + line for line in octets.splitlines(keepends=True))


class Log:
    """Lines for an outlet, from a tool of this name."""

    def __init__(self, outlet, name):
        self.outlet, self.name, self.is_marked = outlet, name, is_journal(outlet.number)

    def say(self, text, level=NOTICE):
        """A line, for which nobody waits."""
        line = f'{self.name}: {tool.one_line(text)}\n'.encode('utf-8', 'replace')
        self.outlet.put(mark(level) + line if self.is_marked else line)


class Repeated:
    """A line that was said, and how often it came again since then."""

    def __init__(self):
        self.said, self.count, self.period, self.last = 0, 0, HOUR, ''


class Seldom:
    """Says each kind of line a few times, and then how often it came, at the end of a period that grows."""

    def __init__(self, loop, say):
        self.loop, self.say_on, self.kinds = loop, say, {}

    def say(self, kind, text, level):
        """A line of a kind."""
        found = self.kinds.setdefault(kind, Repeated())
        found.last = text
        if found.said < FEW:
            found.said += 1
            self.say_on(text, level)
        else:
            found.count += 1
        if ('seldom', kind) not in self.loop.times:
            self.loop.after(('seldom', kind), found.period, lambda: self.over(kind, level))

    def over(self, kind, level):
        """A period is over. A kind that came no more is a new one."""
        found = self.kinds[kind]
        if not found.count:
            del self.kinds[kind]
            return
        self.say_on(f'{found.last}; that {found.count} times more in {found.period // HOUR} h', level)
        found.count, found.period = 0, min(2 * found.period, LONGEST)
        self.loop.after(('seldom', kind), found.period, lambda: self.over(kind, level))
