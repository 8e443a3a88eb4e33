"""What a daemon's trace says of the premises of progress, and of its laws (docs/PROGRESS.md): how late the daemon looked at its alarms and sends, how long each
thing took that the laws bound, and how soon its questions were answered. All times are ticks, which are microseconds of the daemon's counter."""
import heapq
from collections import namedtuple

MILLION = 10**6
SLACK, RETRY, QUIET = MILLION, MILLION, 80 * MILLION
# What ends in time: how one says it of several, and how long after its begin it ends by the law, if no look is late.
LAWS = {
    'quiet': ('quiet times', 80 * MILLION), 'search': ('searches for a master', 5 * MILLION), 'elect': ('waits for an election, or for word of a master', 600 * MILLION),
    'window': ('candidatures', 5 * MILLION), 'probe': ('waits for the next questions of a round', MILLION), 'close': ('rounds', 8 * MILLION),
    'resolve': ('resolutions', 5 * MILLION), 'round': ('times from round to round', 240 * MILLION), 'send': ('numbered sends', 3 * MILLION),
}
NUMBERED = ('adjtime', 'settime', 'election', 'conflict', 'quit', 'setdatereq')
# A round that is given up has no more of these.
OF_ROUND = ('probe', 'close')
# An answer isn't waited for any longer.
LONG = 5 * MILLION
# A daemon keeps no more questions in mind that nobody answered.
MOST_OPEN = 10_000


class Look(namedtuple('Look', 'late what turn tick where')):
    """A look: how late it came, for what, in which turn, at which tick, and of which start."""
    __slots__ = ()

    def text(self):
        """How it is named to a reader."""
        what = 'a numbered send' if self.what == 'send' else f'the alarm {self.what}'
        return f'{seconds(self.late)} late: for {what}{self.where and " of " + self.where} in turn {self.turn} at {seconds(self.tick)}'


class Armed(namedtuple('Armed', 'since due posts')):
    """An alarm that is armed, or a send that is open: since when, when it is due, and how often it was posted."""
    __slots__ = ()


def seconds(micros):
    """Microseconds as seconds."""
    return f'{micros / MILLION:.6f} s'


class Counted:
    """How often something was, and how long it took at most."""

    def __init__(self):
        self.count, self.most = 0, 0

    def note(self, micros, count=1):
        """It took so long."""
        self.count, self.most = self.count + count, max(self.most, micros)


class Kept:
    """What is kept of looks: the latest one; how many came more than SLACK late, the last of these, and the latest look since then. And what ended,
    and what was answered or not. `where` says of which start they are, or is empty."""

    def __init__(self):
        self.worst = self.broken = self.since = None
        self.breaks, self.ended, self.answers, self.unanswered = 0, {}, Counted(), 0

    def look(self, look):
        """A look that came late."""
        self.worst = max(self.worst or look, look)
        if look.late > SLACK:
            self.breaks, self.broken, self.since = self.breaks + 1, look, None
        else:
            self.since = max(self.since or look, look)

    def end(self, what, micros):
        """Something ended, so long after it began."""
        self.ended.setdefault(what, Counted()).note(micros)

    def late(self):
        """How late the latest look came."""
        return self.worst.late if self.worst else 0

    def add(self, other):
        """What is kept of another start."""
        self.worst = max(filter(None, (self.worst, other.worst)), default=None)
        for what, counted in other.ended.items():
            self.ended.setdefault(what, Counted()).note(counted.most, counted.count)
        self.answers.note(other.answers.most, other.answers.count)
        self.unanswered += other.unanswered

    def attended(self):
        """A line that says how late looks were."""
        yield f'looks at alarms and sends came at most {self.worst.text()}' if self.worst else 'no look at an alarm or a send came late'

    def broke(self):
        """A line that says which looks were so late that what is proved doesn't hold, and how late they were since then, if there were any."""
        if self.breaks:
            since = seconds(self.since.late if self.since else 0)
            yield f'looks more than {seconds(SLACK)} late, where what is proved for less doesn\'t hold: {self.breaks}, the last one {self.broken.text()}; ' \
                f'since then they came at most {since} late'

    def laws(self):
        """Lines that say how long things took, beside what the laws say."""
        for what, (text, bound) in LAWS.items():
            if what in self.ended:
                counted = self.ended[what]
                yield f'{text}: {counted.count}, which ended after at most {seconds(counted.most)}; by the law at most {seconds(bound + self.late())}'

    def answered(self, long=None):
        """A line that says how soon questions were answered, if there were any; beside what the law says, if it is known how long datagrams took."""
        asked = self.answers.count + self.unanswered
        law = '' if long is None else f'; by the law at most {seconds(2 * long)}'
        if asked:
            yield f'{self.answers.count} of {asked} questions and numbered sends were answered, within at most {seconds(self.answers.most)}{law}'


class Port:
    """What is armed at a port, and which sends are open there, by what they are; and whether it acts on an alarm or a datagram in this step."""

    def __init__(self):
        self.armed, self.is_acting = {}, False


class Looks:
    """One start of a daemon, act by act. `kept` is what is known of it."""

    def __init__(self, where=''):
        self.where, self.kept, self.ports, self.heap, self.overdue = where, Kept(), {}, [], []
        self.step, self.questions, self.treated = None, {}, set()

    def act(self, turn, tick, port, words):
        """An act. In a step the repeats of sends come first, then those of alarms, then those of the datagram."""
        if self.step != (turn, tick):
            self.end()
            self.begin(turn, tick)
        at = self.ports.setdefault(port, Port())
        call = getattr(self, f'on_{words[0]}', None)
        if call:
            call(tick, port, at, words)

    def begin(self, turn, tick):
        """A step begins: what was due before is looked at."""
        self.step = turn, tick
        for port in self.ports.values():
            port.is_acting = False
        while self.heap and self.heap[0][0] < tick:
            due, port, what = heapq.heappop(self.heap)
            armed = self.ports[port].armed.get(what)
            if armed and armed.due == due:
                self.overdue.append((port, what, armed))

    def end(self):
        """A step ends. What was due and wasn't treated by it tells of lines that are lost, and counts for nothing."""
        for port, what, armed in self.overdue:
            if self.ports[port].armed.get(what) is armed:
                del self.ports[port].armed[what]
            elif what in LAWS or (port, what) in self.treated:
                turn, tick = self.step
                self.kept.look(Look(tick - armed.due, self.kind(what), turn, tick, self.where))
        self.overdue, self.treated = [], set()

    @staticmethod
    def kind(what):
        """Which of the laws speaks of it: a send is known by its peer's number."""
        return what if what in LAWS else 'send'

    def put(self, port, what, armed):
        """Something is armed, or open."""
        self.ports[port].armed[what] = armed
        heapq.heappush(self.heap, (armed.due, port, what))

    def take_off(self, tick, at, what, is_given_up=False):
        """It is so no more. (a send that is due is posted again or given up, before all else; else lines are lost)"""
        armed = at.armed.pop(what, None)
        if armed and (what in LAWS or is_given_up or armed.due > tick):
            self.kept.end(self.kind(what), tick - armed.since)
            return armed
        return None

    def on_arm(self, tick, port, at, words):
        self.take_off(tick, at, words[1])
        self.put(port, words[1], Armed(tick, int(words[2]), 0))

    def on_ring(self, tick, port, at, words):
        if words[1] == 'quiet' and 'quiet' not in at.armed:
            # (it is armed at the boot, before anything is traced)
            self.put(port, 'quiet', Armed(0, QUIET, 0))
            self.overdue += [(port, 'quiet', at.armed['quiet'])] if tick > QUIET else []
        at.is_acting = True
        self.take_off(tick, at, words[1])

    on_late = on_ring

    def on_took(self, tick, _, at, words):
        at.is_acting = True
        if words[2] == 'reply':
            asked = self.questions.pop((words[1], words[4], words[5]), None)
            if asked is not None:
                self.kept.answers.note(tick - asked)

    def on_post(self, tick, port, at, words):
        """A question, or a numbered send that begins or is repeated."""
        if words[2] == '-':
            return
        if words[3] == 'request':
            self.questions[words[2], words[4], words[5]] = tick
            if len(self.questions) > MOST_OPEN:
                self.questions.pop(next(iter(self.questions)))
                self.kept.unanswered += 1
        if words[3] in NUMBERED:
            send = None if at.is_acting else at.armed.get(words[2])
            if send:
                self.treated.add((port, words[2]))
                self.put(port, words[2], Armed(send.since, send.since + (send.posts + 1) * RETRY, send.posts + 1))
            else:
                self.take_off(tick, at, words[2])
                self.put(port, words[2], Armed(tick, tick + RETRY, 1))

    def on_acked(self, tick, _, at, words):
        send = self.take_off(tick, at, words[1])
        if send and send.posts == 1:
            self.kept.answers.note(tick - send.since)

    def on_gave(self, tick, port, at, words):
        self.treated.add((port, words[1]))
        self.kept.unanswered += self.take_off(tick, at, words[1], True) is not None

    def on_become(self, tick, _, at, __):
        for what in list(at.armed):
            self.take_off(tick, at, what)

    def on_abandon(self, tick, _, at, __):
        for what in OF_ROUND:
            self.take_off(tick, at, what)

    def on_trace(self, _, __, ___, words):
        """While nothing is traced, nothing is known."""
        if words[1] == 'off':
            self.ports, self.heap, self.overdue, self.questions = {}, [], [], {}

    def finish(self):
        """The trace is over: what is known of it."""
        self.end()
        # (the last ones may still be on their way)
        self.kept.unanswered += sum(self.step[1] - asked > LONG for asked in self.questions.values())
        return self.kept
