#!/usr/bin/env python3
"""Tries what the supervisor's log says of a daemon: `log.py lines`, each kind of line by a trace that has it; `log.py day TRACE NODE NAME..`, how many lines a
day of a node makes, whose trace `tsp replay` wrote; `log.py files FOLDER`, the files of a trace."""
import gzip
import os
import re
import sys
import threading
import time

HERE = os.path.dirname(os.path.realpath(__file__))
TOOLS = os.path.dirname(HERE)
sys.dont_write_bytecode = True
sys.path.insert(0, TOOLS)
from tsp_daemon import kept  # noqa: E402
from tsp_supervise import log, news, output, trail  # noqa: E402
from tsp_supervise.loop import Loop  # noqa: E402

# When all begins, by the wall clock.
BEGUN = 1_800_000_000
# How many lines there may be of the first day, in which all is well.
MOST_A_DAY = 14


def wanted(is_so, text):
    """Ends where something isn't so."""
    if not is_so:
        sys.exit(f'log: {text}')


class Time:
    """A loop whose time is that of a trace."""

    def __init__(self):
        self.seconds, self.times = 0, {}

    def now(self):
        return self.seconds

    def after(self, name, seconds, call):
        self.times[name] = self.seconds + seconds, call

    def cancel(self, *names):
        for name in names:
            self.times.pop(name, None)

    def go_on(self, seconds):
        """Time passes until then."""
        while self.times and min(due for due, _ in self.times.values()) <= seconds:
            name = min(self.times, key=lambda each: self.times[each][0])
            self.seconds, call = self.times.pop(name)
            call()
        self.seconds = seconds


class Heard:
    """A daemon's news: what was said, with its priority."""

    def __init__(self, *names):
        self.time, self.said = Time(), []
        self.news = news.News(self.time, names, lambda text, level: self.said.append((level, text)), lambda: BEGUN + self.time.seconds)

    def act(self, seconds, text, port=0):
        """A line of its trace."""
        self.time.go_on(seconds)
        self.news.hear(f'1 0 {port} {int(seconds * 1e6)} {text}\n'.encode('ascii'))

    def take(self):
        """What was said since the last time."""
        said, self.said = self.said, []
        return said

    def says(self, *lines):
        """Wants these lines, and no others."""
        found = self.take()
        wanted(found == list(lines), f'it says {found}, and {list(lines)} is wanted')


def one_of_three():
    """A host that starts, follows, loses its master, stands, is refused, and leads."""
    host = Heard('alpha', 'beta', 'gamma')
    host.news.started('192.0.2.11:525', 'd71524948374e2b1')
    host.says((5, 'alpha runs and answers at 192.0.2.11:525, by a hosts file with the digest d71524948374e2b1; after 80 s it asks who leads'))
    host.act(80, 'become loose')
    host.says((6, 'asks who leads'))
    host.act(90, 'become follow 1')
    host.says((5, 'follows beta'))
    host.act(90.5, 'correct 1234567 step 1800000090500000')
    host.says((5, 'the clock was set, by +1.235 s, to 2027-01-15 08:01:30.500 UTC'))
    host.act(330, 'correct -999 slew 1800000330000000')
    host.says()
    host.act(570, 'correct -1001 slew 1800000570000000')
    host.says((6, 'corrected by -1.001 ms; how often and how far more is said every 6 h'))
    host.act(810, 'correct 12000 slew 1800000810000000')
    host.says()
    host.time.go_on(6 * 3600)
    host.says((6, 'follows beta since 2027-01-15 08:01:30 UTC; 3 corrections since 2027-01-15 08:00:00 UTC, by 12.000 ms at most'))
    for _ in range(3):
        host.news.master_silent('beta')
    host.says((4, 'lost beta, which this host follows: it doesn\'t answer, or leads no more'))
    host.time.go_on(6 * 3600 + 75)
    host.news.master_answers('beta')
    host.says((5, 'beta answers again, after 1:15'))
    host.act(21700, 'become candidate')
    host.says((6, 'stands for election; it followed beta for 6:00:10, since 2027-01-15 08:01:30 UTC'))
    host.act(21701, 'took 2 refuse 5 gamma')
    host.act(21701, 'become loose')
    host.says((6, 'gamma refuses its election'), (6, 'wasn\'t elected'))
    host.act(22100, 'become candidate')
    host.act(22105, 'become master')
    host.says((6, 'stands for election; it followed beta for 6:00:10, since 2027-01-15 08:01:30 UTC'),
              (5, 'leads; it followed beta for 6:00:10, since 2027-01-15 08:01:30 UTC'))
    leading(host)


def leading(host):
    """The same host leads: others report, go silent, and lead too."""
    host.act(22106, 'join 1')
    host.act(22107, 'join 2')
    host.time.go_on(22120)
    host.says((6, 'leads beta, gamma: 2 hosts now'))
    host.act(22345, 'close 1 0 0 0')
    host.says((4, 'no clock of 2 hosts is within 20 ms of another one, so none was averaged'))
    host.act(22585, 'close 2 0 3 1')
    host.act(22590, 'leave 2')
    host.act(22591, 'gave 2')
    host.time.go_on(22601)
    host.says((6, 'gamma doesn\'t acknowledge'), (4, 'lost gamma, which didn\'t answer a whole round: 1 host now'))
    host.act(22700, 'late round')
    host.act(22701, 'abandon')
    host.act(22702, 'rival 2')
    host.says((4, 'was more than a second late (round): this machine is busy, or stood still'), (4, 'gave up a round, in which no clock was corrected'),
              (4, 'gamma leads too; one of the two gives way within minutes'))
    host.act(22800, 'quit 2')
    host.act(22800, 'become follow 2')
    host.says((5, 'gamma leads, and tells this host to give way'), (5, 'follows gamma; it led for 11:35, since 2027-01-15 14:08:25 UTC'))
    host.act(22900, 'become loose', 1)
    host.act(22950, 'become follow 1', 1)
    host.act(23000, 'become loose', 1)
    host.says((6, 'port 1: asks who leads'), (5, 'port 1: follows beta'),
              (4, 'port 1: has no master; it followed beta for 0:50, since 2027-01-15 14:22:30 UTC'))


def dates():
    """A date at a host that leads has its hosts leave and report again: none is lost. A round that sets the clock loses those that were silent."""
    host = Heard('alpha', 'beta', 'gamma')
    host.act(400, 'become loose')
    host.act(405, 'become candidate')
    host.act(410, 'become master')
    host.act(411, 'join 1')
    host.act(411.1, 'join 2')
    host.time.go_on(430)
    host.take()
    for line in ('took - setdate 7 1800000500000000 x', 'correct 60000000 step 1800000500000000', 'leave 1', 'leave 2', 'post 1 9 masterup 1 alpha'):
        host.act(440, line)
    host.act(440.1, 'join 1')
    host.act(440.2, 'join 2')
    host.time.go_on(460)
    host.says((5, 'the clock was set, by +60.000 s, to 2027-01-15 08:08:20.000 UTC'), (6, 'a date was set; its hosts report again'),
              (6, 'leads beta, gamma: 2 hosts now'))
    for line in ('close 2 0 0 1', 'correct -30000000 step 1800000470000000', 'leave 2'):
        host.act(650, line)
    # (how many are left is so when it goes, also if it is soon back)
    host.act(655, 'join 2')
    host.time.go_on(670)
    host.says((5, 'the clock was set, by -30.000 s, to 2027-01-15 08:07:50.000 UTC'), (4, 'lost gamma, which didn\'t answer a whole round: 1 host now'),
              (6, 'leads gamma: 2 hosts now'))


def other_files():
    """Hosts that have other hosts files, by what they send. Of a stranger who goes on it is said seldom."""
    host = Heard('alpha', 'beta')
    host.act(100, 'took 1 masterup 7 beta')
    host.act(101, 'took - msite 7 timedc')
    host.says()
    host.act(102, 'took 1 slaveup 7 gamma')
    host.says((4, 'the host that this hosts file calls beta calls itself gamma; the hosts files may differ: `tsp-launch --lint` prints a digest'))
    text = 'a host that calls itself delta sends what peers send, and its address isn\'t in this hosts file; the hosts files may differ: ' \
        '`tsp-launch --lint` prints a digest'
    for second in range(24 * 3600):
        host.act(200 + second, 'took - election 9 delta')
    found = [each for each in host.take() if 'delta' in each[1]]
    wanted(found[:3] == [(4, text)] * 3, f'of a stranger it says {found[:3]}')
    wanted(found[3] == (4, f'{text}; that 3597 times more in 1 h'), f'of a stranger it says then {found[3]}')
    wanted(4 <= len(found) <= 9, f'of a stranger it says {len(found)} lines in a day')


def marks():
    """The priority stands before each line if the journal takes it, as JOURNAL_STREAM says, or TSP_LOG."""
    end, into = os.pipe()
    found = os.fstat(into)
    for stream, asked, is_so in (('', '', False), (f'{found.st_dev}:{found.st_ino}', '', True), (f'{found.st_dev}:{found.st_ino + 1}', '', False),
                                 ('', 'journal', True), (f'{found.st_dev}:{found.st_ino}', 'plain', False)):
        os.environ.update(JOURNAL_STREAM=stream, TSP_LOG=asked)
        wanted(log.is_journal(into) == is_so, f'of JOURNAL_STREAM={stream} and TSP_LOG={asked} it is {not is_so} that the journal reads')
    os.close(into)
    os.close(end)
    wanted(log.marked(b'1 0 0 1 trace on\n2 0 0 2 join 1\n') == b'<7>1 0 0 1 trace on\n<7>2 0 0 2 join 1\n', 'a trace has other marks')


def day(path, node, names):
    """Counts what is said of a day of a node, and prints it."""
    host, own = Heard(*names), re.compile(rf'^[0-9]+ {node} ([0-3]) ([0-9]+) (.*)$')
    host.news.started('192.0.2.11:525', None)
    with open(path, encoding='ascii') as file:
        for line in file:
            found = own.match(line)
            if found:
                host.act(int(found[2]) / 1e6, found[3], int(found[1]))
    said = host.take()
    print('\n'.join(f'<{level}>{text}' for level, text in said))
    wanted(3 <= len(said) <= MOST_A_DAY, f'a day makes {len(said)} lines')


def steps(loop, seconds):
    """Lets a loop go on for so long."""
    end = time.monotonic() + seconds
    while time.monotonic() < end:
        loop.after('look', 0.01, lambda: None)
        loop.step()


def settle():
    """Waits until nobody compresses any more."""
    end = time.monotonic() + 20
    while any(thread.name == 'tidy' for thread in threading.enumerate()):
        wanted(time.monotonic() < end, 'files are tidied for 20 s')
        time.sleep(0.02)


def files(folder):
    """Lines go to files that are put aside and compressed: none is lost, none stands twice, and all together have no more than they may."""
    path, keep = os.path.join(folder, 'trace'), 4 * trail.MIB
    loop, said = Loop(), []
    with open(path, 'wb') as file:
        file.write(b'1 0 0 1 trace on\n2 0 0 2 jo')
    trace = trail.Trail(path, loop, said.append, keep)
    count, line, most = 0, b'%d 0 0 %d post 3 1 reply 7 1 2 1795803775398554\n', 0
    for _ in range(2000):
        trace.put(b''.join(line % (count + each, count + each) for each in range(100)))
        count += 100
        if count % 20_000 == 0:
            trace.flush(5)
            settle()
            most = max(most, sum(os.stat(os.path.join(folder, name)).st_size for name in os.listdir(folder)))
    trace.flush(5)
    settle()
    lines = list(kept.of_files(path, None))
    told = [int(text.split()[0]) for text in lines if text[:1].isdigit()]
    wanted(lines[1] == b'2 0 0 2 jo\n', f'a line that was cut became {lines[1]}')
    wanted(told[2:] == list(range(count)), f'{len(told) - 2} of {count} lines are in the files, in another order')
    wanted(not said, f'it says {said}')
    wanted(0 < most <= keep, f'the files have {most} octets together')
    names = sorted(os.listdir(folder))
    wanted(len(names) > 3 and all(name == 'trace' or name.endswith('.gz') for name in names), f'the files are {names}')
    grow(trace, folder, keep)
    # (a supervisor that starts goes on where the last one ended)
    trail.Trail(path, loop, said.append, keep).flush(5)
    settle()
    wanted(not said and b'... it is ' in list(kept.of_files(path, None))[-1], f'a second supervisor says {said}')
    full(folder, loop)


def grow(trace, folder, keep):
    """Lines that can't be compressed come on and on: the oldest files go."""
    for number in range(60):
        trace.put(os.urandom(64 * 1024).hex().encode('ascii') + b'\n')
        if number % 5 == 0:
            trace.flush(5)
            settle()
    trace.flush(5)
    settle()
    total = sum(os.stat(os.path.join(folder, name)).st_size for name in os.listdir(folder))
    wanted(keep // 4 < total <= keep, f'the files have {total} octets together, and may have {keep}')
    wanted(not os.path.exists(os.path.join(folder, 'trace.000001.gz')), 'the oldest file is still there')


def full(folder, loop):
    """The folder isn't there, or the disk is full: the supervisor goes on, says so, counts what is lost, and writes as soon as it can."""
    trail.AGAIN = output.AGAIN = 0.05
    said, path = [], os.path.join(folder, 'none', 'trace')
    trace = trail.Trail(path, loop, said.append, trail.MIB)
    trace.put(b'1 0 0 1 trace on\n')
    wanted(said == [f'{path}: No such file or directory; the trace is kept once it can be written'], f'without a folder it says {said}')
    os.mkdir(os.path.dirname(path))
    steps(loop, 0.3)
    trace.put(b'2 0 0 2 trace on\n')
    trace.flush(5)
    with open(path, encoding='ascii') as file:
        found = file.read()
    wanted(re.fullmatch(r'\.\.\. 2 lines dropped\n2 0 0 2 trace on\n', found), f'once there is a folder, the file has {found!r}')


def since(folder):
    """The lines from a start before a time on."""
    path = os.path.join(folder, 'since')
    pieces = [f'... it is 2026-11-{day:02}T0{hour}:00:00Z\n' + (f'tsp-launch: in the trace peer 0 is a{day}\n' if hour == 1 else '') + f'{day}{hour} 0 0 1 trace on\n'
              for day in (27, 28, 29) for hour in (0, 1, 2)]
    for number, text in enumerate((''.join(pieces[:3]), ''.join(pieces[3:5])), 1):
        with gzip.open(f'{path}.{number:06}.gz', 'wb') as file:
            file.write(text.encode('ascii'))
    with open(path, 'w', encoding='ascii') as file:
        file.write(''.join(pieces[5:]))
    os.environ['TZ'] = 'UTC'
    time.tzset()
    for asked, first in (('2026-11-26', b'... it is 2026-11-27T00'), ('2026-11-28', b'tsp-launch: in the trace peer 0 is a27'),
                         ('2026-11-28T02:30', b'tsp-launch: in the trace peer 0 is a28'), ('2026-12-24', b'tsp-launch: in the trace peer 0 is a29')):
        found = list(kept.of_files(path, kept.moment(asked)))
        wanted(found[0].startswith(first) and found[-1] == b'292 0 0 1 trace on\n', f'since {asked} there is {found[:2]}')


def main():
    what, *rest = sys.argv[1:]
    if what == 'lines':
        one_of_three()
        dates()
        other_files()
        marks()
    elif what == 'day':
        day(rest[0], int(rest[1]), rest[2:])
    else:
        files(rest[0])
        since(rest[0])


main()
