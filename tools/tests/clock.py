#!/usr/bin/env python3
"""Tries the page of the network's time: `clock.py PROGRAM READER FOLDER COUNT SEED`, where READER is clock_reader.c, built.

COUNT is how many moments are compared, and how often a page is read that is being written.
"""
import errno
import os
import random
import signal
import struct
import subprocess
import sys
import time

HERE = os.path.dirname(os.path.realpath(__file__))
TOOLS = os.path.dirname(HERE)
sys.dont_write_bytecode = True
sys.path[:0] = TOOLS, HERE
import tsp_clock  # noqa: E402
from tsp_clock import DAEMON_AT, DAEMON_FIELDS, LOOK_AT, LOOK_FIELDS, SEQUENCE, SIZE, Daemon, Look, Page  # noqa: E402
from tsp_daemon import trace  # noqa: E402
from tsp_supervise import page as pages  # noqa: E402
from tsp_supervise.keeper import Keeper, Listener  # noqa: E402
from tsp_supervise.page import NoPage, PageFile, Taken  # noqa: E402
from tsp_witness.datagram import octets_of  # noqa: E402
import made_page  # noqa: E402

PROGRAM, READER, FOLDER = sys.argv[1:4]
COUNT, SEED = map(int, sys.argv[4:6])
DRAW = random.Random(SEED)
EVENTS = 2000
HEADER = ['tsp-schedule 1', 'drift 0', 'node a 0 0 s', 'node b 0 0 m']


def wanted(is_so, text):
    """Ends where something isn't so."""
    if not is_so:
        sys.exit(f'clock: {text}')


def amount():
    """A correction: most are slewed, some are none, and some are more than a clock slews."""
    return DRAW.choice([0, DRAW.randint(-20_000, 20_000), DRAW.randint(-20_000_000, 20_000_000), DRAW.choice([-1, 1]) * DRAW.randint(20_000_001, 10 ** 9)])


def schedule(wall):
    """A node that follows another, and is corrected by it, and asked for its clock in between."""
    at, ticket, events = 90_000_000, wall % 32768, ['at 0 boot 0 ' + str(wall), 'at 80000000 turn 0']
    events.append(f'at {at} bytes 0 1 {octets_of(("masterup", "0", "b")).hex()}')
    for _ in range(EVENTS):
        at += DRAW.choice([DRAW.randint(1_000_000, 1_100_000), DRAW.randint(1_000_000, 250_000_000)])
        if DRAW.random() < 0.5:
            word = DRAW.choice(['adjtime', 'adjtime', 'settime'])
            time_of = amount() if word == 'adjtime' else wall + at + amount()
            events.append(f'at {at} bytes 0 1 {octets_of((word, str(ticket), str(time_of), "b")).hex()}')
            ticket = (ticket + 1) % 32768
        else:
            events.append(f'at {at} bytes 0 1 {octets_of(("request", "1", "2")).hex()}')
    lines = [HEADER[0], HEADER[1], f'node a 0 {wall} s', HEADER[3], *events, 'end', '']
    return '\n'.join(lines)


def acts(text):
    """The acts of the node."""
    ran = subprocess.run([PROGRAM, 'replay'], input=text.encode(), stdout=subprocess.PIPE, stderr=subprocess.PIPE, check=False)
    wanted(ran.returncode == 0, f'replay ends with {ran.returncode}: {ran.stdout[-200:]}{ran.stderr}')
    return list(filter(None, map(trace.line_of, ran.stdout.decode().splitlines())))


def slewed(corrections, tick):
    """What the clock shows at a tick by what the rules say: each correction moves the target, and what is left of it is eased from tick to tick."""
    left, last = 0, 0
    for at, moved, is_step in corrections:
        steps = (at - last) // 200
        left = max(left - steps, 0) if left > 0 else min(left + steps, 0)
        left, last = 0 if is_step else left + moved, at
    steps = (tick - last) // 200
    return max(left - steps, 0) if left > 0 else min(left + steps, 0)


def corrected(daemon, tick, moved, is_step):
    """The daemon's half after a correction at a tick."""
    rest = 0 if is_step else daemon.target_at(tick) - daemon.shown_at(tick) + moved
    return daemon._replace(tick=tick, target=daemon.target_at(tick) + moved, rest=rest, moved=daemon.moved + moved, steps=daemon.steps + is_step)


def formula():
    """The page's target and shown value are those of `replay`, at each reading and each correction, and between them those of the rules."""
    compared = 0
    while compared < COUNT:
        wall = DRAW.randint(0, 10 ** 15)
        daemon, corrections = Daemon(target=wall), []
        for act in acts(schedule(wall)):
            word, *said = act.text.split(' ')
            if word == 'post' and said[2] == 'reply':
                wanted(int(said[-1]) == daemon.target_at(act.tick), f'the target at {act.tick} isn\'t that of replay (seed {SEED})')
                compared += 1
            if word != 'correct':
                continue
            moved, is_step, shown = int(said[0]), said[1] == 'step', int(said[2])
            before = daemon.shown_at(act.tick)
            wanted(is_step or shown == before, f'the clock shows {shown} at {act.tick}, and {before} by the page (seed {SEED})')
            daemon = corrected(daemon, act.tick, moved, is_step)
            wanted(daemon.shown_at(act.tick) == shown, f'the clock shows {shown} after {act.tick}, and the page another value (seed {SEED})')
            corrections.append((act.tick, moved, is_step))
            compared += 1 + between(daemon, corrections[-50:], act.tick)
    return compared


def between(daemon, corrections, tick):
    """Compares some moments after a correction, and none shows less than one before it."""
    ticks = sorted(tick + DRAW.choice([DRAW.randint(0, 400), DRAW.randint(0, 5_000_000), DRAW.randint(0, 5 * 10 ** 9)]) for _ in range(20))
    shown = [daemon.shown_at(at) for at in ticks]
    wanted(shown == sorted(shown), f'a shown value falls after {tick} (seed {SEED})')
    if len(corrections) < 50:
        wanted(all(daemon.target_at(at) - show == slewed(corrections, at) for at, show in zip(ticks, shown)), f'what is to be slewed after {tick} is another (seed {SEED})')
    return len(ticks)


def random_page():
    """A page as it may be, or with a number that it can't have, and a nanosecond."""
    ahead = DRAW.randint(0, DRAW.choice([10 ** 6, 10 ** 10, 10 ** 13]))
    tick, rate = DRAW.randint(0, 10 ** 13), DRAW.choice([0, 0, DRAW.randint(-10 ** 6, 10 ** 6)])
    origin, origin_tick = DRAW.randint(0, 10 ** 18), DRAW.choice([0, DRAW.randint(0, 10 ** 13)])
    now = max(origin + 1000 * (tick + ahead - origin_tick) + DRAW.randint(0, 999), 0)
    at = Daemon(0, origin=origin, origin_tick=origin_tick, rate=rate).tick_at(now)
    alive = at - DRAW.choice([0, DRAW.randint(0, 10 ** 6), DRAW.randint(0, 7 * 10 ** 7), 64_000_000, 64_000_001, -1])
    target, life, master = DRAW.randint(-2 ** 31 * 10 ** 6, 2 ** 31 * 10 ** 6), DRAW.randint(0, 2 ** 64 - 1), DRAW.randint(0, 3)
    daemon = Daemon(life, DRAW.choice([1, 4]), origin, origin_tick, rate, tick, target, amount(),
                    DRAW.choice([tsp_clock.NEVER, target + ahead + DRAW.randint(-9, 10 ** 6)]), DRAW.randint(-10 ** 9, 10 ** 9), DRAW.randint(0, 99), DRAW.randint(0, 3),
                    master, max(alive, 0))
    looked = max(at - DRAW.choice([0, DRAW.randint(0, 10 ** 8), DRAW.randint(0, 10 ** 10), 64_000_000, 64_000_001, 100_000_000, 100_000_001, -1]), 0)
    look = Look(DRAW.choice([life, life, life, 1]), DRAW.randint(-10 ** 9, 10 ** 9), looked, DRAW.randint(-10 ** 6, 10 ** 6), DRAW.randint(-10 ** 6, 10 ** 6),
                DRAW.choice([master, DRAW.randint(0, 3)]), DRAW.randint(0, 1000), DRAW.choice([1, 1, 1, 0, 2]), DRAW.randint(-10 ** 6, 10 ** 6), b'name')
    if DRAW.random() < 0.2:
        daemon = daemon._replace(**DRAW.choice([
            {'counter': DRAW.randint(0, 9)}, {'origin': DRAW.choice([-1, 2 ** 62 - 1, 2 ** 62])}, {'rate': DRAW.choice([10 ** 6 + 1, -10 ** 6 - 1, -2 ** 63])},
            {'tick': 2 ** 53 + DRAW.randint(0, 1)}, {'target': DRAW.choice([-1, 1]) * (2 ** 56 + DRAW.randint(0, 1))}, {'rest': 2 ** 56 + DRAW.randint(0, 1)},
            {'moved': -2 ** 63}, {'alive': 2 ** 64 - 1}, {'origin_tick': 2 ** 51 + DRAW.randint(0, 1)}]))
        look = look._replace(**DRAW.choice([{'moved': 2 ** 56 + DRAW.randint(0, 1)}, {'low': -2 ** 63}, {'high': 2 ** 63 - 1}, {'drift': 1001}, {'looked': 2 ** 64 - 1}]))
    return Page(daemon, look), now


def in_c():
    """The header's times are those of the module, also of pages whose daemon has ended."""
    made = [(made_page.octets(page, DRAW.choice([2] * 19 + [0])), now) for page, now in (random_page() for _ in range(max(COUNT // 10, 1000)))]
    path, length = os.path.join(FOLDER, 'pages'), LOOK_AT + SEQUENCE.size + LOOK_FIELDS.size
    with open(path, 'wb') as file:
        for octets, now in made:
            file.write(octets[:length] + struct.pack('<q', now))
    ran = subprocess.run([READER, 'times', path], stdout=subprocess.PIPE, check=True)
    told, statuses = ran.stdout.decode().splitlines(), [0] * 4
    wanted(len(told) == len(made), f'{len(told)} of {len(made)} pages are read')
    for (octets, now), line in zip(made, told):
        page, _ = tsp_clock.read_once(lambda place, count, octets=octets: octets[place:place + count])
        found = tsp_clock.now_of(page, now)
        values = [found.status, *(value or 0 for value in (found.shown, found.earliest, found.latest, found.age)), found.role, found.life, found.steps]
        wanted(line == ' '.join(map(str, values)), f'{page} at {now} is {line} in C, and {values} in Python (seed {SEED})')
        statuses[found.status] += 1
    wanted(all(count > len(made) // 50 for count in statuses), f'of the four statuses there are {statuses}')
    return len(made)


def reckoned():
    """The interval's formula is that of the law for 100 s, and past that what it takes for true time is never less than the greatest that a counter within
    the drift leaves possible."""
    for _ in range(COUNT):
        drift, passed = DRAW.randint(0, 1000), DRAW.choice([DRAW.randint(0, 10 ** 8), DRAW.randint(0, 10 ** 15)])
        own = -(-drift * passed // 10 ** 6) + 1
        law = 2 * (-(-drift * (passed + own) // 10 ** 6) + 1)
        found = tsp_clock.spread(drift, passed)
        wanted(found == law if passed <= 10 ** 8 else found >= law, f'the spread of {passed} us at {drift} is {found}, and {law} by the law (seed {SEED})')
        # (the slowest counter of this drift, which shows x when the true time is the greatest)
        longest = (passed + 2) * 10 ** 6 // (10 ** 6 - drift)
        least = 2 * (-(-drift * longest // 10 ** 6) + 1)
        wanted(passed <= 10 ** 8 or found >= least, f'the spread of {passed} us at {drift} is {found}, and {least} is needed (seed {SEED})')


def torn():
    """Pages that are read while both halves are written are whole, and those that nobody goes on writing end in status 0."""
    path = os.path.join(FOLDER, 'page')
    made_page.write(path, Page())
    writing = os.fork()
    if writing == 0:
        number = 1 << 40
        while True:
            number += 1
            made_page.change(path, daemon=Daemon(number, 4, number, number, number, number, -number, number, number, number, number, 1, number, number), piece=8)
            made_page.change(path, look=Look(number, number, number, -number, number, number, number, 1, number), piece=8)
    try:
        time.sleep(0.2)
        told = subprocess.run([READER, 'torn', path, str(COUNT)], stdout=subprocess.PIPE, check=False).stdout.decode().strip()
        words = told.split()
        wanted(told.startswith('0 torn, ') and int(words[9]) >= 300 and int(words[2]) <= int(words[5]) / 1000, told)
    finally:
        os.kill(writing, signal.SIGKILL)
        os.waitpid(writing, 0)
    dead()
    return told


def statuses(path, status, text):
    """Wants a status of a page, by the module and in C, within 50 ms or so."""
    begun = time.monotonic()
    wanted(tsp_clock.Clock(path).now().status == status, f'{text} has another status than {status}')
    wanted(time.monotonic() - begun < 0.2, f'{text} takes {time.monotonic() - begun:.3f} s to read')
    found, taken = map(int, subprocess.run([READER, 'now', path], stdout=subprocess.PIPE, check=True).stdout.split())
    wanted(found == status and taken < 200_000, f'{text} has status {found} in C, after {taken} us')


def patient(path):
    """Wants that a call waits once for a page that is written for ever, also where it looks for another one; the shortest of some calls tells."""
    clock, took = tsp_clock.Clock(path), []
    for _ in range(4):
        begun = time.monotonic()
        clock.now()
        took.append(time.monotonic() - begun)
        time.sleep(1.1)
    wanted(min(took) < 0.07, f'a page that is written for ever takes {min(took):.3f} s to read')
    least = int(subprocess.run([READER, 'now', path, '4'], stdout=subprocess.PIPE, check=True).stdout.split()[2])
    wanted(least < 70_000, f'a page that is written for ever takes {least} us to read in C')


def dead():
    """A writer that was killed between the two numbers of its lock, and a daemon that wrote last a while ago, or that will."""
    path = os.path.join(FOLDER, 'dead')
    leads = made_page.leading(10 ** 15)
    made_page.write(path, leads)
    statuses(path, tsp_clock.SYNCHRONISED, 'a page that was just written')
    for place in DAEMON_AT, LOOK_AT:
        made_page.write(path, leads)
        with open(path, 'r+b') as file:
            os.pwrite(file.fileno(), SEQUENCE.pack(7), place)
        statuses(path, tsp_clock.STALE, 'a half that is being written for ever')
    patient(path)
    for ago, status in ((63_000_000, tsp_clock.SYNCHRONISED), (65_000_000, tsp_clock.STALE), (-2_000_000, tsp_clock.STALE)):
        daemon = leads.daemon
        made_page.write(path, leads._replace(daemon=daemon._replace(alive=daemon.tick_at(time.clock_gettime_ns(tsp_clock.RAW)) - ago)))
        statuses(path, status, f'a daemon that wrote {ago} us ago')


def other():
    """A page of another version takes the place of one that is read: it has no time, however often it is asked. A reader doesn't wait for a named pipe."""
    path = os.path.join(FOLDER, 'other')
    made_page.write(path, made_page.leading(10 ** 15))
    clock = tsp_clock.Clock(path)
    wanted(clock.now().status == tsp_clock.SYNCHRONISED, 'a page that was just written isn\'t taken')
    daemon = clock.read()[0].daemon
    made_page.write(path + '.new', Page(daemon._replace(alive=0)))
    os.rename(path, path + '.old')
    with open(path + '.old', 'r+b') as file:
        os.pwrite(file.fileno(), SEQUENCE.pack(0), DAEMON_AT)
    with open(path, 'wb') as file:
        file.write(tsp_clock.HEAD.pack(tsp_clock.MAGIC, 1, 424).ljust(SIZE, b'\0'))
    for _ in range(3):
        clock.tried = 0
        wanted(clock.now().status == tsp_clock.STALE, 'a page of another version has a status')
    pipe = os.path.join(FOLDER, 'pipe')
    os.mkfifo(pipe)
    for opens in (lambda: tsp_clock.Clock(pipe), lambda: tsp_clock.Clock(path)):
        try:
            opens()
            wanted(False, 'what is no page is opened')
        except OSError as fault:
            wanted('no page' in str(fault), f'it says {fault}')
    for each in pipe, path:
        wanted(subprocess.run([READER, 'now', each], stdout=subprocess.PIPE, check=False, timeout=5).returncode == 3, 'in C it is opened')


class Still:
    """A loop in which no time passes, and nothing comes."""

    def __getattr__(self, name):
        return lambda *_: 0


# The port of the master that is asked.
MASTER = 10


class Asked:
    """Questions that are answered at once, by a master whose clock is ahead by so much, and whom it names; and by others who are ahead by so much, or don't
    answer."""

    def __init__(self, page, ahead, names, others=None):
        self.page, self.ahead, self.names, self.others, self.between, self.other = page, ahead, names, others, None, ()

    @staticmethod
    def now():
        return time.clock_gettime_ns(tsp_clock.RAW)

    def stop(self):
        pass

    def ask(self, address, heard):
        ahead = self.ahead if address[1] == MASTER else self.others
        if ahead is None:
            heard()
            return
        daemon = self.page.page().daemon
        sent = self.now()
        reading = daemon.target_at(daemon.tick_at(self.now())) + ahead
        heard(reading, sent, self.now())

    def ask_master(self, address, heard):
        if address[1] == 9:
            heard(*self.other)
            return
        if self.between:
            self.between()
        heard(*self.names)


def looks():
    """A look counts if whoever was asked is the master still, by its own words, and if the daemon's clock and its master are those of the look."""
    path = os.path.join(FOLDER, 'looked')
    page = PageFile(path)
    page.keep()
    told = []
    listener = Listener()
    listener.other_leads = lambda *names: told.append(names)
    keeper = Keeper(Still(), page, [[('127.0.0.1', 9), ('127.0.0.1', MASTER)], [('127.0.0.1', 9)]], ['a', 'b', 'c', 'd'], 50, listener)
    follows = made_page.following(10 ** 15, 2)
    ahead = 5000

    def seen(names, between=None, daemon=follows.daemon):
        made_page.change(path, daemon=daemon)
        page.write(Look())
        keeper.stamps = Asked(page, ahead, names)
        keeper.stamps.between = between
        keeper.look()
        return page.page().look

    for names, text in (((), 'nobody answers'), (('',), 'it names nobody'), (('b',), 'it names another one'), (('a',), 'it names this host')):
        wanted(seen(names).had == 0, f'a look counts though {text}')
    look = seen(('c',))
    wanted(look.had == 1 and look.low <= ahead <= look.high and look.high - look.low < 10 ** 5 and look.master == 2 and look.drift == 50, f'the look is {look}')
    wanted(tsp_clock.now_of(*page.read()).status == tsp_clock.SYNCHRONISED, 'after a look the page isn\'t synchronised')
    for change in ({'moved': 1}, {'master': 1}, {'life': 5}, {'role': tsp_clock.NOBODY}, {'rate': 7}):
        found = seen(('c',), lambda change=change: made_page.change(path, daemon=follows.daemon._replace(**change)))
        wanted(found.had == 0, f'a look counts though meanwhile there is {change}')
    wanted(seen(('c',), daemon=follows.daemon._replace(moved=0, steps=0, tick=1)).had == 0, 'a daemon that was never corrected looks')
    # (another one leads, on the master's network, where the master doesn't)
    wanted(not told, f'it tells of {told}')
    made_page.change(path, daemon=follows.daemon)
    keeper.seen = follows.daemon
    for names, other, wants in (((), ('b',), [('c', 'b')]), ((), ('c',), []), ((), ('',), []), (('b',), ('b',), [('c', 'b')]), (('c',), ('b',), []), ((), ('d',), [])):
        told.clear()
        keeper.stamps = Asked(page, ahead, names)
        keeper.stamps.other = other
        keeper.look()
        wanted(told == wants, f'where the master names {names} and another host {other} it tells of {told}')
    # (a correction since the look shifts the interval)
    seen(('c',))
    before = tsp_clock.now_of(*page.read())
    made_page.change(path, daemon=corrected(follows.daemon, follows.daemon.tick_at(Asked.now()), 3000, False))
    after = tsp_clock.now_of(*page.read())
    wanted(abs(after.latest - before.latest) < 10 ** 6 and after.status == tsp_clock.SYNCHRONISED, f'a correction makes {after} of {before}')
    leads = seen((), daemon=follows.daemon._replace(role=tsp_clock.LEADS, master=0))
    wanted((leads.had, leads.low, leads.high, leads.master, leads.name.rstrip(b'\0')) == (1, 0, 0, 0, b'a'), f'a leader\'s look is {leads}')
    page.close()


def stood_still():
    """A master that is ahead at once, by far more than drift explains and for two looks, tells that this machine stood still, unless other hosts aren't ahead,
    or the daemon was corrected in between."""
    path, told = os.path.join(FOLDER, 'stood'), []
    page, listener = PageFile(path), Listener()
    listener.stood_still = told.append
    follows = made_page.following(10 ** 15, 2).daemon
    peers, names = [('127.0.0.1', 9), ('127.0.0.1', MASTER), ('127.0.0.1', 11)], ['a', 'b', 'c', 'd']
    other_moved = follows._replace(moved=follows.moved + 1)
    # (by how much the master is ahead at each look, and by how much the others then are; the daemon then; and whether it stood still)
    for aheads, others, daemon, wants in (
            ((0, 5_000_000, 5_000_000), 5_000_000, follows, True), ((0, 5_000_000, 5_000_000), None, follows, True),
            ((0, 5_000_000, 5_000_000), 0, follows, False), ((0, 5_000_000), 5_000_000, follows, False),
            ((0, 5_000_000, 0, 5_000_000), 5_000_000, follows, False), ((0, 5_000_000, 5_000_000), 5_000_000, other_moved, False),
            ((0, -5_000_000, -5_000_000), -5_000_000, follows, False), ((0, 400_000, 900_000), 5_000_000, follows, False),
            ((5_000_000, 5_000_000, 5_000_000), 5_000_000, follows, False)):
        told.clear()
        keeper = Keeper(Still(), page, [peers], names, 50, listener)
        for number, ahead in enumerate(aheads):
            made_page.change(path, daemon=daemon if number else follows)
            keeper.stamps = Asked(page, ahead, ('c',), others)
            keeper.look()
        wanted(bool(told) == wants and all(4.9 < seconds < 5 for seconds in told), f'where the master is ahead by {aheads} and others by {others} it tells {told}')
    page.close()


def refused(kind, path):
    """Wants a fault of this kind, and says what it is."""
    try:
        PageFile(path).close()
    except kind as fault:
        return fault
    raise SystemExit(f'clock: {path} is taken for a page')


def no_pages():
    """What is no page, or one of another version, says so in C and in Python, by the same number; and a path at which nothing is."""
    text, other, nothing = (os.path.join(FOLDER, name) for name in ('text', 'other-version', 'nothing'))
    for path, octets in (text, b'a text'), (other, made_page.octets(Page())[:8] + b'\1' + bytes(SIZE - 9)):
        with open(path, 'wb') as file:
            file.write(octets)
    for path, number in (text, errno.EINVAL), (other, errno.EINVAL), ('/dev/null', errno.EINVAL), (nothing, errno.ENOENT):
        ran = subprocess.run([READER, 'open', path], stdout=subprocess.PIPE, check=False)
        try:
            tsp_clock.Clock(path)
            found = 0
        except OSError as fault:
            found = fault.errno
        wanted([int(ran.stdout), found] == [number, number], f'{path} gives {ran.stdout} in C, and {found} in Python')


def files():
    """The page's file: what may become one, who may keep it, and what becomes of one that is removed."""
    folder = os.path.join(FOLDER, 'files')
    os.mkdir(folder)
    path, mine = os.path.join(folder, 'clock'), os.path.join(folder, 'mine')
    with open(mine, 'wb') as file:
        file.write(b'something of mine')
    os.chmod(mine, 0o600)
    os.symlink(mine, path)
    refused(OSError, path)
    os.unlink(path)
    refused(NoPage, mine)
    with open(mine, 'rb') as file:
        wanted(file.read() == b'something of mine' and os.stat(mine).st_mode & 0o777 == 0o600, 'a file that is no page was changed')
    os.mkfifo(path)
    refused(OSError, path)
    os.unlink(path)
    refused(OSError, '/dev/null')
    for each in os.listdir(folder):
        if each != 'mine':
            os.unlink(os.path.join(folder, each))
    page = PageFile(path)
    wanted(os.stat(path).st_mode & 0o777 == 0o644 and os.stat(path + pages.LOCK).st_mode & 0o777 == 0o600, 'the page or its lock has another mode')
    refused(Taken, path)
    wanted(page.mend() is None, 'a page in its place is put back')
    for remove in (lambda: os.unlink(path), lambda: os.rename(path, path + '.away'), lambda: (os.unlink(path), open(path, 'wb').close())):
        inode = os.stat(path).st_ino
        remove()
        wanted(page.mend() and os.stat(path).st_ino == inode, 'a page that was removed isn\'t put back')
    os.unlink(path)
    os.unlink(path + pages.KEPT)
    try:
        page.mend()
        wanted(False, 'a page that is gone is put back')
    except OSError:
        pass
    page.close()
    # (a truncated page ends nobody who writes it or reads it by reading)
    page = PageFile(path)
    made_page.change(path, daemon=made_page.leading(10 ** 15).daemon)
    os.truncate(path, 0)
    wanted(page.read() is None or tsp_clock.now_of(*page.read()).status == tsp_clock.STALE, 'a page that was cut off has a status')
    wanted(page.mend() == 'was cut off' and tsp_clock.Clock(path).now().status == tsp_clock.STALE, 'a page that was cut off isn\'t mended')
    page.write(Look())
    page.close()
    # a page of another version is begun anew
    with open(path, 'wb') as file:
        file.write(tsp_clock.HEAD.pack(tsp_clock.MAGIC, 1, 424) + bytes([255]) * 400)
    PageFile(path).close()
    wanted(tsp_clock.Clock(path).now().status == tsp_clock.STALE, 'a page that was of another version has a status')


def main():
    other()
    compared, found = formula(), in_c()
    reckoned()
    looks()
    stood_still()
    files()
    no_pages()
    print(f'{compared} moments as in replay, {found} pages in C as in Python, {torn()}')


main()
