#!/usr/bin/env python3
"""Tries what may befall a daemon under `tsp-launch --supervise`: `supervise.py PROGRAM FOLDER CASE..`, in a folder for files.

Each case is a function below. One that fails says why, with status 1.
"""
import fcntl
import os
import re
import select
import signal
import socket
import subprocess
import sys
import termios
import threading
import time

HERE = os.path.dirname(os.path.realpath(__file__))
TOOLS = os.path.dirname(HERE)
DEV = os.path.join(os.path.dirname(TOOLS), 'dev')
sys.dont_write_bytecode = True
sys.path[:0] = TOOLS, DEV
from lab import fast, preload  # noqa: E402
from tsp_daemon import machine  # noqa: E402
from tsp_supervise import outlet, output, systemd  # noqa: E402
from tsp_supervise.follow import Follow  # noqa: E402
from tsp_supervise.loop import Loop  # noqa: E402
from tsp_supervise.systemd import Systemd  # noqa: E402
from tsp_texts.grammar import KINDS  # noqa: E402
import tsp_clock  # noqa: E402
from tsp_witness.datagram import octets_of  # noqa: E402

PROGRAM, FOLDER = sys.argv[1:3]
LAUNCH = os.path.join(TOOLS, 'tsp-launch')
REQUEST, TRACE_ON, TRACE_OFF = (octets_of(words) for words in (('request', '1', '2'), ('traceon', '1', 'x'), ('traceoff', '1', 'x')))
DROPPED = re.compile(rb'^\.\.\. ([0-9]+) lines (?:dropped|of supervisors left out)$', re.MULTILINE)


def wanted(is_so, text):
    """Ends where something isn't so."""
    if not is_so:
        sys.exit(f'supervise: {text}')


def until(what, text, seconds=5):
    """Waits until something is so."""
    end = time.monotonic() + seconds
    while not what():
        wanted(time.monotonic() < end, f'{text}, after {seconds} s')
        time.sleep(0.01)


def free_port():
    """A port of this machine that nobody has."""
    with socket.socket(socket.AF_INET, socket.SOCK_DGRAM) as link:
        link.bind(('127.0.0.1', 0))
        return link.getsockname()[1]


def children(pid):
    """The processes that a process began, and that haven't ended."""
    try:
        with open(f'/proc/{pid}/task/{pid}/children', encoding='ascii') as file:
            return [int(word) for word in file.read().split()]
    except OSError:
        return []


def is_there(pid):
    """Whether a process runs."""
    try:
        with open(f'/proc/{pid}/stat', encoding='ascii') as file:
            return file.read().rpartition(')')[2].split()[0] not in 'ZX'
    except OSError:
        return False


def let_through():
    """Lets signals through that a shell's job in the background ignores, or a command under nohup, and with it what they start."""
    for number in (signal.SIGINT, signal.SIGHUP):
        signal.signal(number, signal.SIG_DFL)


class Supervised:
    """A daemon under tsp-launch, at an address; its lines go to files, unless streams are named."""
    HOW = '--supervise'

    def __init__(self, *words, address='127.0.0.1', turns=1_000_000_000, stdout=None, stderr=None, before=(), **variables):
        self.address = address, free_port()
        self.hosts = self.path('hosts')
        self.write_hosts()
        self.out, self.err, self.is_read = self.path('out'), self.path('err'), not stdout and '--output' not in words
        environment = {name: value for name, value in os.environ.items() if not name.startswith('TSP_')}
        environment.update({'TSP_SPREAD': '0', 'TSP_TRACE': 'on', 'TSP_CLOCK': self.path('clock'), **variables})
        command = [*before, LAUNCH, '-f', self.hosts, '-s', 'a', '--turns', str(turns), '-p', PROGRAM, self.HOW, *words]
        with open(self.out, 'wb') as out, open(self.err, 'wb') as err:
            self.process = subprocess.Popen(command, stdout=stdout or out, stderr=stderr or err, env=environment, preexec_fn=let_through)
        self.link = socket.socket(socket.AF_INET, socket.SOCK_DGRAM)
        self.link.settimeout(0.2)

    @staticmethod
    def path(name):
        return os.path.join(FOLDER, name)

    def write_hosts(self, *more):
        """Writes the hosts file, with these lines behind the daemon's own."""
        with open(self.hosts, 'w', encoding='ascii') as file:
            file.write('\n'.join([f'a {self.address[0]}:{self.address[1]} master', *more, '']))

    def daemon(self):
        """The daemon's process, or None."""
        return next((pid for pid in children(self.process.pid) if is_there(pid)), None)

    def answers(self):
        """Whether the daemon answers a question."""
        try:
            self.link.sendto(REQUEST, self.address)
            return len(self.link.recv(512)) == 28
        except OSError:
            return False

    def read(self, path=None):
        """What was written: to a file, or on standard error."""
        with open(path or self.err, encoding='ascii') as file:
            return file.read()

    def ready(self):
        """Waits until the daemon answers and traces."""
        until(lambda: self.daemon() and self.answers(), 'the daemon doesn\'t answer')
        if self.is_read:
            until(lambda: ' trace on\n' in self.read(self.out), 'the daemon doesn\'t trace')
        else:
            time.sleep(0.3)
        return self.daemon()

    def end(self, status=0, by=signal.SIGTERM, within=1.0):
        """Ends both, with this status and within this time."""
        daemon, begun = self.daemon(), time.monotonic()
        self.process.send_signal(by)
        found = self.process.wait(10)
        taken = time.monotonic() - begun
        wanted(found == status, f'it ends with status {found}, and {status} is wanted: {self.read() if os.path.exists(self.err) else ""}')
        wanted(taken < within, f'it ends after {taken:.2f} s')
        if daemon:
            until(lambda: not is_there(daemon), 'the daemon outlives it', 1)


def flood(server, count, rate, every=1000):
    """Asks a daemon so often, at so many questions a second, and asks it to trace each time after so many: how many answers came."""
    server.link.setblocking(False)
    server.link.setsockopt(socket.SOL_SOCKET, socket.SO_RCVBUF, 1 << 20)
    begun, sent, got = time.monotonic(), 0, 0
    while sent < count or select.select([server.link], [], [], 0.3)[0]:
        for _ in range(min(count - sent, int((time.monotonic() - begun) * rate) - sent)):
            sent += 1
            server.link.sendto(TRACE_ON if sent % every == 0 else REQUEST, server.address)
        try:
            while True:
                got += bool(server.link.recv(512))
        except BlockingIOError:
            time.sleep(0.0005)
    return got


def stuck():
    """A reader that takes nothing: questions are answered on, and when it reads again it has all of the daemon's own lines, and is told how many
    others there were."""
    count, rate = 60_000, 6_000
    end, into = os.pipe()
    server = Supervised(stdout=into)
    os.close(into)
    server.ready()
    answered = flood(server, count, rate)
    wanted(answered >= 0.8 * count, f'{answered} of {count} questions are answered while nobody reads')
    lines, deadline = bytearray(), time.monotonic() + 5
    os.set_blocking(end, False)
    while time.monotonic() < deadline and lines.count(b' trace on\n') < count // 1000 + 1:
        try:
            lines += os.read(end, 1 << 20)
        except BlockingIOError:
            time.sleep(0.01)
    dropped = sum(map(int, DROPPED.findall(lines)))
    wanted(lines.count(b' trace on\n') >= count // 1000, f'of {count // 1000} lines of its own {lines.count(b" trace on")} came')
    wanted(dropped > count // 2, f'only {dropped} lines are dropped')
    last = re.findall(rb'^([0-9]+) 0 0 [0-9]+ trace on$', lines, re.MULTILINE)[-1]
    told = len(re.findall(rb'^[0-9]+ 0 0 ', lines, re.MULTILINE))
    wanted(told + dropped >= 2 * int(last), f'{told} lines and {dropped} dropped ones are fewer than {last} turns have')
    server.end()
    os.close(end)


def blocked():
    """Nobody takes a line of either stream, and the daemon is stopped: SIGTERM ends both."""
    end, into = os.pipe()
    os.set_blocking(into, False)
    try:
        while True:
            os.write(into, bytes(4096))
    except BlockingIOError:
        os.set_blocking(into, True)
    server = Supervised(stdout=into, stderr=into)
    os.kill(server.ready(), signal.SIGSTOP)
    server.end()
    os.close(end)
    os.close(into)


class Traced(Supervised):
    """A daemon that was only told to trace."""
    HOW = '--trace'


def traced():
    """A daemon that is told to trace goes on, though nobody reads that. It isn't started again: its end is that of all, and so is a signal."""
    for status, ends in ((0, lambda server: server.process.terminate()), (0, lambda server: server.process.send_signal(signal.SIGHUP)),
                         (128 + signal.SIGKILL, lambda server: os.kill(server.daemon(), signal.SIGKILL))):
        end, into = os.pipe()
        fcntl.fcntl(into, fcntl.F_SETPIPE_SZ, 4096)
        server = Traced(stdout=into)
        daemon = server.ready()
        # (a bare daemon answers some forty, until 4 KiB are full)
        answered = flood(server, 400, 400)
        wanted(answered >= 300, f'{answered} of 400 questions are answered beside a reader that takes nothing')
        ends(server)
        found = server.process.wait(10)
        wanted(found == status, f'it ends with status {found}, and {status} is wanted: {server.read()}')
        until(lambda daemon=daemon: not is_there(daemon), 'the daemon outlives it', 1)
        os.close(end)
        os.close(into)
    server = Traced(turns=50)
    server.ready()
    flood(server, 100, 200)
    wanted(server.process.wait(10) == 0 and server.read(server.out).count(' trace on\n') == 1, 'its turns are over, and it goes on')


def emptied():
    """Standard output is a file on a disk that is full for a while: that ends nothing, lines are dropped and counted, and then the file has lines again."""
    with open('/dev/full', 'wb') as disk:
        server = Supervised(stdout=disk)
        server.ready()
        until(lambda: 'standard output: No space left on device; lines are dropped until it can be written\n' in server.read(), 'a full disk isn\'t told of')
        wanted(flood(server, 20, 100) == 20, 'not all questions are answered beside a full disk')
        server.end()
        loop, said, path, mine, again, output.AGAIN = Loop(), [], Supervised.path('emptied'), os.dup(1), output.AGAIN, 0.01
        os.dup2(disk.fileno(), 1)
        trace = output.Output('', loop, said.append, None)
        trace.put(b'1 0 0 1 trace on\n')
        until(lambda: trace.outlet.fault, 'a full disk takes lines')
    with open(path, 'wb') as file:
        os.dup2(file.fileno(), 1)
    steps(loop, 0.2)
    trace.put(b'2 0 0 2 trace on\n')
    trace.flush(5)
    os.dup2(mine, 1)
    output.AGAIN = again
    signal.set_wakeup_fd(-1)
    with open(path, encoding='ascii') as file:
        found = file.read()
    wanted(len(said) > 0 and found == '... 1 lines dropped\n2 0 0 2 trace on\n', f'it says {said}, and the file has {found!r}')


def full():
    """The trace's file takes nothing for long: it is opened again and again, no more files are open than before, and each line that is lost is counted
    once."""
    loop, said, lines, again, output.AGAIN = Loop(), [], 0, output.AGAIN, 0.01
    trace = output.Output('/dev/full', loop, said.append, None)
    files = len(os.listdir('/proc/self/fd'))
    while len(said) < 20:
        step(loop, trace)
        lines += 1
    until(lambda: trace.outlet.fault, 'a full disk takes lines')
    wanted(trace.outlet.backlog.lost == lines, f'{lines} lines are lost, and {trace.outlet.backlog.lost} are counted')
    output.AGAIN = again
    signal.set_wakeup_fd(-1)
    until(lambda: len(os.listdir('/proc/self/fd')) <= files + 1, f'{len(os.listdir("/proc/self/fd"))} files are open, and {files} were')


def renewed():
    """The trace's file takes nothing, and is opened anew before that is heard of: nothing is made of the old one, and the new one gets lines."""
    loop, said, path = Loop(), [], Supervised.path('renewed')
    os.symlink('/dev/full', path)
    trace = output.Output(path, loop, said.append, None)
    trace.put(b'1 0 0 1 trace on\n')
    until(lambda: trace.outlet.fault, 'the stream doesn\'t fail')
    os.unlink(path)
    trace.reopen()
    steps(loop, 0.1)
    trace.put(b'2 0 0 2 trace on\n')
    trace.flush(5)
    signal.set_wakeup_fd(-1)
    with open(path, encoding='ascii') as file:
        found = file.read()
    wanted(not said and found == '... 1 lines dropped\n2 0 0 2 trace on\n', f'it says {said}, and the new file has {found!r}')


def piped():
    """The trace goes to a named pipe that nobody reads at first, and whose reader goes away: nobody is waited for, and each reader gets lines."""
    loop, said, path = Loop(), [], Supervised.path('pipe')
    os.mkfifo(path)
    signal.alarm(10)
    trace = output.Output(path, loop, said.append, None)
    for _ in range(2):
        for _ in range(20):
            step(loop, trace)
        with open(path, 'rb', buffering=0) as reader:
            wanted(b' trace on\n' in reader.read(4096), 'the pipe has no lines')
        trace.reopen()
    before = threading.active_count()
    for _ in range(3):
        trace.put(b'1 0 0 1 trace on\n' * 20_000)
        trace.reopen()
    signal.alarm(0)
    signal.set_wakeup_fd(-1)
    wanted(not said, f'it says {said}')
    wanted(threading.active_count() == before, f'{threading.active_count()} threads wait for one pipe, and {before} did')


def lost():
    """A reader that takes nothing goes away: each line that it didn't get is counted."""
    end, into = os.pipe()
    stream, count, line = outlet.Outlet(into, output.MOST), 20_000, b'1 0 0 1 trace on\n'
    for _ in range(count):
        stream.put(line)
    until(lambda: not select.select([], [into], [], 0)[1], 'the pipe isn\'t full')
    time.sleep(0.1)
    taken = int.from_bytes(fcntl.ioctl(end, termios.FIONREAD, bytes(4)), sys.byteorder)
    os.close(end)
    until(lambda: stream.fault, 'the stream doesn\'t fail')
    stream.close()
    wanted(stream.backlog.lost == count - taken // len(line), f'{taken // len(line)} of {count} lines were taken, and {stream.backlog.lost} are lost')


def threads():
    """Other threads ask for calls all the time, while many times are looked through: all of them come."""
    loop, ended, asked, came = Loop(), [], [], []
    for number in range(200):
        loop.after(number, 100, lambda: None)

    def ask():
        while not ended:
            asked.append(len(asked))
            loop.soon(('asked', asked[-1]), lambda: came.append(1))
            time.sleep(0)
    interval = sys.getswitchinterval()
    sys.setswitchinterval(1e-6)
    thread, until_then = threading.Thread(target=ask, daemon=True), time.monotonic() + 0.5
    thread.start()
    while time.monotonic() < until_then:
        loop.step()
    ended.append(True)
    thread.join()
    sys.setswitchinterval(interval)
    loop.soon('last', lambda: None)
    loop.step()
    signal.set_wakeup_fd(-1)
    wanted(len(came) == len(asked) > 10, f'{len(came)} of {len(asked)} calls came')


def step(loop, trace):
    """A line comes, and is written if it can be."""
    trace.put(b'1 0 0 1 trace on\n')
    loop.after('look', 0.01, lambda: None)
    loop.step()


def switched():
    """A stranger switches the trace off again and again: it is switched on once a second, and that is noted."""
    server = Supervised()
    server.ready()
    begun, sent = time.monotonic(), 0
    while time.monotonic() < begun + 2.5:
        server.link.sendto(TRACE_OFF, server.address)
        sent += 1
        time.sleep(0.02)
    until(lambda: server.read(server.out).rstrip('\n').split('\n')[-2].endswith(' trace on'), 'the trace stays off')
    notes = server.read().count('somebody switched the trace off; it is on again')
    wanted(1 <= notes <= 4, f'{sent} TRACEOFF bring {notes} notes')
    server.end()


def notified():
    """What is told to systemd: one message a second at most, also under a stranger who switches the trace off again and again; of a state that changes
    all the time the last one in the end."""
    with socket.socket(socket.AF_UNIX, socket.SOCK_DGRAM) as heard:
        heard.bind(os.path.join(FOLDER, 'notify'))
        heard.settimeout(0.01)
        server, messages, begun = Supervised(NOTIFY_SOCKET=heard.getsockname()), [], time.monotonic()
        while time.monotonic() < begun + 4.5:
            server.link.sendto(TRACE_OFF, server.address)
            messages += received(heard)
        server.end()
        wanted(messages[0][1].startswith('READY=1\n'), f'systemd is told first {messages[:1]}')
        apart(messages, 3, 6)
        wanted([text for _, text in received(heard)] == ['STOPPING=1'], 'systemd isn\'t told that it ends')
        states(heard)


def states(heard):
    """Tells systemd of a state that changes all the time."""
    os.environ['NOTIFY_SOCKET'] = heard.getsockname()
    loop, messages, number, begun = Loop(), [], 0, time.monotonic()
    told = Systemd(loop, lambda text: wanted(False, text))
    while time.monotonic() < begun + 3.4:
        if time.monotonic() < begun + 2.2:
            number += 1
            told.tell('READY=1', f'STATUS=state {number}')
        loop.after('look', 0.01, lambda: None)
        loop.step()
        messages += received(heard)
    signal.set_wakeup_fd(-1)
    apart(messages, 3, 4)
    wanted(messages[0][1].endswith(' 1') and messages[-1][1].endswith(f' {number}') and number > 50, f'of {number} states systemd is told {messages}')


def busy():
    """systemd takes nothing for a while: that is said once, and it is told then."""
    path, loop, said = os.path.join(FOLDER, 'busy'), Loop(), []
    again, systemd.AGAIN = systemd.AGAIN, 0.05
    with socket.socket(socket.AF_UNIX, socket.SOCK_DGRAM) as heard, socket.socket(socket.AF_UNIX, socket.SOCK_DGRAM) as other:
        heard.bind(path)
        heard.settimeout(0.01)
        other.setblocking(False)
        try:
            while True:
                other.sendto(b'x', path)
        except BlockingIOError:
            pass
        os.environ['NOTIFY_SOCKET'] = path
        told, messages = Systemd(loop, said.append), []
        told.tell('READY=1')
        steps(loop, 0.3)
        wanted(said == ['systemd isn\'t told: Resource temporarily unavailable; it is tried again'], f'it says {said}')
        received(heard)
        steps(loop, 0.3)
        messages = [text for _, text in received(heard)]
        wanted(messages == ['READY=1'], f'systemd is told {messages}')
    systemd.AGAIN = again
    signal.set_wakeup_fd(-1)


def steps(loop, seconds):
    """Lets a loop go on for so long."""
    end = time.monotonic() + seconds
    while time.monotonic() < end:
        loop.after('look', 0.01, lambda: None)
        loop.step()


def apart(messages, least, most):
    """Wants so many messages, of which no two came within a second, but for what the machine is late."""
    times = [at for at, _ in messages]
    wanted(least <= len(times) <= most and all(later - earlier > 0.9 for earlier, later in zip(times, times[1:])), f'systemd is told at {times}: {messages}')


def received(link):
    """The messages that came, and when."""
    found = []
    try:
        while True:
            text = link.recv(4096).decode()
            found.append((time.monotonic(), text))
    except socket.timeout:
        return found


def slept():
    """The machine slept: the daemon is started again at once."""
    library = preload.made('slept', FOLDER)
    if library is None:
        print('supervise: there is no cc, so a sleep isn\'t tried')
        return
    file = os.path.join(FOLDER, 'slept')
    server = Supervised(LD_PRELOAD=library, SLEPT_FILE=file)
    first = server.ready()
    with open(file, 'wb'):
        # (a look comes once a second, but the timer that runs on in a sleep is over at once)
        until(lambda: not is_there(first), 'the daemon runs on after a sleep', 0.3)
        until(lambda: server.daemon() not in (None, first), 'the daemon isn\'t started again after a sleep', 1.5)
    server.ready()
    wanted('the machine slept for 600 s, in which the daemon didn\'t count; the daemon is started again' in server.read(), f'it says {server.read()}')
    server.end()


class Peer:
    """A host that this plays. `leads` is whether it tells a daemon that looks for a master that it is one, and `named` whom it names to a supervisor that asks: `%`
    for nobody, and None where it is silent."""

    def __init__(self, name, leads):
        self.name, self.leads, self.named = name, leads, '%'
        self.link = socket.socket(socket.AF_INET, socket.SOCK_DGRAM)
        self.link.bind(('127.0.0.1', 0))
        threading.Thread(target=self.play, daemon=True).start()

    def play(self):
        """Answers what comes."""
        while True:
            octets, sender = self.link.recvfrom(512)
            kind, number = octets[0] - 1, int.from_bytes(octets[2:4], 'big')
            if kind == KINDS.index('masterreq') and self.leads:
                self.link.sendto(octets_of(('masterack', number, self.name)), sender)
            elif kind == KINDS.index('msite') and self.named is not None:
                self.link.sendto(octets_of(('ack', number, self.named)), sender)


class Peered(Supervised):
    """A daemon that has peers, in time that runs fast."""
    RATE = 20

    def __init__(self, peers, library, **variables):
        self.peers = peers
        settings = fast.environment(library, time.monotonic_ns(), self.RATE, time.time_ns() // 1000)
        super().__init__(**{name: value for name, value in settings.items() if name.startswith(('FAST_', 'LD_'))}, **variables)

    def write_hosts(self, *more):
        super().write_hosts(*(f'{peer.name} 127.0.0.1:{peer.link.getsockname()[1]} master' for peer in self.peers), *more)

    def followed(self):
        """How often a daemon began to follow the first peer."""
        return self.read(self.out).count(' become follow 1\n')

    def kill(self):
        """Kills it, and with it the daemon. (it would wait for its last lines by the machine's own time)"""
        daemon = self.daemon()
        self.process.kill()
        self.process.wait()
        until(lambda: not is_there(daemon), 'the daemon outlives it')


def followed():
    """The master is gone while another host leads: the daemon is started again, once in ten minutes; with TSP_FOLLOW=wait it isn't."""
    rule = Follow(lambda least, most: (least, most))
    wanted([rule.wait(now) for now in (0, 5, 599, 600, 1199)] == [(0, 10), None, None, (0, 10), None], 'it is started again more often than once in ten minutes')
    library = preload.made('tsp_fast', FOLDER)
    if library is None:
        print('supervise: there is no cc, so another master isn\'t tried')
        return
    said = 'b, which the daemon follows, doesn\'t lead any more, and c does; the daemon is started again'
    for policy, starts in (('next', 1), ('wait', 0)):
        first, other = Peer('b', True), Peer('c', False)
        server = Peered([first, other], library, TSP_FOLLOW=policy)
        until(lambda: server.followed() == 1, 'the daemon doesn\'t follow', 20)
        first.named = None
        # (for 20 s of its time nobody leads)
        time.sleep(20 / Peered.RATE)
        wanted(said not in server.read(), 'the daemon is started again though nobody else leads')
        other.named = 'c'
        until(lambda: server.followed() == 1 + starts, 'the daemon isn\'t started again', 20)
        # (the first one says to it again that it leads)
        time.sleep(60 / Peered.RATE)
        wanted(server.read().count(said) == starts, f'TSP_FOLLOW={policy}, and it says {server.read()}')
        server.kill()


def stood():
    """All stands still between two readings of clocks: that is no sleep."""
    real, pauses = time.clock_gettime, [1.5, 0, 0, 0, 0, 0, 0, 1.5]

    def read(clock):
        moment = real(clock)
        time.sleep(pauses.pop(0) if pauses else 0)
        return moment
    time.clock_gettime = read
    sleep = machine.Sleep()
    found = [sleep.seconds() for _ in range(3)]
    time.clock_gettime = real
    wanted(found == [0, 0, 0], f'the machine slept for {found} s while it stood still')


def killed():
    """The supervisor is killed, and the daemon goes with it."""
    server = Supervised()
    server.ready()
    server.end(-signal.SIGKILL, signal.SIGKILL)


def interrupted():
    """An interrupt at any moment of the start ends it without a traceback."""
    for number in range(12):
        server = Supervised()
        time.sleep(0.02 * number)
        server.process.send_signal(signal.SIGINT)
        status = server.process.wait(5)
        wanted(status in (0, -signal.SIGINT, 130), f'an interrupt after {20 * number} ms ends it with {status}')
        wanted('Traceback' not in server.read() and 'KeyboardInterrupt' not in server.read(), f'an interrupt after {20 * number} ms: {server.read()}')


def turned():
    """The turns end, again and again: the daemon is started again, and it says why."""
    # (the supervisor's own questions take 200 of them)
    server = Supervised(turns=300)
    first = server.ready()
    until(lambda: server.answers() and server.daemon() not in (None, first), 'the daemon isn\'t started again at its turns\' end', 10)
    known = 'in the trace peer 0 is a', ' after 80 s it asks who leads', 'all turns of the daemon are taken; it is started again'
    wanted(known[2] in server.read() and all(line.endswith(known) for line in server.read().splitlines()), f'it says {server.read()}')
    server.end()


def ended():
    """A daemon that is killed is started again, after a pause."""
    server = Supervised()
    first = server.ready()
    os.kill(first, signal.SIGKILL)
    until(lambda: server.daemon() not in (None, first), 'the daemon isn\'t started again when it was killed')
    wanted('the daemon ended with status 137; the daemon is started again in 2 s' in server.read(), f'it says {server.read()}')
    server.ready()
    server.end()


def told_first():
    """Whoever tells both to end, as systemd may, tells the daemon first: nothing is said of that. A daemon that alone is told to end is started again."""
    server = Supervised()
    os.kill(server.ready(), signal.SIGTERM)
    time.sleep(0.05)
    server.end()
    wanted('ended with status' not in server.read(), f'it says {server.read()}')
    server = Supervised()
    first = server.ready()
    os.kill(first, signal.SIGTERM)
    until(lambda: server.daemon() not in (None, first), 'the daemon isn\'t started again when it was told to end')
    wanted('the daemon ended with status 143; the daemon is started again in 2 s' in server.read(), f'it says {server.read()}')
    server.end()


def replaced():
    """The daemon's program isn't there for a while, and can't be run then, when the daemon has to be started again: it is started once that can be."""
    program, aside = stubborn()[0], Supervised.path('aside')
    server = Supervised('-p', program)
    until(lambda: 'trace on' in server.read(server.out), 'the daemon doesn\'t trace', 10)
    first = server.daemon()
    os.rename(program, aside)
    os.kill(first, signal.SIGKILL)
    until(lambda: 'No such file or directory; the daemon is started again in ' in server.read(), 'it isn\'t told that the program isn\'t there', 10)
    os.rename(aside, program)
    until(lambda: server.daemon() not in (None, first), 'the daemon isn\'t started again when its program is back', 15)
    server.end(within=5)


def learned():
    """The daemon counts with the rate that was learned, and takes a new one when it starts again; a file without a rate, of another counter, that is none, or
    that may be wrong by more than a counter, is told of; `--rate learn` goes on where the hosts file is read again. Of two supervisors only the first one
    keeps what it learns."""
    file = Supervised.path('rate')
    no_rate = 'it has no rate from -1000000 to 1000000, and its error'
    for text, rate, fault in (('', 0, no_rate), ('123456 90\n123456 20\ncounter raw\n', 123456, None), ('1000001 9\n', 0, no_rate),
                              ('123456 90\n', 0, 'it was learned of another counter than the raw one'),
                              ('184727 605132\n184727 100000\ncounter raw\n', 184727, None),
                              ('9 605132\n9 605132\ncounter raw\n', 0, 'it may be wrong by 605.132 parts in a million, more than TSP_DRIFT allows a counter')):
        with open(file, 'w', encoding='ascii') as out:
            out.write(text)
        server = Supervised('--rate', 'learn', TSP_LEARN=file)
        first = server.ready()
        wanted(variable(first, 'TSP_RATE') == str(rate), f'the file has {text!r}, and the daemon has the rate {variable(first, "TSP_RATE")}')
        wanted((f'{file}: {fault}; the rate is 0' in server.read()) == bool(fault), f'it says {server.read()}')
        wanted(('more than TSP_DRIFT, 100 parts in a million' in server.read()) == (rate > 100_000), f'it says {server.read()}')
        if rate:
            server.write_hosts('b 127.0.0.1:1 slave')
            os.rename(file, file + '.1')
            with open(file, 'w', encoding='ascii') as out:
                out.write('-5000 9\ncounter raw\n')
            server.process.send_signal(signal.SIGHUP)
            until(lambda: server.daemon() not in (None, first) and server.answers(), 'the daemon isn\'t started again')
            wanted(variable(server.daemon(), 'TSP_RATE') == '-5000', 'a daemon that starts again doesn\'t take what was learned')
            wanted('the daemon counts 5.000 parts in a million slower than the machine' in server.read(), f'it says {server.read()}')
        server.end()
    one = Supervised('--rate', 'learn', TSP_LEARN=file)
    one.ready()
    pipe = Supervised.path('pipe')
    os.mkfifo(pipe)
    for place, fault in ((file, 'another supervisor keeps what it learns there, so what this one learns isn\'t kept'), (pipe, 'it is no file; the rate is 0')):
        other = Supervised('--rate', 'learn', TSP_LEARN=place)
        other.ready()
        wanted(f'{place}: {fault}' in other.read(), f'it says {other.read()}')
        other.end()
    one.end()


def variable(pid, name):
    """A variable of a process's environment."""
    with open(f'/proc/{pid}/environ', encoding='utf-8') as file:
        return dict(each.split('=', 1) for each in file.read().split('\0') if '=' in each).get(name)


def reloaded():
    """SIGHUP: the daemon goes on if the hosts file has the same words and names for it or is faulty, and else is started again; its trace goes to a
    file that is opened anew."""
    trace = Supervised.path('trace')
    server = Supervised('--output', trace)
    first = server.ready()
    digest = subprocess.run([LAUNCH, '--lint', '-f', server.hosts], stdout=subprocess.PIPE, check=True).stdout.decode('ascii').strip()
    until(lambda: f', by a hosts file with the digest {digest}; ' in server.read(), f'it doesn\'t say the digest {digest}')
    same = f'a hosts file with the digest {digest} was read: the daemon goes on, since it is started with the same arguments'
    for more, text in ((('# nothing',), same), (('b 127.0.0.1:1 leader',), ':2: role \'leader\''),
                       (('b 127.0.0.1:1 slave',), 'the hosts file changed what the daemon is started with')):
        wanted(server.daemon() == first, f'the daemon is another one before {more}')
        server.write_hosts(*more)
        os.rename(trace, trace + '.1')
        server.process.send_signal(signal.SIGHUP)
        until(lambda: text in server.read(), f'it doesn\'t say {text}')
        until(lambda: os.path.exists(trace), 'the trace isn\'t opened anew')
    until(lambda: server.daemon() not in (None, first) and server.answers(), 'the daemon isn\'t started with other words')
    with open(f'/proc/{server.daemon()}/cmdline', encoding='ascii') as file:
        wanted(file.read().split('\0')[-2] == '127.0.0.1:1', 'the daemon is started with other words than those of the file')
    until(lambda: ' trace on\n' in server.read(trace), 'the trace doesn\'t go to its file')
    # (a peer's name is none of the daemon's words)
    second = server.daemon()
    server.write_hosts('c 127.0.0.1:1 slave')
    server.process.send_signal(signal.SIGHUP)
    until(lambda: 'in the trace peer 0 is a, 1 c\n' in server.read(trace), 'another name of a peer isn\'t told')
    until(lambda: server.daemon() not in (None, second) and server.answers(), 'the daemon isn\'t started again with another name of a peer')
    wanted(server.read(server.out) == '', 'the trace goes to standard output too')
    server.end()


def trailed():
    """TSP_TRACE names a file: the trace goes there with its starts, and the supervisor goes on if it can't be written yet. tsp-watch finds it."""
    folder = Supervised.path('log')
    trace = os.path.join(folder, 'trace')
    server = Supervised(stdout=subprocess.DEVNULL, TSP_TRACE=trace, TSP_KEEP='1')
    server.ready()
    wanted(f'{trace}: No such file or directory; the trace is kept once it can be written' in server.read(), f'it says {server.read()}')
    os.mkdir(folder)
    until(lambda: os.path.exists(trace), 'the trace isn\'t kept once it can be', 15)
    os.kill(server.daemon(), signal.SIGKILL)
    until(lambda: server.read(trace).count(' trace on\n') > 0, 'the trace isn\'t written', 10)
    flood(server, 6000, 2000)
    until(lambda: os.path.exists(f'{trace}.000001.gz'), 'the file isn\'t put aside', 10)
    server.end()
    found = subprocess.run([os.path.join(TOOLS, 'tsp-watch'), '--lines'], env={**os.environ, 'TSP_TRACE': trace}, stdout=subprocess.PIPE, check=True).stdout
    turns = [int(line.split()[0]) for line in found.split(b'tsp-launch: in the trace peer 0 is a\n')[-1].splitlines() if b' took ' in line or b' post ' in line]
    wanted(sorted(set(turns)) == list(range(turns[0], turns[-1] + 1)) and len(turns) > 10_000, f'{len(turns)} lines of {turns[-1] - turns[0]} turns are in the files')


def prioritised():
    """The journal reads both streams: each line has its priority, those of the trace the least."""
    with open(Supervised.path('journal'), 'wb+') as file:
        found = os.fstat(file.fileno())
        server = Supervised(stdout=file, stderr=file, JOURNAL_STREAM=f'{found.st_dev}:{found.st_ino}')
        until(lambda: server.daemon() and server.answers(), 'the daemon doesn\'t answer')
        until(lambda: ' trace on\n' in server.read(file.name), 'the daemon doesn\'t trace')
        os.kill(server.daemon(), signal.SIGKILL)
        until(lambda: server.read(file.name).count('runs and answers') > 1, 'the daemon isn\'t started again', 10)
        server.end()
    lines = server.read(file.name).splitlines()
    wanted(all(re.fullmatch('<[3-7]>.+', line) for line in lines), f'lines are {lines[:5]}')
    for level, text in ((7, 'in the trace peer 0 is a'), (7, ' trace on'), (5, ' after 80 s it asks who leads'),
                        (4, 'the daemon ended with status 137; the daemon is started again in 2 s')):
        wanted(any(line.startswith(f'<{level}>') and line.endswith(text) for line in lines), f'no line of priority {level} ends with {text}')


def stubborn():
    """A daemon that traces, notes that it is told to end, and doesn't; and where it notes that."""
    daemon, told = Supervised.path('daemon'), Supervised.path('told')
    with open(daemon, 'w', encoding='ascii') as file:
        file.write(f'#!/bin/sh\ntrap "echo >{told}" TERM\necho 1 0 0 1 trace on\nwhile :; do sleep 0.05; done\n')
    os.chmod(daemon, 0o755)
    return daemon, told


def retold():
    """The hosts file changes what the daemon is started with: systemd is told of the daemon that is started anew, and of the end."""
    with socket.socket(socket.AF_UNIX, socket.SOCK_DGRAM) as heard:
        heard.bind(os.path.join(FOLDER, 'notify'))
        heard.settimeout(10)
        server = Supervised('-p', stubborn()[0], NOTIFY_SOCKET=heard.getsockname())
        messages = [heard.recv(4096)]
        server.write_hosts('b 127.0.0.1:1 slave')
        server.process.send_signal(signal.SIGHUP)
        messages.append(heard.recv(4096))
        server.end(within=5)
        messages.append(heard.recv(4096))
        wanted(messages[0] == messages[1] and messages[2] == b'STOPPING=1', f'systemd is told {messages}')


def hung_up():
    """SIGHUP while the start waits for its moment: the hosts file is read again, and the daemon is started by it."""
    server = Supervised('--spread', '3', '-p', stubborn()[0])
    until(lambda: 'the daemon starts in' in server.read(), 'it doesn\'t wait for its moment')
    server.write_hosts('b 127.0.0.1:1 slave')
    server.process.send_signal(signal.SIGHUP)
    until(lambda: server.read(server.out) and last_word(server.daemon()) == '127.0.0.1:1', 'the daemon isn\'t started with the words of the new file', 15)
    server.end(within=5)


def last_word(pid):
    """The last word that a process was started with; the empty one if there is no process."""
    try:
        with open(f'/proc/{pid}/cmdline', encoding='ascii') as file:
            return file.read().split('\0')[-2]
    except (OSError, IndexError):
        return ''


def told_twice():
    """The hosts file changes, and SIGTERM comes while the old daemon is ended for that: the end comes."""
    daemon, told = stubborn()
    server = Supervised('-p', daemon)
    until(lambda: 'trace on' in server.read(server.out), 'the daemon doesn\'t trace', 10)
    server.write_hosts('b 127.0.0.1:1 slave')
    server.process.send_signal(signal.SIGHUP)
    until(lambda: os.path.exists(told), 'the daemon isn\'t told to end', 10)
    server.end(within=5)


def rotated():
    """logrotate's example: the daemon goes on, and each of its lines is in the old file or in the new one."""
    trace, config = Supervised.path('trace'), Supervised.path('logrotate')
    server = Supervised('--output', trace)
    first = server.ready()
    with open(os.path.join(os.path.dirname(TOOLS), 'daemon', 'tsp.logrotate'), encoding='ascii') as file:
        text = file.read()
    told = 'systemctl kill --signal=HUP --kill-who=main tsp.service'
    wanted(text.count('/var/log/tsp/daily {') == 1 and text.count(told) == 1, 'logrotate\'s example is another one')
    with open(config, 'w', encoding='ascii') as file:
        file.write(text.replace('/var/log/tsp/daily {', f'{trace} {{').replace(told, f'kill -HUP {server.process.pid}'))
    for number in (1, 2):
        wanted(flood(server, 200, 2000) == 200, 'questions stay unanswered')
        server.link.setblocking(True)
        time.sleep(0.2)
        subprocess.run(['logrotate', '--force', '--state', Supervised.path('state'), config], check=True)
        until(lambda: os.path.exists(trace), 'the trace isn\'t opened anew')
        until(lambda number=number: server.read().count('the daemon goes on') == number, f'it says {server.read()}')
    wanted(flood(server, 200, 2000) == 200, 'questions stay unanswered')
    wanted(server.daemon() == first, 'the daemon is another one')
    server.end()
    text = b''.join(subprocess.run(['zcat', '-f', trace + end], stdout=subprocess.PIPE, check=True).stdout for end in ('.2.gz', '.1', ''))
    turns = sorted({int(line.split()[0]) for line in text.splitlines() if b' request 1 2' in line})
    wanted(len(turns) >= 600 and all(b' ' in line for line in text.splitlines()), f'{len(turns)} of 600 questions are in the files')


def pageless():
    """If there is no place for a page, and none is named, the log says so, and the daemon answers all the same."""
    server = Supervised(TSP_CLOCK='')
    server.ready()
    line = f'programs can\'t read the time: there is no page, since {os.path.dirname(tsp_clock.PATH)} isn\'t there, and TSP_CLOCK names none'
    wanted(server.read().count(line) == 1, f'it says {server.read()}')
    wanted(flood(server, 10, 100) == 10, 'questions stay unanswered')
    server.end()


def rated():
    """The page of a daemon whose counter has a rate gives what the daemon answers, and by its trace to the microsecond; without the rate it doesn't."""
    for rate in (1_000_000, -700_001, 0):
        server = Supervised(TSP_RATE=str(rate))
        server.ready()
        clock = tsp_clock.Clock(server.path('clock'))
        until(lambda: clock.now().status == tsp_clock.WAITING, 'the page isn\'t written')
        daemon = clock.read()[0].daemon
        wanted(daemon.rate == rate, f'the page has the rate {daemon.rate}')
        begun, misses = time.monotonic(), 0
        while time.monotonic() < begun + 1:
            sent = time.clock_gettime_ns(daemon.counter)
            server.link.sendto(REQUEST, server.address)
            reading, got = int.from_bytes(server.link.recv(512)[20:], 'big'), time.clock_gettime_ns(daemon.counter)
            misses += not within(daemon._replace(rate=0), sent, reading, got)
            wanted(within(daemon, sent, reading, got), f'the daemon answers {reading}, and the page {[daemon.target_at(daemon.tick_at(now)) for now in (sent, got)]}')
            time.sleep(0.005)
        wanted(bool(misses) == bool(rate), f'without the rate {rate} the page is {misses} times another one')
        server.end()
        told = re.findall(r'^[0-9]+ 0 0 ([0-9]+) post [0-9]+ - reply [0-9]+ 1 2 ([0-9]+)$', server.read(server.out), re.MULTILINE)
        wanted(len(told) > 50 and all(daemon.target_at(int(tick)) == int(reading) for tick, reading in told), 'the page is another one than the trace')


def within(daemon, sent, reading, got):
    """Whether a reading lies between what a page gives before and after it."""
    low, high = (daemon.target_at(daemon.tick_at(now)) for now in (sent, got))
    return low <= reading <= high


def gone():
    """Its address is taken from the machine. The daemon goes on if the address is back within the grace, as a cable is; else it ends, and is started again
    when the address is back. Without a grace it ends at once. (in a network namespace)"""
    def address(what):
        subprocess.run(['ip', 'address', what, '192.0.2.5/32', 'dev', 'lo'], check=True)

    def comes_back(server, first, line):
        # (it ends the daemon first, and then says why)
        until(lambda: line in server.read(), 'the supervisor says nothing of the address')
        address('add')
        until(lambda: server.daemon() not in (None, first) and server.answers(), 'the daemon isn\'t started again when its address is back')
        server.end()

    subprocess.run(['ip', 'link', 'set', 'lo', 'up'], check=True)
    address('add')
    server = Supervised(address='192.0.2.5', TSP_GONE='3')
    first = server.ready()
    address('del')
    until(lambda: 'the daemon goes on, and ends if that lasts for 3 s\n' in server.read(), 'the supervisor says nothing')
    wanted(not server.answers() and is_there(first), 'the daemon ends at once, or answers by an address that is gone')
    address('add')
    until(lambda: 'is an address of this machine again, after ' in server.read(), 'the supervisor doesn\'t see the address again')
    wanted(server.answers() and server.daemon() == first, 'the daemon didn\'t go on')
    begun = time.monotonic()
    address('del')
    until(lambda: server.daemon() is None, 'the daemon goes on without its address', 7)
    wanted(time.monotonic() > begun + 3, f'the daemon ends after {time.monotonic() - begun:.1f} s')
    time.sleep(1)
    wanted(server.daemon() is None and server.process.poll() is None, 'it doesn\'t wait for the address')
    comes_back(server, first, '192.0.2.5 is no address of this machine any more, and hasn\'t been for ')
    server = Supervised(address='192.0.2.5', TSP_GONE='0')
    first = server.ready()
    address('del')
    until(lambda: server.daemon() is None, 'the daemon goes on without its address, and without a grace', 3)
    comes_back(server, first, '192.0.2.5 is no address of this machine any more; the daemon is started again when it is')


def away():
    """No name server answers at the start: it is asked on. (in a network namespace)"""
    asked, tools = Supervised.path('asked'), Supervised.path('bin')
    os.mkdir(tools)
    with open(os.path.join(tools, 'getent'), 'w', encoding='ascii') as file:
        file.write(f'#!/bin/sh\necho >>{asked}\n[ "$(wc -l <{asked})" -lt 3 ] || echo "127.0.0.1 STREAM x"\n')
    os.chmod(os.path.join(tools, 'getent'), 0o755)
    subprocess.run(['ip', 'link', 'set', 'lo', 'up'], check=True)
    server = Supervised(address='late.example', PATH=f'{tools}:{os.environ["PATH"]}')
    server.address = '127.0.0.1', server.address[1]
    server.ready()
    text = server.read()
    wanted(all(f'no name server answers for late.example; it is asked again in {pause} s' in text for pause in (1, 2)), f'it says {text}')
    server.end()


def main():
    for case in sys.argv[3:]:
        begun = time.monotonic()
        globals()[case]()
        print(f'{case} {time.monotonic() - begun:.1f} s', flush=True)


main()
