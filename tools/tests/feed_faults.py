"""Tries what tsp-feed does at each fault, with made pages and a socket in the place of chronyd's: `feed_faults.py FOLDER`."""
import os
import socket
import struct
import subprocess
import sys
import threading
import time

sys.dont_write_bytecode = True
HERE = os.path.dirname(os.path.realpath(__file__))
sys.path.insert(0, os.path.dirname(HERE))
sys.path.insert(0, HERE)

import made_page  # noqa: E402
import tsp_clock  # noqa: E402
from tsp_daemon import feed  # noqa: E402

# A test waits for a line so many seconds.
PATIENCE = 30
BILLION = 10 ** 9
SAMPLE = struct.Struct('@qqdiiii')


def wanted(is_so, text):
    """Ends with a text where something isn't so."""
    if not is_so:
        sys.exit(text)


class Chronyd:
    """A socket as chronyd has it, and the samples that came."""

    def __init__(self, path):
        self.path, self.link, self.samples = path, None, []
        self.start()

    def start(self):
        """Makes the socket anew."""
        if os.path.exists(self.path):
            os.unlink(self.path)
        self.link = socket.socket(socket.AF_UNIX, socket.SOCK_DGRAM)
        self.link.bind(self.path)
        self.link.settimeout(0.1)

    def stop(self):
        """Lets nobody listen. The path stays, as after a crash."""
        self.link.close()

    def hear(self, seconds):
        """The samples that come in so many seconds: by how many seconds each was ahead."""
        until, heard = time.monotonic() + seconds, []
        while time.monotonic() < until:
            try:
                octets = self.link.recv(1000)
            except socket.timeout:
                continue
            whole, parts, ahead, pulse, leap, _, magic = SAMPLE.unpack(octets)
            wanted(len(octets) == 40 and (pulse, leap, magic) == (0, 0, 0x534f434b), f'a sample is {octets}')
            wanted(abs(whole + parts / 1e6 - time.time()) < PATIENCE and 0 <= parts < 10 ** 6, f'a sample is of {whole}.{parts:06}')
            heard.append(ahead)
        return heard


class Running:
    """A tsp-feed that runs, and the lines that it wrote."""

    def __init__(self, page, path):
        environment = dict(os.environ, TSP_CLOCK=page)
        command = [os.path.join(HERE, '..', 'tsp-feed'), '--asked', '--socket', path]
        self.process = subprocess.Popen(command, env=environment, stdout=subprocess.DEVNULL, stderr=subprocess.PIPE)
        self.lines = []
        self.thread = threading.Thread(target=self.read, daemon=True)
        self.thread.start()

    def read(self):
        """Takes the lines."""
        for line in self.process.stderr:
            self.lines.append(line.decode().strip())

    def says(self, *texts):
        """Wants these lines next, and no others; the start of each will do."""
        until = time.monotonic() + PATIENCE
        while len(self.lines) < len(texts) and time.monotonic() < until:
            time.sleep(0.05)
        said, self.lines = self.lines, []
        fits = len(said) == len(texts) and all(line.startswith(f'tsp-feed: {text}') for line, text in zip(said, texts))
        wanted(fits, f'it says {said}, and not {list(texts)}')

    def end(self):
        """Ends it, if it runs."""
        self.process.kill()
        self.process.wait()


def following(ahead, looked=0, **more):
    """The page of a host that follows a master whose clock is so many microseconds ahead of this machine's, which it looked at so many later."""
    page = made_page.following(time.time_ns() // 1000 + ahead)
    return tsp_clock.Page(page.daemon._replace(**more), page.look._replace(looked=page.look.looked + looked, drift=0))


def processes(folder):
    """The faults that a process sees: its pages, and chronyd's socket."""
    page, path = os.path.join(folder, 'page'), os.path.join(folder, 'socket')
    chronyd = Chronyd(path)
    run = Running(page, path)
    try:
        tried(page, path, chronyd, run)
    finally:
        run.end()


def tried(page, path, chronyd, run):
    """The same, one after the other."""
    run.says(f'there is no page of the network\'s time at {page}: nothing is sent')
    made_page.write(page, made_page.Page())
    run.says('nobody writes the page: nothing is sent')
    made_page.main(page, '1', 0)
    run.says('the daemon waits for a master and its correction: nothing is sent')
    wanted(chronyd.hear(1.2) == [], 'a page without a master gives samples')
    first = following(3000)
    made_page.change(page, look=first.look)
    made_page.change(page, daemon=first.daemon)
    run.says('b leads: samples are sent', 'the daemon counts by no learned rate yet')
    # One sample a look, and the next one with the next look.
    heard = chronyd.hear(3.2)
    wanted(len(heard) == 1 and abs(heard[0] - 0.003) < 0.0005, f'of one look there are the samples {heard}')
    made_page.change(page, look=first.look._replace(looked=first.look.looked + 1, low=500, high=700))
    heard = chronyd.hear(2.2)
    wanted(len(heard) == 1 and abs(heard[0] - 0.0036) < 0.0005, f'of a second look there are the samples {heard}')
    # A look that is wider than 1.5 times the best of the last eight is left out.
    made_page.change(page, look=first.look._replace(looked=first.look.looked + 2, low=-152, high=152))
    wanted(chronyd.hear(2.2) == [], 'a wide look is sent')
    # chronyd starts again: a new socket at the old path.
    chronyd.stop()
    made_page.change(page, look=first.look._replace(looked=first.look.looked + 3, low=-50, high=50))
    run.says(f'{path}: Connection refused; no sample is taken, and each next one is tried')
    chronyd.start()
    made_page.change(page, look=first.look._replace(looked=first.look.looked + 4, low=-50, high=50))
    run.says(f'{path}: samples are taken again')
    wanted(len(chronyd.hear(1.2)) == 1, 'a new socket gets no sample')
    # The network's clock steps, the master goes, another one comes, and the daemon starts again.
    made_page.change(page, daemon=first.daemon._replace(steps=2))
    run.says('the network\'s clock stepped')
    made_page.change(page, daemon=first.daemon._replace(steps=2, role=tsp_clock.NOBODY, master=0))
    run.says('the master is gone: nothing is sent until another one is followed')
    made_page.change(page, look=first.look._replace(looked=first.look.looked + 5))
    wanted(chronyd.hear(1.5) == [], 'without a master samples are sent')
    # (both halves are written within a second of the feed's, but for chance)
    made_page.change(page, look=first.look._replace(looked=first.look.looked + 6, name=b'c'))
    made_page.change(page, daemon=first.daemon._replace(steps=2))
    run.says('c leads: samples are sent')
    wanted(len(chronyd.hear(1.5)) == 1, 'another master\'s look isn\'t sent')
    made_page.change(page, daemon=made_page.counting(time.time_ns() // 1000)._replace(life=2))
    run.says('the daemon started again', 'the daemon waits for a master and its correction')
    made_page.change(page, daemon=made_page.leading(time.time_ns() // 1000 - 7000).daemon._replace(life=2))
    run.says('a host without a name leads: samples are sent')
    heard = chronyd.hear(1)
    wanted(all(abs(ahead + 0.007) < 0.0005 for ahead in heard), f'a host that leads sends {heard}')
    # A daemon that counts by the clock that chronyd slews.
    counting = made_page.leading(time.time_ns() // 1000).daemon
    made_page.change(page, daemon=counting._replace(counter=tsp_clock.MONOTONIC, origin=time.monotonic_ns()))
    wanted(run.process.wait(PATIENCE) == 7, f'a counter that is slewed ends with status {run.process.returncode}')
    run.thread.join(PATIENCE)
    run.says('the daemon counts by CLOCK_MONOTONIC, which chronyd slews: both would run away together')


def moments():
    """The faults of this machine's clocks, which a test doesn't set: by moments that are made."""
    lines = []
    told = feed.Feed(lines.append)
    page = following(0, rate=5)
    now, real = page.daemon.origin, 1_800_000_000 * BILLION
    wanted(told.sample(feed.Moment(page, now, real)) and lines == ['b leads: samples are sent'], f'it says {lines}')
    # chronyd slews a second by a twelfth of it: no step.
    told.sample(feed.Moment(page, now + BILLION, real + BILLION + BILLION // 12))
    wanted(len(lines) == 1, f'of a slew it says {lines}')
    told.sample(feed.Moment(page, now + 2 * BILLION, real + 12 * BILLION))
    text = 'somebody, or chronyd in its first updates, stepped this machine\'s clock by +9.917 s: samples go on'
    wanted(lines[1:] == [text], f'of a step it says {lines}')
    told.sample(feed.Moment(page, now + 3 * BILLION, real + 13 * BILLION))
    told.sample(feed.Moment(page, now + 4 * BILLION, real + 134 * BILLION, 120 * BILLION))
    wanted(lines[2:] == ['the machine slept for 120 s: nothing is sent until the daemon was started again and corrected'], f'of a sleep it says {lines}')
    # After a step of this machine's clock the next look's sample says by how much it is off.
    again = tsp_clock.Page(page.daemon, page.look._replace(looked=page.look.looked + 1))
    octets = told.sample(feed.Moment(again, now + 5 * BILLION, page.daemon.target * 1000 + 15 * BILLION))
    wanted(octets and abs(SAMPLE.unpack(octets)[2] + 10) < 0.001, f'after a step a sample is {octets and SAMPLE.unpack(octets)}')


def main(folder):
    moments()
    processes(folder)


main(sys.argv[1])
