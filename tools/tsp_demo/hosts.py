"""Three hosts on the loopback, each with a daemon and its supervisor, whose time runs fast and whose clocks differ."""
import os
import signal
import subprocess
import time
from typing import NamedTuple, Optional

import tsp_clock
from tsp_daemon import child, sockets
from tsp_daemon.hosts import LAUNCH
from tsp_texts.library import fast

MILLION = 1_000_000
# What a host's wall clock shows when fast time begins, in microseconds since 1970, and by how many parts in a million counters are wrong at most.
START, DRIFT = 1_800_000_000 * MILLION, 50
# Each host's name and role, by how many microseconds its wall clock is ahead, and by how many parts in a million its counter is fast.
HOSTS = (('ada', 'master', 0, 0), ('bea', 'master', 2_300_000, 40), ('cyd', 'slave', -1_700_000, -35))
PATIENCE = 1


class Seen(NamedTuple):
    """What is seen of a host at a moment: what its page gives, its clock, by how much that was corrected so far, how often it was stepped, and in
    microseconds of fast time when it was corrected last, and when its master was looked at last."""
    now: tsp_clock.Now
    target: int
    moved: int
    steps: int
    corrected: float
    looked: float


class Host:
    """A host. `process` is its supervisor's while it runs."""

    def __init__(self, name, role, ahead, drift, port, folder):
        self.name, self.role, self.ahead, self.drift, self.address = name, role, ahead, drift, f'127.0.0.1:{port}'
        self.page, self.process, self.clock = os.path.join(folder, f'{name}.page'), None, None

    def read(self):
        """Its page, if it runs and has written one, or None."""
        try:
            self.clock = self.clock or tsp_clock.Clock(self.page)
            found = self.clock.read() if self.process else None
        except OSError:
            return None
        return found[0] if found and found[0].daemon.life else None

    def seen(self, page, begun, passed):
        """What is seen of it by a page, when so many nanoseconds of fast time have passed."""
        own, (daemon, look) = begun + passed + passed * self.drift // MILLION, page
        tick = daemon.tick_at(own)

        def shared(at):
            """The fast time of a tick, in microseconds."""
            return passed / 1000 - (tick - at) * MILLION / (MILLION + self.drift)
        return Seen(tsp_clock.now_of(page, own), daemon.target_at(tick), daemon.moved, daemon.steps, shared(daemon.tick),
                    shared(look.looked) if look.is_of(daemon, tick) else 0)


class Network:
    """The hosts, whose time runs `speed` times as fast. `library` is what makes it run so."""

    def __init__(self, program, library, speed, folder):
        self.program, self.library, self.speed, self.folder = program, library, speed, folder
        # (in whole microseconds, in which daemons count)
        self.begun = time.monotonic_ns() // 1000 * 1000
        ports = sockets.free_ports(len(HOSTS))
        self.hosts = [Host(*host, port, folder) for host, port in zip(HOSTS, ports)]
        self.file = os.path.join(folder, 'hosts')
        with open(self.file, 'w', encoding='ascii') as file:
            file.writelines(f'{host.name} {host.address} {host.role}\n' for host in self.hosts)

    def seconds(self):
        """The seconds of fast time so far."""
        return (time.monotonic_ns() - self.begun) * self.speed / 1e9

    def look(self):
        """What is seen of each host at one moment; None of one that doesn't run, or hasn't written a page yet."""
        pages = [(host, host.read()) for host in self.hosts]
        passed = (time.monotonic_ns() - self.begun) * self.speed
        return {host: page and host.seen(page, self.begun, passed) for host, page in pages}

    def start(self, host):
        """Starts a host."""
        environment = fast(self.library, self.begun, self.speed, START + host.ahead, drift=host.drift)
        environment.update(TSP_CLOCK=host.page, TSP_DRIFT=str(DRIFT), TSP_SPREAD='0', TSP_RATE='0', TSP_PROGRAM=self.program)
        with open(os.path.join(self.folder, f'{host.name}.log'), 'wb') as log:
            host.process = child.begin([LAUNCH, '-f', self.file, '-s', host.name, '--supervise'], stdin=subprocess.DEVNULL, stdout=log, stderr=log, env=environment)

    @staticmethod
    def kill(host):
        """Kills a host's supervisor, with which its daemon ends."""
        host.process.send_signal(signal.SIGKILL)
        host.process.wait(PATIENCE)
        host.process = None

    def ended(self) -> Optional[Host]:
        """A host that ended by itself, if there is one."""
        return next((host for host in self.hosts if host.process and host.process.poll() is not None), None)

    def said(self, host):
        """The last line that a host's supervisor said."""
        with open(os.path.join(self.folder, f'{host.name}.log'), encoding='utf-8', errors='replace') as log:
            return ([line.strip() for line in log if line.strip()] or ['nothing'])[-1]

    def end(self):
        """Ends all of them."""
        for host in self.hosts:
            if host.process:
                self.kill(host)
