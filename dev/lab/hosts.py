"""Hosts on networks of this machine's own, with daemons whose time runs fast.

A lab's hosts stand in network namespaces, and a bridge carries what they send; or, where namespaces aren't to be had,
they are ports of the loopback, and nothing is late, lost or captured.
"""
import os
import signal
import subprocess
import sys
import time
from fractions import Fraction

from lab import fast

HERE = os.path.dirname(os.path.realpath(__file__))
MILLION, BILLION = 10**6, 10**9
# A wall clock's microseconds at which the words of daemons that start soon after make them wait little more than 300 s.
START = 1_800_000_005_000_000
PORT = 525
ROLES = {'m': 'master', 'x': 'strict', 's': 'slave'}
ASKER = 'asker'


class Failed(Exception):
    """The run isn't as it should be."""
    status = 1


class Unlike(Failed):
    """What the daemons did isn't what the rules say, or that isn't found which was spoiled."""
    status = 3


class Daemon:
    """A host: its name, whether it may be master, how many microseconds its wall clock is ahead, and by how many parts in a million
    its clock is fast; its daemon counts faster than that by `rate` parts in 10^9; `step` says when the wall clock is set, and by how much; `slew` by how many parts in a million
    its clocks but the raw one are slewed, from when on and how long, in nanoseconds; `addresses` are those that it has, by network."""

    def __init__(self, name, role, ahead=0, drift=0, spoils=None, rate=0):
        self.name, self.role, self.ahead, self.drift, self.spoils, self.rate = name, role, ahead, drift, spoils, rate
        self.step, self.slew, self.addresses, self.local = (0, 0), (0, 0, 0), {}, None
        self.process, self.trace = None, []

    @property
    def fast(self):
        """By how many parts in a million its daemon's counter is fast."""
        rate = Fraction(self.rate, BILLION)
        return self.drift + (MILLION + self.drift) * rate

    @property
    def address(self):
        """The address at which it is asked."""
        return next(iter(self.addresses.values()))


class Lab:
    """What both sorts of lab have in common. `nets` are the daemons of each network, `rate` says how fast time runs, `folder` is where
    the traces go."""

    has_bridge = False

    def __init__(self, nets, program, library, rate, folder):
        self.nets, self.program, self.library, self.rate, self.folder = nets, program, library, rate, folder
        self.begun = time.monotonic_ns()
        self.daemons = list(dict.fromkeys(daemon for net in nets for daemon in net))
        self.starts = 0

    def seconds(self):
        """The seconds of fast time since the lab began."""
        return (time.monotonic_ns() - self.begun) * self.rate / 1e9

    def sleep(self, seconds):
        """Waits for so many seconds of fast time."""
        time.sleep(seconds / self.rate)

    def environment(self, ahead, **more):
        """The environment of a program in fast time, whose wall clock is so many microseconds ahead."""
        return fast.environment(self.library, self.begun, self.rate, START + ahead, **more)

    def peers(self, daemon):
        """The words of `serve` for a daemon's peers."""
        words = []
        for port, number in enumerate(daemon.addresses):
            words += ['+'] if port else []
            words += [other.addresses[number] for other in self.nets[number] if other is not daemon]
        return words

    def start(self, daemon):
        """Starts a host's daemon, lets it trace, and reads its clock, so that the trace tells it."""
        words = self.at(daemon.name) + [self.program, 'serve', daemon.local, daemon.name, daemon.role, '1000000000', *self.peers(daemon)]
        self.starts += 1
        path = os.path.join(self.folder, f'{daemon.name}-{self.starts}.trace')
        at, step = daemon.step
        environment = self.environment(daemon.ahead, drift=daemon.drift, hold=1, spoil=daemon.spoils, at=at * 1000, step=step * 1000)
        environment['TSP_RATE'] = str(daemon.rate)
        with open(path, 'wb') as trace:
            daemon.process = subprocess.Popen(words, stdout=trace, stderr=subprocess.DEVNULL, env=environment)
        daemon.trace.append(path)
        self.ask('trace', daemon.address, 'on')
        self.ask('clockdiff', daemon.address)

    @staticmethod
    def stop(daemon, by=signal.SIGTERM):
        """Tells a host's daemon to end, and wants it to end by that."""
        daemon.process.send_signal(by)
        status = daemon.process.wait(5)
        daemon.process = None
        if status != -by:
            raise Failed(f'{daemon.name}: signal {by} ends it with {status}')

    def ask(self, *words, tries=8, wanted=True):
        """Asks a daemon, again where the question or its answer was lost, and gives the words of the answer; None where there is none
        and none is wanted."""
        for _ in range(tries):
            ran = subprocess.run(
                self.at(ASKER) + [self.program, *words], stdout=subprocess.PIPE, stderr=subprocess.DEVNULL, env=self.environment(0), check=False
            )
            if ran.returncode == 0:
                return ran.stdout.decode('ascii').split()
        if wanted:
            raise Failed(f'{" ".join(words)}: status {ran.returncode}')
        return None

    def acts(self, daemon):
        """The acts of a host's daemon, over all its starts: each as its words."""
        found = []
        for path in daemon.trace:
            with open(path, encoding='ascii') as lines:
                found += [line.split()[4:] for line in lines if line.endswith('\n')]
        return found

    def write_hosts(self):
        """Writes the hosts file of the lab, and gives its path."""
        path = os.path.join(self.folder, 'hosts')
        with open(path, 'w', encoding='ascii') as file:
            for number, net in enumerate(self.nets):
                file.write('+\n' if number else '')
                file.writelines(f'{daemon.name} {daemon.addresses[number]} {ROLES[daemon.role]}\n' for daemon in net)
        return path

    def tell(self, *lines):
        """Tells the bridge what to do from now on, where there is one."""

    @staticmethod
    def cables(_):
        """The bridge's interfaces to a host."""
        return []

    @staticmethod
    def frames():
        """How many frames the bridge carried, lost, carried twice and changed, once the lab is closed."""
        return {}

    def close(self):
        """Ends what was started."""
        for daemon in self.daemons:
            if daemon.process:
                daemon.process.kill()
                daemon.process.wait()
                daemon.process = None


class Loopback(Lab):
    """Hosts that are ports of the loopback."""

    def __init__(self, nets, *rest):
        super().__init__(nets, *rest)
        for daemon, port in zip(self.daemons, fast.free_ports(len(self.daemons))):
            daemon.local = f'127.0.0.1:{port}'
            daemon.addresses = {number: daemon.local for number, net in enumerate(nets) if daemon in net}

    @staticmethod
    def at(_):
        """Nothing stands before a program that runs at a host."""
        return []


class Namespaces(Lab):
    """Hosts in network namespaces, joined by a bridge. `capture` says whether what it carries is kept."""
    is_mounted, has_bridge = False, True

    def __init__(self, nets, *rest, seed=525, capture=True):
        super().__init__(nets, *rest)
        self.capture = os.path.join(self.folder, 'network.pcap')
        self.ends, self.known = [], set()
        self.mount()
        for number, net in enumerate(nets):
            for place, name in enumerate([*(daemon.name for daemon in net), ASKER], 1):
                self.wire(number, place, name)
            for place, daemon in enumerate(net, 1):
                daemon.addresses[number] = f'10.9.{number}.{place}:{PORT}'
        for daemon in self.daemons:
            daemon.local = daemon.address if len(daemon.addresses) == 1 else f'0.0.0.0:{PORT}'
        words = [sys.executable, os.path.join(HERE, 'bridge.py'), self.capture if capture else '-', str(seed), *self.ends]
        self.bridge = subprocess.Popen(words, stdin=subprocess.PIPE, stdout=subprocess.PIPE)
        self.bridge.stdout.readline()
        self.carried = self.lost = self.doubled = self.spoiled = 0

    @classmethod
    def mount(cls):
        """A place for the names of namespaces."""
        if not cls.is_mounted:
            run('mount', '-t', 'tmpfs', 'none', '/run')
            os.mkdir('/run/netns')
            # (processes have numbers of their own here; where that view isn't to be had, what they take isn't told)
            subprocess.run(['mount', '-t', 'proc', 'none', '/proc'], stderr=subprocess.DEVNULL, check=False)
            cls.is_mounted = True

    def wire(self, number, place, name):
        """A host with its cable to the bridge."""
        if name not in self.known:
            run('ip', 'netns', 'add', name)
            run('ip', '-n', name, 'link', 'set', 'lo', 'up')
            self.known.add(name)
        end, here = f'to{number}-{name}', f'eth{number}'
        run('ip', 'link', 'add', end, 'type', 'veth', 'peer', 'name', here, 'netns', name)
        run('ip', 'link', 'set', end, 'up')
        run('ip', '-n', name, 'addr', 'add', f'10.9.{number}.{place}/24', 'dev', here)
        run('ip', '-n', name, 'link', 'set', here, 'up')
        self.ends.append(f'{number}/{end}')

    @staticmethod
    def at(name):
        """What stands before a program that runs at a host."""
        return ['ip', 'netns', 'exec', name]

    def tell(self, *lines):
        """Tells the bridge what to do from now on."""
        self.bridge.stdin.write(''.join(f'{line}\n' for line in lines).encode('ascii'))
        self.bridge.stdin.flush()

    def cables(self, daemon):
        """The bridge's interfaces to a host."""
        return [f'to{number}-{daemon.name}' for number in daemon.addresses]

    def frames(self):
        """How many frames the bridge carried, lost, carried twice and changed, once the lab is closed."""
        return {'carried': self.carried, 'lost': self.lost, 'doubled': self.doubled, 'changed': self.spoiled}

    def close(self):
        """Ends what was started; the bridge says what it carried and lost."""
        super().close()
        if self.bridge:
            self.bridge.terminate()
            told = self.bridge.communicate(timeout=5)[0].split()
            self.carried, self.lost, self.doubled, self.spoiled = map(int, told)
            self.bridge = None
            for end in self.ends:
                run('ip', 'link', 'del', end.partition('/')[2])
            for name in self.known:
                run('ip', 'netns', 'del', name)


def run(*words):
    """Runs a command of the system that is to end well."""
    ran = subprocess.run(words, stderr=subprocess.PIPE, check=False)
    if ran.returncode:
        raise OSError(f'{" ".join(words)}: {ran.stderr.decode(errors="replace").strip()}')
