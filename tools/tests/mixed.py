#!/usr/bin/env python3
"""Daemons of two versions on one network, in fast time: `mixed.py PROGRAM OTHER FOLDER`. Two hosts run each of them. What isn't as it should be is said,
with status 1."""
import os
import signal
import subprocess
import sys
import time

HERE = os.path.dirname(os.path.realpath(__file__))
TOOLS = os.path.dirname(HERE)
DEV = os.path.join(os.path.dirname(TOOLS), 'dev')
sys.dont_write_bytecode = True
sys.path[:0] = TOOLS, DEV
from lab import preload  # noqa: E402
from lab.hosts import Daemon, Loopback  # noqa: E402

PROGRAM, OTHER, FOLDER = sys.argv[1:4]
RATE, MOST = 20, 300
NEW, OLD = ('a', 'b'), ('c', 'd')
# The hosts' wall clocks are so many microseconds apart, so that one stands after the other.
APART = 10_000_000


class Mixed(Loopback):
    """A lab whose hosts run the program that each has."""

    def start(self, daemon):
        """Starts a host's daemon by its own program."""
        own, self.program = self.program, daemon.program
        super().start(daemon)
        self.program = own


def run(lab, program, *words):
    """What a question by this version's program says. It is asked again where it came too late, as on a busy machine in fast time."""
    for _ in range(8):
        ran = subprocess.run([program, *words], stdout=subprocess.PIPE, stderr=subprocess.STDOUT, env=lab.environment(0), check=False)
        if ran.returncode == 0:
            break
    return ran.stdout.decode().strip()


class Network:
    """Four hosts, two of each version."""

    def __init__(self, library):
        self.hosts = [Daemon(name, 'm', APART * number) for number, name in enumerate(NEW + OLD)]
        for daemon in self.hosts:
            daemon.program = PROGRAM if daemon.name in NEW else OTHER
        self.lab = Mixed([self.hosts], PROGRAM, library, RATE, FOLDER)
        self.began = time.monotonic()

    def leader(self):
        """The host that all name, or None."""
        named = {tuple(self.lab.ask('msite', daemon.address)) for daemon in self.hosts if daemon.process}
        return next((daemon for daemon in self.hosts if daemon.process and named == {('master', daemon.name)}), None)

    @staticmethod
    def wants(is_so, text):
        """Wants something."""
        if not is_so:
            raise AssertionError(text)

    def until(self, what, holds):
        """Waits until this holds."""
        while not holds():
            self.wants(time.monotonic() - self.began < MOST, f'{what}: not within {MOST} s')
            time.sleep(0.1)
        print(f'{what}, {self.lab.seconds():.0f} s after the start', file=sys.stderr, flush=True)

    def elected(self, names):
        """Wants that one of these comes to lead, and that all of both versions follow; and a round, in which the others are measured and corrected."""
        self.until('all follow one', lambda: self.leader() is not None)
        lead = self.leader()
        self.wants(lead.name in names, f'{lead.name} leads, and one of {names} is wanted')
        self.until('a round ends', lambda: ['close', str(self.alive())] in [act[:2] for act in self.lab.acts(lead)])
        self.until('corrections are taken', lambda: all(self.corrected(daemon) for daemon in self.hosts if daemon.process and daemon is not lead))
        return lead

    def alive(self):
        """How many hosts run."""
        return sum(daemon.process is not None for daemon in self.hosts)

    def corrected(self, daemon):
        """Whether a host's daemon took a correction of a round."""
        return any(act[0] == 'took' and act[2:3] == ['adjtime'] for act in self.lab.acts(daemon))

    def asked(self, lead):
        """Questions of each version to each version have an answer."""
        for program in PROGRAM, OTHER:
            for daemon in self.hosts:
                if daemon.process:
                    said = run(self.lab, program, 'msite', daemon.address)
                    self.wants(said == f'master {lead.name}', f'of {lead.name} {daemon.name} says: {said}')
                    self.wants(run(self.lab, program, 'clockdiff', daemon.address).startswith('clockdiff '), f'{daemon.name} tells no clock')
        for program, daemon in (PROGRAM, self.hosts[3]), (OTHER, self.hosts[0]):
            if daemon.process:
                said = run(self.lab, program, 'date', daemon.address, str(1_800_000_500_000_000))
                self.wants('date' in said, f'{daemon.name} takes no date: {said}')

    def kill(self, daemon):
        """A host dies."""
        daemon.process.send_signal(signal.SIGKILL)
        daemon.process.wait()
        daemon.process = None

    def whole(self):
        """Elections in which each version leads, since each leader is killed in its turn, and comes back."""
        for daemon in self.hosts:
            self.lab.start(daemon)
        first = self.elected(NEW + OLD)
        self.asked(first)
        self.kill(first)
        other = OLD if first.name in NEW else NEW
        # (the one that is of the first's version may not stand)
        for daemon in self.hosts:
            if daemon.process and daemon.name not in other:
                self.kill(daemon)
        second = self.elected(other)
        for daemon in self.hosts:
            if not daemon.process:
                self.lab.start(daemon)
        self.until('those of the other version follow', lambda: self.leader() is second)
        self.until('they are corrected', lambda: all(self.corrected(daemon) for daemon in self.hosts if daemon is not second))
        self.asked(second)
        print(f'{first.name} led four, then {second.name}')


def main():
    library = preload.made('tsp_fast', FOLDER)
    if library is None:
        sys.exit('mixed: there is no cc')
    network = Network(library)
    try:
        network.whole()
    except Exception as fault:
        sys.exit(f'mixed: {fault}')
    finally:
        for daemon in network.hosts:
            if daemon.process:
                daemon.process.kill()


main()
