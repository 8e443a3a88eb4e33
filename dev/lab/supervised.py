"""Hosts whose daemons run under tsp-launch, in fast time, so that programs read a page at each."""
import os
import signal
import subprocess
import sys
import time

from lab import process
from lab.hosts import Failed, Namespaces

TOOLS = os.path.join(os.path.dirname(os.path.dirname(os.path.dirname(os.path.realpath(__file__)))), 'tools')
LAUNCH = os.path.join(TOOLS, 'tsp-launch')
sys.path.insert(0, TOOLS)
import tsp_clock  # noqa: E402


class Supervised(Namespaces):
    """Hosts whose daemons run under tsp-launch, which writes a page for each. `drift` is what readers are told of all clocks, `counter` the clock that
    daemons count by, as TSP_COUNTER has it; `learns` says whether supervisors learn its rate."""

    def __init__(self, drift, *rest, counter='raw', learns=False, **more):
        super().__init__(*rest, **more)
        self.drift, self.counter, self.learns, self.began = drift, counter, learns, {}
        # (in whole microseconds, in which daemons count)
        self.begun -= self.begun % 1000
        # (the daemon reads both of its clocks at one moment, so that the lab knows its first reading)
        self.held = os.path.join(self.folder, 'held')
        with open(self.held, 'w', encoding='ascii') as file:
            file.write(f'#!/bin/sh\nFAST_HOLD=1 exec {self.program} "$@"\n')
        os.chmod(self.held, 0o755)
        self.hosts = self.write_hosts()

    def page(self, daemon):
        """The path of a host's page."""
        return os.path.join(self.folder, f'{daemon.name}.page')

    @staticmethod
    def slewed(daemon):
        """What fast time is told of how a host's clocks are slewed."""
        return dict(zip(('slew', 'slews', 'slewn'), daemon.slew)) if daemon.slew[0] else {}

    def now(self, daemon):
        """The network's time on a host, by its page and its own clock. (this process isn't in fast time)"""
        found, passed = tsp_clock.Clock(self.page(daemon)).read(), (time.monotonic_ns() - self.begun) * self.rate
        return tsp_clock.now_of(found[0], self.begun + passed + passed * daemon.drift // 1_000_000) if found else tsp_clock.Now()

    def start(self, daemon):
        """Starts a host's daemon under its supervisor."""
        self.starts += 1
        path = os.path.join(self.folder, f'{daemon.name}-{self.starts}.trace')
        at, step = daemon.step
        environment = self.environment(daemon.ahead, drift=daemon.drift, at=at * 1000, step=step * 1000, **self.slewed(daemon))
        environment.update(TSP_CLOCK=self.page(daemon), TSP_DRIFT=str(self.drift), TSP_SPREAD='0', TSP_RATE=str(daemon.rate), TSP_PROGRAM=self.held)
        if self.learns:
            environment.update(TSP_RATE='learn', TSP_LEARN=os.path.join(self.folder, f'{daemon.name}.rate'))
        if self.counter != 'raw':
            environment['TSP_COUNTER'] = self.counter
        command = [*self.at(daemon.name), LAUNCH, '-f', self.hosts, '-s', daemon.name, '--supervise', '--trace']
        with open(path, 'wb') as trace:
            daemon.process = subprocess.Popen(command, stdout=trace, stderr=subprocess.STDOUT, env=environment)
        daemon.trace.append(path)
        self.began[daemon.name] = self.seconds()

    def share(self, daemon):
        """How much of a processor a host's supervisor took since it was started, in hundredths of the network's time; - where that isn't told."""
        if not daemon.process or not process.is_told():
            return '-'
        return f'{100 * process.spent(daemon.process.pid) / (self.seconds() - self.began[daemon.name]):.3f}'

    @staticmethod
    def daemon_of(daemon):
        """The process of a host's daemon itself."""
        with open(f'/proc/{daemon.process.pid}/task/{daemon.process.pid}/children', encoding='ascii') as file:
            processes = file.read().split()
        if not processes:
            raise Failed(f'{daemon.name} has no daemon')
        return int(processes[0])

    def pause(self, pid, seconds):
        """Stops a process for so many seconds."""
        os.kill(pid, signal.SIGSTOP)
        self.sleep(seconds)
        os.kill(pid, signal.SIGCONT)

    @staticmethod
    def stop(daemon, by=signal.SIGTERM):
        """Tells a host's supervisor to end, or kills it."""
        daemon.process.send_signal(by)
        try:
            daemon.process.wait(1)
        except subprocess.TimeoutExpired:
            # (it waits for its last lines by the machine's time, to which fast time is a time to come)
            daemon.process.kill()
            daemon.process.wait()
        daemon.process = None
