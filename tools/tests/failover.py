#!/usr/bin/env python3
"""Three daemons in fast time, as an operator meets them: `failover.py PROGRAM FOLDER`. The tools run in the daemons' time too. What isn't as it
should be is said, with status 1."""
import os
import signal
import subprocess
import sys

HERE = os.path.dirname(os.path.realpath(__file__))
TOOLS = os.path.dirname(HERE)
DEV = os.path.join(os.path.dirname(TOOLS), 'dev')
sys.dont_write_bytecode = True
sys.path[:0] = TOOLS, DEV
from lab import preload  # noqa: E402
from lab.hosts import Daemon, Loopback  # noqa: E402
from lab.trial import Trial  # noqa: E402

PROGRAM, FOLDER = sys.argv[1:3]
RATE = 25
# An hour and a minute: the boot words tell how long a host waits for its election, by the wall clock's place in five minutes, and those of two hosts have
# to differ by more than a machine may be late.
AHEAD = 3_660_000_000
# Runs a tool in fast time, where a sleep would have its end in slow time.
TOOL = f'''
import runpy, select, sys, time
time.sleep = lambda seconds: select.select([], [], [], max(seconds, 0) / {RATE})
del sys.argv[0]
runpy.run_path(sys.argv[0], run_name='__main__')
'''


class Failover:
    """Three daemons, whose clocks are an hour apart at first, and what the tools say of them."""

    def __init__(self, library):
        self.a, self.b, self.c = Daemon('a', 'm'), Daemon('b', 'm', AHEAD), Daemon('c', 's', -1000)
        self.lab = Loopback([[self.a, self.b, self.c]], PROGRAM, library, RATE, FOLDER)
        self.trial = Trial(self.lab)
        self.hosts = self.lab.write_hosts()
        self.bin = os.path.join(FOLDER, 'commands')
        os.mkdir(self.bin)

    @staticmethod
    def script(path, line):
        """Writes a script."""
        with open(path, 'w', encoding='ascii') as file:
            file.write(f'#!/bin/sh\n{line}\n')
        os.chmod(path, 0o755)

    def run(self, name, *words, self_name='nobody'):
        """A tool's run with these words, with both streams in one."""
        settings = {'TSP_HOSTS': self.hosts, 'TSP_PROGRAM': PROGRAM, 'TSP_SELF': self_name, 'PATH': f'{self.bin}:{os.environ["PATH"]}'}
        command = [sys.executable, '-B', '-c', TOOL, os.path.join(TOOLS, name), '--timeout', '20', *words]
        return subprocess.run(command, stdout=subprocess.PIPE, stderr=subprocess.STDOUT, env={**self.lab.environment(0), **settings}, check=False)

    def tool(self, wanted, name, *words, **more):
        """Wants this status of a tool with these words, and gives what it says."""
        ran = self.run(name, *words, **more)
        text = ran.stdout.decode()
        self.trial.wants(ran.returncode == wanted, f'{name} {" ".join(words)} ends with {ran.returncode}: {text}')
        return text

    def says(self, text, *parts):
        """Wants these parts in a text."""
        for part in parts:
            self.trial.wants(part in text, f'it says \'{text}\', and not \'{part}\'')

    def starts(self):
        """In their first minutes nobody leads, and two clocks are an hour apart. None of them stands yet."""
        for daemon in self.a, self.b, self.c:
            self.lab.start(daemon)
        self.says(self.tool(1, 'tsp-status'), 'nobody leads', 'and 50.000 are allowed')
        self.says(self.tool(2, 'tsp-status', '--check'), 'TSP CRITICAL: nobody leads; ', ' and b may be 3660')
        self.says(self.tool(1, 'tsp-elect', 'a'), 'it hasn\'t been up for 80 s')
        self.says(self.tool(1, 'tsp-now', '--set', 'now'), 'nobody leads')
        self.says(self.tool(1, 'tsp-elect', 'c'), 'c is `slave` in the hosts file')
        self.lab.sleep(90)
        said = self.tool(1, 'tsp-elect', '--trace', self.b.trace[-1], 'b')
        self.says(said, 'b doesn\'t lead', 'and may stand once it is up for 300; nobody tells it again, so call again in ')

    def hands_over(self):
        """One leads; it is the other one's turn then, once its machine says so."""
        self.trial.until('one leads', lambda: self.all_name('a') or self.all_name('b'))
        lead, other = (self.a, self.b) if self.all_name('a') else (self.b, self.a)
        self.says(self.tool(0, 'tsp-elect', lead.name), f'{lead.name} leads already')
        self.says(self.tool(1, 'tsp-elect', other.name), f'{lead.name} leads, and sends a candidate a QUIT; to hand over')
        self.says(self.tool(1, 'tsp-elect', '--handover', other.name), f'call it on {lead.name}')
        self.lab.sleep(310)
        # (systemctl is one that kills this daemon)
        self.script(os.path.join(self.bin, 'systemctl'), f'echo "$@" >{FOLDER}/asked; kill {lead.process.pid}')
        self.says(self.tool(0, 'tsp-elect', '--handover', other.name, self_name=lead.name), f'{lead.name} leads, and its daemon is being started again', f'{other.name} leads')
        with open(os.path.join(FOLDER, 'asked'), encoding='ascii') as file:
            self.trial.wants(file.read() == 'restart tsp\n', 'systemctl is told something else')
        lead.process.wait()
        lead.process = None
        self.says(self.tool(1, 'tsp-status'), f'silent: {lead.name}')
        return lead, other

    def sets_date(self, lead):
        """A date, with a host that is dead: the one that leads has it, whomever one asks, and a second one too. A minute passes from one to the other."""
        for words in ((lead.name,), ('c',), ()):
            self.lab.sleep(60)
            said = self.tool(0, 'tsp-now', '--set', '2026-11-28T09:41:02.5Z', *words)
            self.says(said, f'date set at {lead.name}, which leads: its clock is 0.')
        self.says(self.tool(0, 'tsp-now', '--set', 'now'), f'date set at {lead.name}')

    def all_name(self, name):
        """Whether all name this one."""
        return self.trial.all_name(name)

    def loses_its_master(self, back, lead):
        """The one that was stopped comes back and follows, and all is well; then the one that leads is killed: it is named, and doesn't lead, until
        the other one stands."""
        self.lab.start(back)
        self.trial.until('all is well', lambda: self.run('tsp-status').returncode == 0)
        self.lab.sleep(310)
        lead.process.send_signal(signal.SIGKILL)
        lead.process.wait()
        lead.process = None
        self.says(self.tool(1, 'tsp-status'), f'{lead.name} is named as master and doesn\'t lead', f'silent: {lead.name}')
        self.says(self.tool(2, 'tsp-status', '--check'), 'TSP CRITICAL')
        self.says(self.tool(1, 'tsp-now', '--set', 'now', 'c'), 'nobody leads')
        self.says(self.tool(0, 'tsp-elect', back.name), f'{back.name} leads')

    def whole(self):
        """All of it."""
        self.starts()
        dead, lead = self.hands_over()
        self.sets_date(lead)
        self.loses_its_master(dead, lead)


def main():
    library = preload.made('tsp_fast', FOLDER)
    if library is None:
        sys.exit('failover: there is no cc')
    failover = Failover(library)
    try:
        failover.whole()
    except Exception as fault:
        sys.exit(f'failover: {fault}')
    finally:
        failover.lab.close()


main()
