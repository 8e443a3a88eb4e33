"""What a reader of a host's page sees while its daemon is stopped, its supervisor is stopped, and its supervisor is killed. (ordered.py has the host)"""
import os
import signal
import subprocess
import sys
import time

HERE = os.path.dirname(os.path.realpath(__file__))
TOOLS = os.path.dirname(HERE)
sys.path.insert(0, TOOLS)
import tsp_clock  # noqa: E402

# Writes a line whenever the status, the life or the steps are other ones, with the seconds of the network's time; and one where a shown value fell.
READER = '''
import time, tsp_clock
clock, last, shown = tsp_clock.Clock(), None, 0
while True:
    now = clock.now()
    told = now.status, now.life, now.steps
    if told != last:
        print(f'{time.monotonic():.3f}', *told, flush=True)
    elif now.shown is not None and now.shown < shown:
        print('fell', shown - now.shown, flush=True)
    last, shown = told, now.shown or 0
    time.sleep(0.02)
'''
# How long something is stopped, how old a page may be, how far two looks at the master are apart, and how long a start takes at most on a busy machine, in
# seconds of the network's time.
STOPPED, LASTS, LOOKS, START = 60, 64, 16, 400


class Seen:
    """A reader of a host's page, in the host's time, which begins where all is well."""

    def __init__(self, lab, daemon, path):
        self.lab, self.daemon, self.path = lab, daemon, path
        environment = {**lab.environment(daemon.ahead, drift=daemon.drift), 'PYTHONPATH': TOOLS, 'TSP_CLOCK': lab.page(daemon)}
        with open(path, 'wb') as file:
            self.process = subprocess.Popen([sys.executable, '-c', READER], stdout=file, env=environment)
        time.sleep(0.5)

    def lines(self):
        """The lines so far."""
        with open(self.path, encoding='ascii') as file:
            return [line.split() for line in file]

    def wait_for(self, status, seconds):
        """Waits until the last line has this status, for so many seconds of the network's time; whether it came."""
        until = self.lab.seconds() + seconds
        while self.lab.seconds() < until and self.lines()[-1][1:2] != [str(status)]:
            time.sleep(0.02)
        return self.lines()[-1][1:2] == [str(status)]

    def stop(self, pid):
        """Stops a process for a while, and gives how long the page was stale then."""
        first = len(self.lines())
        self.lab.pause(pid, STOPPED)
        self.lab.sleep(2 * LOOKS)
        self.wait_for(tsp_clock.SYNCHRONISED, 2 * LOOKS)
        return self.stale(self.lines()[first:])

    def stale(self, lines):
        """How many seconds the page was stale by these lines, which say nothing else, and end with a master."""
        since, sum_of = None, 0.0
        for words in lines:
            if words[0] == 'fell':
                raise SystemExit(f'seen: a shown value falls by {words[1]} us')
            if words[1] == str(tsp_clock.STALE):
                since = float(words[0])
            elif since is not None:
                sum_of, since = sum_of + float(words[0]) - since, None
        if since is not None or sum_of > STOPPED + 2 * LOOKS - LASTS + 5 or len({words[2] for words in [*lines, self.lines()[0]]}) > 1:
            raise SystemExit(f'seen: while something was stopped a reader saw {lines}')
        return sum_of

    def kill(self):
        """Kills the supervisor: how long the page was read on; then the host starts again, with another life."""
        life, begun = int(self.lines()[-1][2]), self.lab.seconds()
        self.lab.stop(self.daemon, signal.SIGKILL)
        if not self.wait_for(tsp_clock.STALE, LASTS + 10):
            raise SystemExit(f'seen: {LASTS + 10} s after the supervisor was killed a reader sees {self.lines()[-1]}')
        lasted = self.lab.seconds() - begun
        if lasted < LASTS - LOOKS - 5:
            raise SystemExit(f'seen: a page was read for {lasted:.0f} s only')
        self.lab.start(self.daemon)
        if not self.wait_for(tsp_clock.WAITING, START) or int(self.lines()[-1][2]) == life:
            raise SystemExit(f'seen: after another start a reader sees {self.lines()[-1]}')
        return lasted

    def end(self):
        """Ends the reader."""
        self.process.kill()
        self.process.wait()


def told(lab, daemon, path):
    """What a reader of this host saw, in words."""
    seen = Seen(lab, daemon, path)
    try:
        supervisor = daemon.process.pid
        by_daemon, by_supervisor = seen.stop(lab.daemon_of(daemon)), seen.stop(supervisor)
        return (f'a page is stale for {by_daemon:.0f} s of {STOPPED} in which its daemon is stopped, for {by_supervisor:.0f} s where its supervisor is, '
                f'and {seen.kill():.0f} s after that is killed')
    finally:
        seen.end()
