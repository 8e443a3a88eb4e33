"""Runs of tsp-sim that are watched, and end as soon as something is seen in them.

tsp-sim's nodes run in the command that watches, which is called with the one word `replay` for that. It does what `tsp replay` does but for two things: a boot's
word is that of a daemon, its wall clock in microseconds, and the run ends where `Watch.see` ends it.
"""
import os
import subprocess
import sys

HERE = os.path.dirname(os.path.realpath(__file__))
SIM = os.path.join(os.path.dirname(os.path.dirname(HERE)), 'tools', 'tsp-sim')
MILLION = 1_000_000
# A daemon's delay before an election depends on its start in a span of this length, so that a run begins anywhere in it.
SPAN = 300 * MILLION
# The last second of a run. Nobody leads within a day where hosts refuse each other again and again.
LAST = 86400
PHASE, PROGRAM, RESULT = 'TSP_SIMULATED_PHASE', 'TSP_SIMULATED_PROGRAM', 'TSP_SIMULATED_RESULT'


class Watch:
    """`tsp replay` of one simulated network, up to what is waited for."""

    def __init__(self):
        self.walls, self.rates, self.boots = [], [], {}
        self.phase = int(os.environ[PHASE])
        self.replay = subprocess.Popen([os.environ[PROGRAM], 'replay'], stdin=subprocess.PIPE, stdout=subprocess.PIPE, stderr=subprocess.DEVNULL)

    def see(self, at, line):
        """Looks at a line of the trace, whose event is at this time."""

    def with_word(self, line):
        """A line of the schedule: a boot's word becomes the node's wall clock."""
        kind = line.split()
        if kind[0] == b'node':
            self.rates.append(int(kind[2]))
            self.walls.append(int(kind[3]))
        if kind[0] != b'at' or kind[2] != b'boot':
            return line
        at, node = int(kind[1]), int(kind[3])
        self.boots[node] = at
        wall = self.phase + self.walls[node] + at + at * self.rates[node] // MILLION
        return b'at %d boot %d %d\n' % (at, node, wall)

    def hand_over(self, at):
        """Hands an event's acts over up to the mark that ends them."""
        for line in self.replay.stdout:
            self.see(at, line)
            sys.stdout.buffer.write(line)
            if b' took - refused ' in line:
                break
        sys.stdout.buffer.flush()

    def end(self, *numbers):
        """Notes these numbers, and ends."""
        with open(os.environ[RESULT], 'w', encoding='ascii') as result:
            result.write(' '.join(map(str, numbers)))
        self.replay.kill()
        sys.exit()

    def whole(self):
        """Replays what tsp-sim writes: each event of it is followed by a mark."""
        for line in sys.stdin.buffer:
            self.replay.stdin.write(self.with_word(line))
            if b' bytes ' in line:
                self.replay.stdin.flush()
                self.hand_over(int(line.split()[1]))


def watched(script, program, result, phase, *words, **settings):
    """Runs tsp-sim with these words, as this script watches it with these settings, and gives the numbers that were noted; none where the run came to its end."""
    command = [SIM, f'--until={LAST}', f'--program={os.path.realpath(script)}', *words]
    open(result, 'w', encoding='ascii').close()
    # (it ends with 1, as its program does before its schedule is at the end)
    subprocess.run(command, stdout=subprocess.DEVNULL, stderr=subprocess.DEVNULL, check=False,
                   env={**os.environ, PHASE: str(phase), PROGRAM: program, RESULT: result, **settings})
    with open(result, encoding='ascii') as text:
        return [int(number) for number in text.read().split()]
