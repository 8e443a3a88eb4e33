#!/usr/bin/env python3
"""Runs examples/logger.py and examples/store.py on three hosts of a lab, whose master is killed meanwhile, and a wall clock set: `ordered.py PROGRAM
FOLDER SEED`.

Things happen one after the other, each on some host. All that is logged and written is to sort as it happened; and, so that this says something, the same
logger by the hosts' own clocks, and the same store without its wait, are to sort otherwise. A program on the master's host stamps at once what it reads in the
journal of a host that follows: that is to sort behind the line that it read, and without the wait it is not. Then it looks at what a reader sees of a host whose
daemon and supervisor are stopped and killed. It needs namespaces of its own.
"""
import os
import random
import signal
import subprocess
import sys
import time

HERE = os.path.dirname(os.path.realpath(__file__))
TOOLS = os.path.dirname(HERE)
DEV = os.path.join(os.path.dirname(TOOLS), 'dev')
sys.dont_write_bytecode = True
sys.path[:0] = TOOLS, DEV
import tsp_clock  # noqa: E402
from lab import preload  # noqa: E402
from lab.hosts import Daemon  # noqa: E402
from lab.supervised import Supervised  # noqa: E402
import seen  # noqa: E402

PROGRAM, FOLDER, SEED = sys.argv[1], sys.argv[2], int(sys.argv[3])
EXAMPLES = os.path.join(os.path.dirname(TOOLS), 'examples')
RATE, DRIFT, TOLD = 40, 20, 1000
# What is taken out of the examples, and by what.
OWN_CLOCK = ('logger.py', 'now.shown / 1e6', '__import__("time").time()')
NO_WAIT = ('store.py', 'tsp_clock.wait_after(clock, now.latest + ROUND, LONGEST)', 'True')
# How often something happens with each master, how many writes come at once, how many seconds pass between two lines of a log, and the most that a
# wait takes.
TIMES, AT_ONCE, APART, LONGEST = 50, 5, 0.005, 60
KEYS = 3
# How often a line of each store is answered at once with each master.
REACTIONS = 20
# Answers `ready` to a journal's path, and then a new line there, at once, by its stamp and an own one; `-` if none comes.
REACTS = '''
import sys, time, tsp_clock
clock = tsp_clock.Clock()
for path in sys.stdin:
    with open(path.rstrip('\\n'), encoding='utf-8') as journal:
        journal.seek(0, 2)
        print('ready', flush=True)
        until, line = time.monotonic() + 60, ''
        while not line and time.monotonic() < until:
            line = journal.readline()
        now = clock.now()
        print(*([line.split()[0], now.latest] if line and now.status == tsp_clock.SYNCHRONISED else ['-']), flush=True)
'''
# When a host's wall clock is set, in microseconds of the network's time, and by how much.
STEP = 450_000_000, 7_000_000


def wanted(is_so, text):
    """Ends where something isn't so."""
    if not is_so:
        raise SystemExit(f'ordered: {text} (seed {SEED})')


def changed(name, old, new):
    """An example in which something is replaced: its path."""
    with open(os.path.join(EXAMPLES, name), encoding='utf-8') as file:
        text = file.read()
    wanted(text.count(old) == 1, f'{name} has {text.count(old)} times {old}')
    path = os.path.join(FOLDER, f'changed-{name}')
    with open(path, 'w', encoding='utf-8') as file:
        file.write(text.replace(old, new))
    return path


def reacting():
    """The program that answers lines of a journal: its path."""
    path = os.path.join(FOLDER, 'reacts.py')
    with open(path, 'w', encoding='utf-8') as file:
        file.write(REACTS)
    return path


class Host:
    """A host of the lab with the programs that run there, by their names; `made` are the files that they write."""

    def __init__(self, lab, daemon, programs):
        self.lab, self.daemon, self.processes, self.made = lab, daemon, {}, {}
        environment = lab.environment(daemon.ahead, drift=daemon.drift)
        environment.update(PYTHONPATH=TOOLS, TSP_CLOCK=lab.page(daemon), PYTHONDONTWRITEBYTECODE='1')
        for name, path in programs.items():
            self.made[name] = os.path.join(FOLDER, f'{name}-{daemon.name}')
            word = daemon.name if 'logger' in name else self.made[name]
            self.processes[name] = subprocess.Popen([sys.executable, path, word], stdin=subprocess.PIPE, stdout=subprocess.PIPE, env=environment)

    def tell(self, name, line):
        """Gives a program a line, and takes the one that it writes."""
        process = self.processes[name]
        process.stdin.write(f'{line}\n'.encode())
        process.stdin.flush()
        return self.told(name)

    def told(self, name):
        """The next line that a program writes."""
        return self.processes[name].stdout.readline().decode().rstrip('\n')

    def page(self):
        """What this host's page says now."""
        return self.lab.now(self.daemon)

    def end(self):
        """Ends the programs."""
        for process in self.processes.values():
            process.stdin.close()
            process.wait(5)
            process.stdout.close()


def wrong(stamped):
    """How many stamps aren't greater than the one before."""
    return sum(later <= earlier for earlier, later in zip(stamped, stamped[1:]))


class Run:
    """What happens on the hosts, in its order."""

    def __init__(self, lab):
        self.lab, self.chance, self.number = lab, random.Random(SEED), 0
        self.programs = {'logger': os.path.join(EXAMPLES, 'logger.py'), 'store': os.path.join(EXAMPLES, 'store.py'),
                         'own-logger': changed(*OWN_CLOCK), 'bare-store': changed(*NO_WAIT), 'reacts': reacting()}
        self.stamps = {name: [] for name in self.programs if 'logger' in name}
        self.done = {name: {} for name in self.programs if 'store' in name}
        self.reactions = {name: [] for name in self.done}
        self.hosts, self.answers = [], {'done': 0, 'refused': 0, 'unsure': 0}

    def until(self, text, holds):
        """Waits until something is so."""
        end = time.monotonic() + LONGEST
        while not holds():
            wanted(time.monotonic() < end, f'{text}: not within {LONGEST} s')
            time.sleep(0.05)

    def masters(self):
        """The daemons that lead by the pages of these that run."""
        return [host.daemon for host in self.hosts if host.daemon.process and host.page().role == tsp_clock.LEADS]

    def agree(self, hosts):
        """Whether all of these are synchronised with one master."""
        pages = [host.page() for host in hosts]
        return all(page.status == tsp_clock.SYNCHRONISED for page in pages) and len({page.master for page in pages}) == 1

    def happens(self, times):
        """Something happens so often, each time on some host that takes it."""
        for _ in range(times):
            for name in self.stamps:
                time.sleep(APART)
                self.log(name, self.chance.choice(self.hosts))
            for name in 'store', 'bare-store':
                for _ in range(AT_ONCE):
                    self.write(name, self.chance.choice(self.hosts))

    def reactions_of(self, name):
        """The master's host stamps at once what it reads in the journals of hosts that follow."""
        leader = next(host for host in self.hosts if host.page().role == tsp_clock.LEADS)
        for _ in range(REACTIONS):
            writer = self.chance.choice([host for host in self.hosts if host is not leader])
            leader.tell('reacts', writer.made[name])
            self.write(name, writer)
            found = leader.told('reacts').split()
            if len(found) == 2:
                self.reactions[name].append(tuple(map(int, found)))

    def react(self):
        """The same of both stores."""
        for name in self.reactions:
            self.reactions_of(name)

    def log(self, name, host):
        """A line, which has a stamp where the host's daemon runs."""
        stamp = host.tell(name, 'something').split()[0]
        if stamp != '-':
            self.stamps[name].append(float(stamp))

    def write(self, name, host):
        """A write, whose answer is noted."""
        self.number += 1
        key = f'key{self.number % KEYS}'
        answer = host.tell(name, f'{key} {self.number}')
        self.answers[answer] += 1
        if answer == 'done':
            self.done[name][self.number] = key

    def journal(self, name):
        """The stamps of a store's writes that were done, in the order in which they were made."""
        stamps = {}
        for host in self.hosts:
            with open(host.made[name], encoding='utf-8') as file:
                stamps.update((int(words[2]), int(words[0])) for words in map(str.split, file))
        return [stamps[number] for number in self.done[name]]

    def read(self):
        """What the journals hold is the last write of each key."""
        words = [sys.executable, os.path.join(EXAMPLES, 'store.py'), '--read', *(host.made['store'] for host in self.hosts)]
        told = subprocess.run(words, stdout=subprocess.PIPE, env={**os.environ, 'PYTHONPATH': TOOLS}, check=True).stdout.decode().split()
        last = {key: str(number) for number, key in self.done['store'].items()}
        wanted(dict(zip(told[::2], told[1::2])) == last, f'the journals hold {told}, and {last} were the last writes')

    def judge(self):
        """All sorts as it happened, and what was taken out is missed."""
        logged, own = (wrong(self.stamps[name]) for name in ('logger', 'own-logger'))
        written, bare = self.journal('store'), self.journal('bare-store')
        self.read()
        wanted(len(self.stamps['logger']) >= 2 * TIMES, f'only {len(self.stamps["logger"])} lines are stamped')
        wanted(logged == 0, f'{logged} of {len(self.stamps["logger"])} lines of the logger sort wrong')
        wanted(own > 0, 'lines by the own clocks sort right')
        wanted(len(written) >= 2 * TIMES * AT_ONCE, f'only {len(written)} writes are done')
        wanted(wrong(written) == 0, f'{wrong(written)} of {len(written)} writes of the store sort wrong')
        wanted(wrong(bare) > 0, f'{len(bare)} writes without a wait sort right')
        wanted(self.answers['unsure'] <= self.number // 20, f'{self.answers["unsure"]} of {self.number} writes are unsure')
        reacted, early = ([own <= read for read, own in self.reactions[name]] for name in ('store', 'bare-store'))
        wanted(len(reacted) >= REACTIONS and len(early) >= REACTIONS, f'only {len(reacted)} and {len(early)} lines are answered at once')
        wanted(not any(reacted), f'{sum(reacted)} of {len(reacted)} stamps after a line that was read aren\'t greater than that line\'s')
        wanted(any(early), f'{len(early)} stamps after a line that was written without a wait are all greater')
        return (f'{len(self.stamps["logger"])} lines and {len(written)} writes sort right; by own clocks {own} of {len(self.stamps["own-logger"])} lines sort wrong, '
                f'and without a wait {wrong(bare)} of {len(bare)} writes; {self.answers["refused"]} were refused, {self.answers["unsure"]} unsure; '
                f'{len(reacted)} stamps right after a line was read are greater, and without a wait {sum(early)} of {len(early)} aren\'t')

    def whole(self):
        """All of it, and what is to be said of it."""
        for daemon in self.lab.daemons:
            self.lab.start(daemon)
            self.lab.sleep(7)
        self.until('pages', lambda: all(os.path.exists(self.lab.page(daemon)) for daemon in self.lab.daemons))
        time.sleep(0.5)
        self.hosts = [Host(self.lab, daemon, self.programs) for daemon in self.lab.daemons]
        self.until('all follow one master', lambda: self.agree(self.hosts))
        self.happens(TIMES)
        self.react()
        first = self.masters()[0]
        self.lab.stop(first, signal.SIGKILL)
        others = [host for host in self.hosts if host.daemon is not first]
        while not (self.agree(others) and first not in self.masters() and self.masters()):
            self.happens(1)
            time.sleep(0.1)
        self.happens(TIMES)
        self.lab.start(first)
        self.until('the first master follows', lambda: self.agree(self.hosts))
        self.happens(TIMES)
        self.react()
        said = self.judge()
        for host in self.hosts:
            host.end()
        return f'{said}; {seen.told(self.lab, self.lab.daemons[2], os.path.join(FOLDER, "seen"))}'


def main():
    library = preload.made('tsp_fast', FOLDER)
    chance = random.Random(SEED)
    daemons = [Daemon(name, role, chance.randint(-5_000_000, 5_000_000), chance.randint(-DRIFT, DRIFT)) for name, role in (('a', 'm'), ('b', 'm'), ('c', 's'))]
    daemons[2].step = STEP
    lab = Supervised(TOLD, [daemons], PROGRAM, library, RATE, FOLDER, seed=SEED, capture=False)
    try:
        lab.tell('late 20 45')
        print(Run(lab).whole())
    finally:
        lab.close()


main()
