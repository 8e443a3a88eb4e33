"""What happens on a network of three hosts in a trial of it, and what is wanted of it."""
import signal
import time

from lab.hosts import START, Daemon, Failed, Unlike
from lab.witness import witness

# The share of frames that are lost and that come twice, and how late a frame is, in microseconds.
CHANCES = ('loss 0.02', 'twice 0.05', 'late 20 200')
# A wall clock's lead over that of the first host, and whether the host may be master.
HOSTS = {'a': (0, 'm'), 'b': (4_000_000, 'm'), 'c': (-3_000_000, 's')}
# How far a first correction may be from the lead: as long as a datagram may be on its way and a daemon may wait for a processor, in
# microseconds of fast time.
FIRST = 2_000_000
# The seconds that all of it may take.
MOST = 90
# A date that is set at the end, how near it the clocks are to be then, and how far they are moved at least, in microseconds.
DATE, NEAR, FAR = 1_700_000_000_000_000, 120_000_000, 1_000_000_000_000


def say(text):
    print(f'network: {text}', flush=True)


def hosts(strict=False, spoils=None):
    """The hosts of the trial; the second one spoils its first datagram of a type, where that is asked for."""
    roles = {'m': 'x'} if strict else {}
    return [Daemon(name, roles.get(role, role), ahead, spoils=spoils if name == 'b' else None) for name, (ahead, role) in HOSTS.items()]


class Trial:
    """What happens in a lab, and what is wanted of it."""

    def __init__(self, lab):
        self.lab, self.began = lab, time.monotonic()
        self.a, self.b, self.c = lab.daemons
        lab.tell(*CHANCES)

    def until(self, what, holds):
        """Waits until this holds."""
        while not holds():
            if time.monotonic() - self.began > MOST:
                raise Failed(f'{what}: not within {MOST} s')
            time.sleep(0.05)
        say(f'{what}, {self.lab.seconds():.0f} s after the start')

    def count(self, daemon, *begins):
        """How many acts of a daemon begin with these words."""
        return sum(act[:len(begins)] == list(begins) for act in self.lab.acts(daemon))

    @staticmethod
    def wants(holds, text):
        """Ends the trial with this text, unless this holds."""
        if not holds:
            raise Failed(text)

    def wants_masters(self, *names):
        """Wants these hosts, and no others, to have become master so far, once each."""
        found = [daemon.name for daemon in self.lab.daemons for _ in range(self.count(daemon, 'become', 'master'))]
        self.wants(sorted(found) == sorted(names), f'master became {" ".join(found) or "nobody"}, and not {" ".join(names)}')

    def all_name(self, name):
        """Whether each daemon that runs says that this one is master."""
        return all(self.lab.ask('msite', daemon.address) == ['master', name] for daemon in self.lab.daemons if daemon.process)

    def measured(self, master):
        """The least error of each host that the master's last round measured, in microseconds; empty while the round isn't closed."""
        acts = self.lab.acts(master)
        begun = max((place for place, act in enumerate(acts) if act == ['ring', 'round']), default=len(acts))
        if not any(act[0] == 'close' for act in acts[begun:]):
            return {}
        others = [daemon for daemon in self.lab.daemons if daemon is not master]
        errors = {}
        for act in acts[begun:]:
            if act[0] == 'sample':
                name = others[int(act[1]) - 1].name
                errors[name] = min(int(act[4]), errors.get(name, int(act[4])))
        return errors

    def clocks(self):
        """Each clock's lead over that of this machine in fast time, and by how much that may be wrong."""
        found = {}
        for daemon in self.lab.daemons:
            _, ahead, error = self.lab.ask('clockdiff', daemon.address)
            found[daemon.name] = int(ahead), int(error)
        return found

    def wants_agreement(self, master):
        """Wants each two clocks to agree within the errors of the round that corrected them, and those of the questions by which that is found.
        No drift comes on top: all of them count by the clock of this machine."""
        errors = {master.name: 0, **self.measured(master)}
        found = {name: (ahead, error + errors[name]) for name, (ahead, error) in self.clocks().items()}
        say('clocks ahead, and by how much that may be wrong, in ms: ' + ', '.join(f'{n} {d / 1000:.1f} {e / 1000:.1f}' for n, (d, e) in found.items()))
        for one in found.values():
            for other in found.values():
                self.wants(abs(one[0] - other[0]) <= one[1] + other[1] + 2, f'the clocks are apart: {found}')

    def wants_first(self, daemon):
        """Wants a daemon's first correction to be a step by what its wall clock was ahead."""
        first = next(act for act in self.lab.acts(daemon) if act[0] == 'correct')
        near = abs(int(first[1]) + daemon.ahead) <= FIRST
        self.wants(near and first[2] == 'step', f'{daemon.name}, {daemon.ahead} us ahead, is corrected first by {" ".join(first)}')

    def elects(self):
        """All start: one leads, and the others follow and are stepped to its clock."""
        for daemon in self.a, self.c, self.b:
            self.lab.start(daemon)
            self.lab.sleep(4)
        self.until('a leads and the others follow', lambda: self.count(self.a, 'become', 'master') and self.all_name('a'))
        self.wants_masters('a')
        self.until('both are corrected', lambda: all(self.count(daemon, 'correct') for daemon in (self.b, self.c)))
        self.wants_first(self.b)
        self.wants_first(self.c)

    def averages(self, master):
        """A round: afterwards the clocks agree."""
        self.until(f'{master.name} measured the others', lambda: len(self.measured(master)) == len(HOSTS) - 1)
        # (a correction that is lost comes again twice, a second later each)
        self.lab.sleep(5)
        self.wants_agreement(master)

    def elects_again(self):
        """The master is killed: the other one that may be master leads, and the third one follows."""
        self.wants_masters('a')
        self.lab.stop(self.a, signal.SIGKILL)
        self.until('b leads and c follows', lambda: self.count(self.b, 'become', 'master') and self.all_name('b'))
        self.wants_masters('a', 'b')

    def returns(self):
        """The first one starts again, and follows like any other."""
        self.lab.start(self.a)
        self.until('a is back and follows', lambda: self.all_name('b'))

    def sets_date(self):
        """The date is set through a slave: all clocks are moved to it."""
        # (a correction may still be on its way, and the master then passes the date over; a slave that doesn't hear of the date is moved by
        # the next round, minutes later)
        self.lab.tell('loss 0')
        self.lab.sleep(5)
        wanted = DATE - START - round(self.lab.seconds() * 1e6)
        answer = ' '.join(self.lab.ask('date', self.c.address, str(DATE)))
        self.until(f'{answer}: each clock was moved', lambda: all(self.count_dates(daemon) for daemon in self.lab.daemons))
        self.lab.sleep(5)
        found = self.clocks()
        self.wants(all(abs(ahead - wanted) < NEAR for ahead, _ in found.values()), f'the clocks aren\'t near the date: {found}')

    def count_dates(self, daemon):
        """How often a daemon's clock was moved as far as to the date."""
        return sum(act[0] == 'correct' and abs(int(act[1])) > FAR for act in self.lab.acts(daemon))

    def whole(self):
        """All of it."""
        self.elects()
        self.averages(self.a)
        self.elects_again()
        self.returns()
        self.averages(self.b)
        self.wants_masters('a', 'b')
        self.sets_date()
        self.wants(self.all_name('b'), 'b is not the only master at the end')
        late = sum(self.count(daemon, 'late') for daemon in self.lab.daemons)
        say(f'one master at a time, in {time.monotonic() - self.began:.0f} s; {late} alarms were looked at too late')


def wants_witness(lab, spoiled):
    """Wants what the daemons did to be what the rules say, and to hold; or, where a daemon spoiled a datagram, wants that to be found."""
    status, said, besides = witness(lab)
    for line in said + besides:
        say(f'witness: {line}')
    named = [line for line in besides if ' of b in turn ' in line and 'never posted' in line]
    if spoiled and (status == 0 or len(named) != 1):
        raise Unlike('the datagram that b changed isn\'t found')
    if not spoiled and status:
        raise Unlike('the traces aren\'t those of the rules')
