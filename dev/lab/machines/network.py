"""A network of machines: the package on each, one hosts file, and what is wanted of it."""
import os
import subprocess
import sys
import threading
import time
from collections import namedtuple
from concurrent.futures import ThreadPoolExecutor

from lab.hosts import Failed
from lab.machines import image, needs
from lab.machines.machine import Gone, Machine
from lab.machines.switch import Switch

HERE = os.path.dirname(os.path.realpath(__file__))
TOP = os.path.dirname(os.path.dirname(os.path.dirname(HERE)))
# By how many parts in a million the hardware of each machine counts too fast.
RATES = (40, -25, 5, 60, -50)
SLAVE_FROM = 4
# Seconds: after which a host may be told to stand, a network has a master, a host has joined it (80 of quiet, and a round more, since a master
# that still counts it among its slaves corrects it in its next round), a unit is up, and between two looks.
MAY_STAND, LED, JOINED, UP, OFTEN = 300, 900, 350, 300, 4
# Seconds: by when a host leads that nobody told to stand, and by when all others follow it then (a minute until supervisors see it, and they join it anew).
STOOD, FOLLOWED = 690, 60 + 350
# The place of the role in a line of `tsp-status --csv`; and what a page says, by its numbers.
ROLE = 7
STATUSES, ROLES = ('stale', 'waiting', 'synchronised', 'holding'), ('nobody', 'follows', 'leads')


class Seen(namedtuple('Seen', 'status role life rate')):
    """What a page says; the rate is in parts in 10^9."""
    __slots__ = ()


class Network:
    """Machines on one switch, with a daemon each. `say` writes a line."""

    def __init__(self, folder, count, say):
        self.folder, self.say, self.begun = folder, say, time.monotonic()
        self.by, line = needs.processor(folder)
        say(line)
        self.switch = Switch(os.path.basename(folder))
        self.chains, self.lock, self.answerer = {}, threading.Lock(), os.path.join(folder, 'answer')
        self.machines = [Machine(folder, number, self.switch, self.by, RATES[number - 1]) for number in range(1, count + 1)]
        self.build()

    def build(self):
        """Makes the programs of the lab itself."""
        for words in (('-shared', '-fPIC', '-o', 'rate.so', 'rate.c', '-ldl'), ('-o', 'answer', 'answer.c'), ('-static', '-o', 'sampler', 'sampler.c')):
            words = [os.path.join(HERE, word) if word.endswith('.c') else word for word in words]
            subprocess.run(['cc', '-O2', '-Wall', f'-I{os.path.join(TOP, "tools")}', *words], cwd=self.folder, check=True)

    def __getitem__(self, number):
        return self.machines[number - 1]

    def seconds(self):
        """The seconds since the lab began."""
        return time.monotonic() - self.begun

    def each(self, call, machines=None):
        """Calls for several machines side by side, and gives what came of each."""
        machines = machines or self.machines
        with ThreadPoolExecutor(len(machines)) as pool:
            return list(pool.map(call, machines))

    def boot(self):
        """Turns all machines on, and waits until they have booted."""
        for machine in self.machines:
            machine.make()
            machine.start()
        self.each(Machine.ready)
        self.each(lambda machine: machine.put(os.path.join(self.folder, 'sampler'), '/srv/sampler', '755'))

    def remove(self):
        """Takes all away but the disk that machines share."""
        for machine in self.machines:
            machine.remove()
        self.switch.remove()

    def hosts(self, address=lambda machine: machine.address):
        """The hosts file."""
        return ''.join(f'{machine.name} {address(machine)} {"master" if machine.number < SLAVE_FROM else "slave"}\n' for machine in self.machines)

    def install(self, package, machines=None):
        """Installs a package."""
        def one(machine):
            machine.put(package, f'/srv/{os.path.basename(package)}')
            # (the machines have no way to Debian: what a package needs is in their image)
            machine.must(f'cd /srv && DEBIAN_FRONTEND=noninteractive apt-get install -y --reinstall ./{os.path.basename(package)}', patience=900)
        self.each(one, machines)

    def set_up(self, package):
        """From bare machines to a network that a host leads."""
        self.install(package)
        self.each(lambda machine: machine.write('/etc/tsp/hosts', self.hosts()))
        self.each(lambda machine: machine.must('tsp-launch --lint; systemctl enable --now tsp', patience=UP))
        self.led()

    def led(self, longest=LED, machines=None, is_told=True):
        """Waits until a host leads and all others follow it; the first one may be told to stand, as soon as it can."""
        machines = machines or self.machines
        until = time.monotonic() + longest
        while time.monotonic() < until:
            seen = self.each(page_of, machines)
            roles = [one.role for one in seen]
            if sorted(roles) == ['follows'] * (len(roles) - 1) + ['leads'] and all(one.status == 'synchronised' for one in seen):
                return machines[roles.index('leads')]
            if is_told and 'leads' not in roles and self.up(machines[0]) > MAY_STAND:
                machines[0].says(f'tsp-elect {machines[0].name}')
            time.sleep(OFTEN)
        raise Failed(f'after {longest} s the hosts are {self.each(page_of, machines)}')

    def leads(self, machines, longest=LED):
        """Waits until one of these hosts leads, which nobody tells to stand; gives the seconds that this took."""
        begun = time.monotonic()
        while not any(seen.role == 'leads' for seen in self.each(page_of, machines)):
            wanted(time.monotonic() - begun < longest, f'after {longest} s nobody leads: {self.each(page_of, machines)}')
            time.sleep(OFTEN)
        return time.monotonic() - begun

    @staticmethod
    def up(machine):
        """The seconds since a machine's daemon was started."""
        found = machine.says('ps -o etimes= -C tsp').split()
        return int(found[0]) if found else 0

    @staticmethod
    def roles_by(machine):
        """The role of each host, as a machine sees it."""
        lines = [line.split(',') for line in machine.says('tsp-status --csv 2>/dev/null').split('\n')[1:]]
        return {line[0]: line[ROLE] for line in lines if len(line) > ROLE}

    def master(self):
        """The machine that leads, by its page, or None."""
        return next((machine for machine, seen in zip(self.machines, self.each(page_of)) if seen.role == 'leads'), None)

    def followers(self):
        """The machines that don't lead."""
        master = self.master()
        return [machine for machine in self.machines if machine is not master]

    def victim(self):
        """The follower that something befalls: the last one, and for a chain of scenarios beside others another one than theirs."""
        chain, followers = threading.get_ident(), self.followers()
        with self.lock:
            taken = [machine for other, machine in self.chains.items() if other != chain]
            if self.chains.get(chain) not in followers:
                self.chains[chain] = [machine for machine in followers if machine not in taken][-1]
            return self.chains[chain]

    def choose(self, machine):
        """Has something befall this machine, if it follows, in the chain that calls this."""
        with self.lock:
            self.chains[threading.get_ident()] = machine

    def restart(self, machine):
        """Restarts the unit of a host that follows, and waits until it does so again; gives the seconds that this took."""
        before = life_of(machine)
        machine.must('systemctl restart tsp', patience=UP)
        return self.joined_anew(machine, before)

    def restart_master(self):
        """Restarts the unit of the host that leads, and waits until a host leads again, which nobody tells to, and all others follow it. Gives which one led
        and which one leads, and the seconds until both."""
        master = self.master()
        wanted(master, f'nobody leads: {self.each(page_of)}')
        master.must('systemctl restart tsp', patience=UP)
        led = self.leads(self.machines, STOOD)
        begun = time.monotonic()
        return master, self.led(FOLLOWED, is_told=False), led, led + time.monotonic() - begun

    def joined(self, machines, longest=JOINED):
        """Waits until these hosts are synchronised, by their own pages; gives the seconds that this took."""
        begun, left = time.monotonic(), list(machines)
        while left and time.monotonic() - begun < longest:
            left = [machine for machine in left if status_of(machine) != 'synchronised']
            time.sleep(OFTEN if left else 0)
        if left:
            raise Failed(f'after {longest} s {", ".join(machine.name for machine in left)} isn\'t synchronised')
        return time.monotonic() - begun

    def joined_anew(self, machine, before, longest=JOINED):
        """Waits until a host is synchronised in another life than before; gives the seconds that this took."""
        begun = time.monotonic()
        while life_of(machine) in ('', before) or status_of(machine) != 'synchronised':
            if time.monotonic() - begun > longest:
                raise Failed(f'after {longest} s {machine.name} isn\'t synchronised in another life: {status_of(machine)}, {journal(machine)}')
            time.sleep(OFTEN)
        return time.monotonic() - begun


def page_of(machine):
    """What a machine's page says: the status, the role, the number of the daemon's life, and its rate; all empty, and 0, where nothing answers."""
    try:
        words = machine.says('/srv/sampler page').split()
    except Gone:
        words = []
    if len(words) != 4 or not words[0].isdigit():
        return Seen('', '', '', 0)
    return Seen(STATUSES[int(words[0])], ROLES[int(words[1])], words[2], int(words[3]))


def status_of(machine):
    """What a machine's page says: synchronised, holding, waiting or stale."""
    return page_of(machine).status


def life_of(machine):
    """The number of the daemon's life, which is another one at each start."""
    return page_of(machine).life


def is_another(one, before):
    """That the daemon was started again, and answers."""
    until = time.monotonic() + UP
    while life_of(one) in ('', before):
        wanted(time.monotonic() < until, f'the daemon of {one.name} isn\'t started again')
        time.sleep(OFTEN)


def journal(machine, words=''):
    """The last lines of the unit's supervisor."""
    return machine.says(f'journalctl -u tsp -o cat -n 4000 | grep tsp-launch: {words}| tail -n 8')


def wanted(is_so, text):
    """Ends a scenario where something isn't so."""
    if not is_so:
        raise Failed(text)


def made(folder, count, say):
    """A network in a folder, whose image is made first where it isn't there."""
    needs.wanted()
    os.makedirs(folder, exist_ok=True)
    if not os.path.exists(os.path.join(folder, 'disk')):
        say('the image of the machines is made, which takes some minutes')
    image.made(folder)
    sys.stdout.flush()
    return Network(folder, count, say)
