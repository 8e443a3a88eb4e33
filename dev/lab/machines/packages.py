"""The package on machines: install, upgrade and purge. Each function is a scenario, as in faults."""
import re
import time

from lab.machines.network import life_of, page_of, status_of, wanted

VERSION = 'dpkg-query -W -f \'${Version}\' tsp'
# What bears the package's name on a machine; what is there before the package is, and what lies in memory.
NAMED = 'find / -xdev -name "*tsp*" -not -path "/srv/*" | sort'
BEFORE, IN_MEMORY = '/srv/before', 'ls -d /run/tsp /dev/shm/*tsp* 2>/dev/null; grep "^tsp " /sys/kernel/security/apparmor/profiles'


def install(net):
    """From bare machines by the pages alone: the package, the hosts file, one command for the unit. Each is up, one host leads, and all are synchronised."""
    net.each(lambda machine: machine.must(f'{NAMED} >{BEFORE}'))
    begun = time.monotonic()
    net.set_up(net.package)
    led = time.monotonic() - begun
    net.joined(net.machines)
    exposure = net[1].says('systemd-analyze security tsp --no-pager | tail -n 1')
    found = re.search(r'[0-9]+\.[0-9]+', exposure)
    return f'{net.master().name} leads {led:.0f} s after the first command, and all are synchronised; exposure {found.group() if found else exposure}'


def beneath(net, one):
    """Installs the package on a machine whose daemon runs, and sees that this one went on."""
    life = life_of(one)
    net.install(net.package, [one])
    wanted(life_of(one) == life and status_of(one) == 'synchronised', f'the package restarted the daemon of {one.name}')


def again(net):
    """The package is installed again on a follower, as an unattended upgrade does: the daemon goes on, and the unit is as it was."""
    one = net.victim()
    begun = time.monotonic()
    beneath(net, one)
    took = time.monotonic() - begun
    said = one.says('systemctl is-active tsp; systemctl is-enabled tsp').split()
    wanted(said == ['active', 'enabled'], f'the unit of {one.name} is {said}')
    return f'no daemon restarted by the package, which took {took:.0f} s'


def upgrade(net):
    """From the version before to this one, host by host, the master last: the package restarts no daemon. Then another host leads within 11.5 minutes, or the
    same one again, and all others follow it."""
    wanted(net.earlier, 'an upgrade needs --earlier, the package of the version before')
    begun, before = time.monotonic(), net[1].says(VERSION)
    master, followed = net.master(), []
    for one in net.followers():
        beneath(net, one)
        followed.append(net.restart(one))
    beneath(net, master)
    _, last, led, all_follow = net.restart_master()
    after = net[1].says(VERSION)
    wanted(after != before, f'the version is {after}, as before')
    each = ', '.join(f'{seconds:.0f}' for seconds in followed)
    return (f'{before} to {after}, no daemon restarted by the package; followers were synchronised {each} s after their restarts; after that of the master, '
            f'{master.name}, {last.name} led {led:.0f} s later, and all followed it {all_follow:.0f} s later; {time.monotonic() - begun:.0f} s in all')


def purge(net):
    """The package is purged from a slave: neither a process nor a file of it is left, and the other hosts go on."""
    one = net.machines[-1]
    master = net.master()
    wanted(one is not master, f'{one.name} leads, and a slave is to be purged')
    one.must('apt-get purge -y tsp', patience=300)
    left = one.says(f'{NAMED} | comm -13 {BEFORE} -; {IN_MEMORY}; pgrep -a -x tsp; pgrep -a tsp-; systemctl list-units --all --no-legend "tsp*"')
    wanted(not left, f'a purge leaves {left}')
    wanted(net.master() is master and status_of(net[2]) == 'synchronised', f'the others don\'t go on: {net.each(page_of)}')
    net.install(net.package, [one])
    one.write('/etc/tsp/hosts', net.hosts())
    one.must('systemctl enable --now tsp', patience=200)
    return f'nothing is left; installed again, it is synchronised after {net.joined([one]):.0f} s'
