"""The package's profile for AppArmor on machines whose kernel has that. Each function is a scenario, as in faults."""
import re
import time

from lab.machines import network
from lab.machines.network import life_of, wanted

PROFILE = '/etc/apparmor.d/tsp'
# What the kernel's log has of a profile: what is refused, or noted as what would be.
NOTED = re.compile(r'apparmor="(ALLOWED|DENIED)" .*profile="tsp')
# What a machine's user calls while the daemon is confined: each ends well, or by a status that says something of the network. A page or two of each is enough.
TOOLS = ('tsp-launch --lint', 'tsp-launch -n', 'tsp-status', 'tsp-now', 'tsp-now --tracking', 'tsp-now --offset', 'tsp-watch --lines | tail -n 3',
         'tsp-watch --json | head -n 1', 'tsp-witness --help | head -n 1', 'tsp clockdiff 10.77.0.1:525',
         'python3 -c "import tsp_clock; print(tsp_clock.Clock().now().status)"', 'tsp-run date')
# What the profile is meant to refuse: a file that only root may read, tried by a program that the profile has.
REFUSED = 'aa-exec -p tsp -- /usr/bin/head -n 1 /etc/shadow'


def cursor(machine):
    """The place that the journal has reached."""
    return re.search(r'cursor: (\S+)', machine.must('journalctl -n 0 --show-cursor'))[1]


def noted(machine, since):
    """The lines of the kernel's log since then that are of the profile, without their beginning."""
    said = machine.says(f'journalctl -k -o cat --no-pager --after-cursor="{since}"')
    return [line[line.index('apparmor='):] for line in said.splitlines() if NOTED.search(line)]


def label(machine):
    """By which profile, in which mode, the daemon and its supervisor run."""
    return set(machine.must('for process in $(pgrep -x tsp) $(systemctl show -p MainPID --value tsp); do cat /proc/$process/attr/current; done').splitlines())


def exercise(net, one):
    """All that the daemon and its supervisor do, one after the other: a reload, a killed daemon, a cable that is out, a question of each tool, a restart."""
    one.must('systemctl reload tsp')
    before = life_of(one)
    one.must('pkill -KILL -x tsp')
    network.is_another(one, before)
    one.pull()
    time.sleep(10)
    one.plug()
    # (a trace that is full is put aside and compressed)
    one.must('systemctl stop tsp; head -c 9000000 /dev/zero | tr "\\0" x >>/var/log/tsp/trace; systemctl start tsp', patience=network.UP)
    until = time.monotonic() + network.UP
    while one.run('test -e /var/log/tsp/trace.000001.gz')[0]:
        wanted(time.monotonic() < until, f'a trace that is full isn\'t put aside: {one.says("ls -l /var/log/tsp")}')
        time.sleep(network.OFTEN)
    one.must('rm /var/log/tsp/trace.000001.gz')
    net.joined([one])
    for command in TOOLS:
        status, said = one.run(f'{command} 2>&1')
        wanted(status in (0, 1), f'`{command}` ends with {status}: {said.decode("utf-8", "replace")[-300:]}')
    one.must('systemctl restart tsp', patience=network.UP)
    return net.joined([one])


def confined(net):
    """The profile for AppArmor, as the package loads it and then by aa-enforce: the kernel's log has nothing that the daemon or its supervisor lacks, whatever
    they do, with the tools beside them; and a file of root's is refused."""
    one = net.victim()
    wanted(one.says('cat /sys/module/apparmor/parameters/enabled') == 'Y', 'the kernel has no AppArmor')
    found, since = [], cursor(one)
    for mode in ('complain', 'enforce'):
        if mode == 'enforce':
            one.must(f'aa-enforce {PROFILE}', patience=network.UP)
        one.must('systemctl restart tsp', patience=network.UP)
        net.joined([one])
        seen = label(one)
        wanted(seen == {f'tsp ({mode})'}, f'in {mode} mode the processes of {one.name} are {seen}')
        took = exercise(net, one)
        lacks = noted(one, since)
        wanted(not lacks, f'in {mode} mode the kernel notes {len(lacks)} lines: {"; ".join(sorted(set(map(brief, lacks))))}')
        found.append(f'{mode}: nothing noted, synchronised {took:.0f} s after the last restart')
    status, _ = one.run(REFUSED)
    last = noted(one, since)
    wanted(status and last and all('DENIED' in line and '/etc/shadow' in line for line in last),
           f'/etc/shadow is read with status {status}, and the kernel notes {last}')
    one.must(f'aa-complain {PROFILE}', patience=network.UP)
    return f'{"; ".join(found)}; /etc/shadow was refused'


def brief(line):
    """What a line says, without numbers of processes."""
    return ' '.join(re.findall(r'(?:apparmor|operation|class|name|comm|requested_mask|capname|family|sock_type|peer|signal)="?[^" ]*"?', line))
