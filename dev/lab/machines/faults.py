"""What befalls machines of a network that a host leads. Each function is a scenario: it gives what was seen, and raises Failed where the state isn't as it
is wanted afterwards."""
import random
import re
import time

from lab.machines import network
from lab.machines.network import journal, life_of, status_of, wanted

# Seconds: a sleep, a stop by the hypervisor, a short time without a cable, the grace, a time that is longer, and between two
# looks in it; and how long something is waited for.
ASLEEP, STOPPED, SHORT, GRACE, LONG, LOOKS = 30, 60, 10, 600, 660, 20
AGAIN = 240
# Seconds: for how long programs take a processor, and by when a trace that logrotate has put aside grows again: a follower writes little between rounds.
BURDENED, GROWS = 180, 300
CUTS, APART = 20, 90
# What logrotate is told of a trace, and that trace.
ROTATES, DAILY = '/etc/logrotate.d/tsp', '/var/log/tsp/daily'
# Fills a disk without writing all of it.
FILL = 'mkdir /var/filler; for size in 256M 32M 4M 512K 64K 4K; do while fallocate -l $size /var/filler/$((number++)) 2>/dev/null; do :; done; done; sync'


def lives(machines):
    """The lives of daemons, by which one that was started again is known."""
    return [life_of(machine) for machine in machines]


def none_failed(machine):
    """That no unit of a machine has failed."""
    failed = machine.says('systemctl --failed --no-legend --plain | cut -d " " -f 1')
    wanted(not failed, f'{machine.name} has failed units: {failed}')


def offset_ms(machine):
    """By how many milliseconds the network's time is ahead of a machine's own clock."""
    return 1000 * float(machine.must('tsp-now --offset').split()[0])


def suspend(net):
    """A follower sleeps for 30 s: its daemon is started again as it wakes, and it is synchronised within 350 s."""
    one = net.victim()
    before = life_of(one)
    one.says('systemd-run --on-active=1 --timer-property=AccuracySec=100ms sh -c "echo mem >/sys/power/state"')
    time.sleep(5)
    until = time.monotonic() + AGAIN
    while one.monitor('query-status')['status'] != 'suspended':
        wanted(time.monotonic() < until, f'{one.name} doesn\'t sleep')
        time.sleep(1)
    time.sleep(ASLEEP)
    one.monitor('system_wakeup')
    took = net.joined_anew(one, before)
    said = journal(one, '| grep -o "the machine slept for [0-9]* s" ')
    wanted(said, f'the journal of {one.name} says nothing of a sleep')
    return f'{said.splitlines()[-1]}; synchronised {took:.0f} s after it woke'


def stopped(net):
    """A follower is stopped by its hypervisor for 60 s: other hosts' clocks tell it, its daemon is started again, and it is synchronised within 350 s."""
    one = net.victim()
    before = life_of(one)
    one.monitor('stop')
    time.sleep(STOPPED)
    one.monitor('cont')
    took = net.joined_anew(one, before)
    said = journal(one, '| grep -o "stood still for [0-9]* s" ')
    wanted(said, f'the journal of {one.name} says nothing of a stop: {journal(one)}')
    return f'{said.splitlines()[-1]}; synchronised {took:.0f} s after it went on'


def out(net, machines, seconds):
    """The cables of these machines are out for so long; then gives how long it took until their hosts are synchronised, and whether their daemons went on."""
    before = lives(machines)
    for machine in machines:
        machine.pull()
    time.sleep(seconds)
    held = [status_of(machine) for machine in machines]
    for machine in machines:
        machine.plug()
    begun = time.monotonic()
    net.each(lambda machine: machine.must('until ip -4 -o address show eth0 | grep -q inet; do sleep 1; done'), machines)
    return begun, before, held


def cable_short(net):
    """A follower's cable is out for 10 s, then the master's, then that of all: no daemon is started again, the same host leads, and all are synchronised."""
    master, found = net.master(), []
    for which, machines in (('a follower', [net.victim()]), ('the master', [master]), ('all', net.machines)):
        begun, before, _ = out(net, machines, SHORT)
        net.joined(net.machines)
        took = time.monotonic() - begun
        wanted(lives(machines) == before, f'of {which} a daemon was started again: {journal(machines[0])}')
        wanted(net.master() is master, f'after {which} another host leads: {net.each(network.page_of)}')
        found.append(f'{which}: {took:.0f} s')
    return f'no daemon was started again; all synchronised after the cable was in again: {", ".join(found)}'


def cable_long(net):
    """A follower's cable is out for 11 minutes, longer than the grace: its page holds over, until it leads alone if it may be master; its daemon is ended,
    started again, and it follows within 350 s."""
    one = net.victim()
    before, seen = life_of(one), []
    one.pull()
    until = time.monotonic() + LONG
    while time.monotonic() < until:
        seen.append(network.page_of(one))
        time.sleep(LOOKS)
    one.plug()
    took = net.joined_anew(one, before)
    held, alone = sum(page.status == 'holding' for page in seen), sum(page.role == 'leads' for page in seen)
    wanted(held and seen[-1].status in ('stale', '') and (one.number < network.SLAVE_FROM or not alone),
           f'while its cable is out the page of {one.name} says {seen}')
    said = journal(one, '| grep -o "hasn.t been for [0-9]* s" ')
    wanted(said, f'the journal of {one.name} doesn\'t say that the address is given up: {journal(one)}')
    led = f', and it led alone for {LOOKS * alone} s' if alone else ''
    return f'the page held over for {LOOKS * held} s{led}; the address {said.splitlines()[-1]}; synchronised {took:.0f} s after the cable was in again'


def master_long(net):
    """The master's cable is out for 10 minutes: another host leads meanwhile, and once the cable is in again one of both leads, and all others follow."""
    first = net.master()
    first.pull()
    led = net.leads([machine for machine in net.machines if machine is not first])
    time.sleep(max(0, GRACE - led))
    first.plug()
    begun = time.monotonic()
    last = net.led()
    return f'another host led {led:.0f} s later; when the cable was in again, {last.name} led alone after {time.monotonic() - begun:.0f} s'


def step(net):
    """A machine's own clock is set ahead by 10 s: the network's time and the daemon don't move."""
    one = net.victim()
    before, ahead = life_of(one), offset_ms(one)
    one.must('date -s @$(($(date +%s) + 10))')
    moved = offset_ms(one) - ahead
    time.sleep(20)
    wanted(-11_000 < moved < -9_000, f'the offset from the own clock moved by {moved:.0f} ms')
    wanted(life_of(one) == before and status_of(one) == 'synchronised', 'the daemon was started again, or is no longer synchronised')
    return f'the offset of the own clock moved by {moved / 1000:.1f} s, and the daemon went on'


def killed(net):
    """A follower's daemon is killed, and then its supervisor: each time it is up again by itself, and synchronised within 350 s."""
    one, found = net.victim(), []
    for what, command in (('the daemon', 'pkill -KILL -x tsp'), ('the supervisor', 'systemctl kill --kill-who=main -s KILL tsp')):
        before = life_of(one)
        one.must(command)
        found.append(f'{what}: {net.joined_anew(one, before):.0f} s')
    return f'synchronised again after the kill of {", ".join(found)}'


def restarted(net):
    """A follower's unit is restarted by systemctl: it is synchronised within 350 s."""
    return f'synchronised {net.restart(net.victim()):.0f} s after its restart'


def next_master(net):
    """The master's unit is restarted: another host leads within 11.5 minutes, or the same one again, and all others follow it."""
    first, last, led, all_follow = net.restart_master()
    return f'{first.name} led; {last.name} led {led:.0f} s after its restart, and all followed it {all_follow:.0f} s after that'


def rotated(net):
    """All logs of a follower are put aside by logrotate and journald, and with them a trace that is set up as the example has it: a new file grows, and the
    daemon goes on."""
    one = net.victim()
    if one.run(f'[ -e {ROTATES} ]')[0]:
        one.must(f'cp /usr/share/doc/tsp/examples/logrotate {ROTATES}; echo TSP_OUTPUT={DAILY} >>/etc/default/tsp')
        net.restart(one)
    before, until = life_of(one), time.monotonic() + GROWS
    one.must('journalctl --rotate; logrotate --force /etc/logrotate.conf', patience=300)
    while not one.says(f'find {DAILY} -size +0'):
        wanted(time.monotonic() < until, f'the new trace of {one.name} doesn\'t grow: {one.says(f"ls -l {DAILY}*")}')
        time.sleep(network.OFTEN)
    aside = one.must(f'ls {DAILY}[.-]*').split()
    wanted(life_of(one) == before and status_of(one) == 'synchronised', f'the daemon was started again, or is no longer synchronised: {journal(one)}')
    return f'{len(aside)} traces are put aside, the new one grows, and the daemon went on'


def burdened(net):
    """Programs take a follower's processor for three minutes: its daemon goes on, and its page says that it is synchronised all the time."""
    one = net.victim()
    before, until, seen = life_of(one), time.monotonic() + BURDENED, []
    one.burden(BURDENED)
    while time.monotonic() < until:
        seen.append(network.page_of(one))
        time.sleep(network.OFTEN)
    odd = [page for page in seen if (page.life, page.status) != (before, 'synchronised')]
    wanted(not odd, f'of {len(seen)} looks {len(odd)} are {odd[:3]}')
    return f'{len(seen)} looks at the page in {BURDENED} s, all synchronised'


def full(net):
    """A disk is full while the unit runs, and when it starts: what runs goes on; what starts fails with 226, and is up by itself once there is room."""
    one = net.victim()
    before = life_of(one)
    one.must(FILL, patience=600)
    wanted(one.run('echo x >/var/lib/tsp/x')[0], f'the disk of {one.name} isn\'t full')
    time.sleep(30)
    wanted(life_of(one) == before and status_of(one) == 'synchronised', f'a full disk ends a daemon that runs: {journal(one)}')
    one.says('timeout 60 systemctl restart tsp')
    time.sleep(15)
    said = one.says('systemctl show -p ExecMainStatus --value tsp; systemctl is-active tsp')
    one.must('rm -rf /var/filler /var/lib/tsp/x')
    took = net.joined_anew(one, before)
    return f'what ran went on; a start by then: {" ".join(said.split())}; synchronised {took:.0f} s after there was room'


def memory(net):
    """A program takes all of a machine's memory: whatever the system kills, the unit is up again by itself, and synchronised within 350 s."""
    one = net.victim()
    one.says('systemd-run --quiet --collect --unit=hog sh -c "tail /dev/zero"; sleep 20')
    until = time.monotonic() + AGAIN
    while 'Out of memory' not in one.says('dmesg'):
        wanted(time.monotonic() < until, f'nothing on {one.name} is killed')
        time.sleep(5)
    victims = sorted(set(re.findall(r'Killed process [0-9]+ \(([^)]*)\)', one.says('dmesg'))))
    took = net.joined([one], 2 * AGAIN)
    return f'the system killed {", ".join(victims)}; synchronised {took:.0f} s later'


def reboot(net):
    """A follower is started again: its unit is up by itself, and it is synchronised."""
    one = net.victim()
    before = life_of(one)
    one.says('systemctl --no-block reboot')
    time.sleep(20)
    one.ready()
    took = net.joined_anew(one, before)
    return f'up by itself, and synchronised {took:.0f} s after it had booted'


def blackout(net):
    """The power of all machines goes at once, and is back: all units are up by themselves, one host leads, and all others follow it."""
    for machine in net.machines:
        machine.cut()
    for machine in net.machines:
        machine.start()
    net.each(lambda machine: machine.ready())
    begun = time.monotonic()
    leads = net.led()
    return f'{leads.name} leads {time.monotonic() - begun:.0f} s after all had booted'


def power(net):
    """The power of the followers is cut 20 times in all, each at any moment between its boot and a minute and a half later: after the last cut all are
    synchronised, no file of the service is cut off, and no unit has failed."""
    followers, draw = net.followers(), random.Random(79)
    plan = {machine: [draw.uniform(0, APART) for _ in range(number, CUTS, len(followers))] for number, machine in enumerate(followers)}

    def cut(machine):
        for moment in plan[machine]:
            time.sleep(moment)
            machine.cut()
            machine.start()
            machine.ready()

    begun = time.monotonic()
    net.each(cut, followers)
    took = net.joined(followers, 2 * AGAIN)
    for machine in followers:
        none_failed(machine)
        size = machine.says('wc -c </etc/tsp/hosts; tsp-launch --lint && echo well')
        wanted(size.endswith('well'), f'the hosts file of {machine.name} is no longer well: {size}')
        odd = machine.says('for file in /var/lib/tsp/rate; do [ ! -e $file ] || head -n 1 $file; done')
        wanted(odd == '' or re.match(r'-?[0-9]+ [0-9]+', odd), f'the rate file of {machine.name} begins with {odd!r}')
    count = sum(map(len, plan.values()))
    return f'{count} cuts in {(time.monotonic() - begun) / 60:.0f} minutes; all were synchronised {took:.0f} s after the last one, and no file was cut off'
