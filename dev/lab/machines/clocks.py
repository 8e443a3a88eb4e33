"""How far clocks of machines are apart, by the truth of the lab. Each function is a scenario, as in faults; it runs for the lab's minutes."""
import re
import time

from lab.machines import network, truth
from lab.machines.network import page_of, status_of, wanted

# How chronyd is set up: fed; with one server, which is the first machine; and with no server, all of them alike.
FED = '''driftfile /var/lib/chrony/chrony.drift
rtcsync
'''
SERVER = '''local stratum 10
allow 10.77.0.0/24
driftfile /var/lib/chrony/chrony.drift
makestep 1 3
rtcsync
'''
CLIENT = '''server 10.77.0.1 iburst minpoll 4 maxpoll 6
driftfile /var/lib/chrony/chrony.drift
makestep 1 3
rtcsync
'''
ORPHAN = '''local stratum 10 orphan
allow 10.77.0.0/24
driftfile /var/lib/chrony/chrony.drift
makestep 1 3
rtcsync
'''
# Clocks are compared on machines that nothing befalls: the first ones.
COMPARED = 3
# Seconds: until a source is taken, and until chronyd has settled with it; two rounds; how long a server is gone at least; and how long clocks are sampled
# around that.
SYNCHRONISED, SETTLED, ROUNDS, GONE, AROUND = 600, 60, 480, 300, 60
LEARNED = 1800
SORTS = 'own', 'shown', 'middle'
LOCAL = '7F7F0101'


def load():
    """How busy the host was in the last minutes."""
    with open('/proc/loadavg', encoding='ascii') as file:
        return ' and '.join(file.read().split()[:2])


def sorts(machines):
    """The sorts of clocks that these machines have: the network's too, where they are of a network."""
    return SORTS if all(status_of(machine) == 'synchronised' for machine in machines) else SORTS[:1]


def measured(net, machines=None, busy=None):
    """Samples machines for the lab's minutes, where one of them may be kept busy, and gives a line for each sort of clock, and how many intervals missed the
    master's clock."""
    machines = machines or net.machines[:COMPARED]
    what = sorts(machines)
    truth.begin(net, int(60 * net.minutes), machines)
    if busy:
        busy.burden(60 * net.minutes)
    time.sleep(60 * net.minutes + 5)
    seen = truth.Truth(net, machines)
    judged, outside = seen.missed()
    lines = [f'{sort}: {truth.three(seen.apart(sort))}' for sort in what]
    wanted(judged or 'shown' not in what, 'no reading had an interval')
    missed = f'; {outside} of {judged} intervals missed the master\'s clock' if judged else ''
    return f'{"; ".join(lines)} us{missed}; own clocks stepped: {seen.stepped()}; load of the host {load()}', outside


def idle(net):
    """Distances of shown values and of the middle of the interval, with nothing else on the machines: no interval misses the master's clock."""
    line, outside = measured(net)
    wanted(not outside, line)
    return line


def busy(net):
    """The same, while a follower is kept busy by programs that reckon and write."""
    line, outside = measured(net, busy=net[2])
    wanted(not outside, line)
    return line


def unlearned(net):
    """The same without learned rates: all daemons are started again with TSP_RATE=0, and later again as they were."""
    def with_rate(line):
        command = f'sed -i /^TSP_RATE=/d /etc/default/tsp; echo {line} >>/etc/default/tsp; systemctl restart tsp'
        net.each(lambda machine: machine.must(command, patience=network.UP))
        net.led()
    with_rate('TSP_RATE=0')
    line, outside = measured(net)
    wanted(not outside, line)
    with_rate('')
    return line


def learned(net):
    """Each follower learns a rate and counts by it, and two rounds more go by. What the hosts count more than their hardware makes all of them alike."""
    begun = time.monotonic()
    while not all(page_of(machine).rate for machine in net.followers()):
        wanted(time.monotonic() - begun < LEARNED, f'after {LEARNED} s the rates are {[page_of(machine).rate for machine in net.machines]}')
        time.sleep(network.OFTEN)
    took = time.monotonic() - begun
    time.sleep(ROUNDS)
    rates = [page_of(machine).rate / 1000 for machine in net.machines]
    hardware = [machine.ppm for machine in net.machines]
    counted = [rate + off for rate, off in zip(rates, hardware)]
    shown = ', '.join(f'{rate:+.2f}' for rate in rates)
    return (f'all followers counted by a learned rate after {took:.0f} s, and {ROUNDS} s later by {shown} parts in a million; with what their hardware is off '
            f'their counters were at most {max(counted) - min(counted):.2f} apart, and {max(hardware) - min(hardware)} before')


def has_source(machine):
    """Whether chronyd follows a source."""
    return re.search(r'^.\*', machine.says('chronyc -n sources'), re.MULTILINE)


def serves(machine):
    """Whether chronyd has no source but its own clock, which it serves."""
    return machine.says('chronyc -c tracking').startswith(LOCAL)


def settled(machine, longest=SYNCHRONISED):
    """Waits until chronyd has a source, and gives the seconds that this took; None where it has none."""
    begun = time.monotonic()
    while not has_source(machine):
        if time.monotonic() - begun > longest:
            return None
        time.sleep(network.OFTEN)
    return time.monotonic() - begun


def since_boot(machine, unit='chrony'):
    """Waits until chronyd has a source on a machine that boots, or serves its own clock, and gives how many seconds that was after a unit was up."""
    wanted(serves(machine) or settled(machine) is not None, f'chronyd of {machine.name} has no source: {machine.says("chronyc -n sources")}')
    up, started = machine.must(f'cut -d " " -f 1 /proc/uptime; systemctl show -p ActiveEnterTimestampMonotonic --value {unit}').split()
    return float(up) - int(started) / 1e6


def steps_of(machine):
    """How often chronyd stepped a machine's own clock, and by how much, by its journal."""
    return ', '.join(re.findall(r'System clock was stepped by (\S+ seconds)', machine.says('journalctl -u chrony -o cat --no-pager'))) or 'not stepped'


def by_chrony(net, texts, machines):
    """Sets up chronyd on machines, without a feed, and gives how long it took until each has a source; None where one has none."""
    for machine, text in zip(machines, texts):
        machine.says('systemctl disable --now tsp-feed; rm -f /etc/chrony/conf.d/tsp.conf /etc/chrony/sources.d/*')
        machine.write('/etc/chrony/chrony.conf', text)
    net.each(lambda machine: machine.must('systemctl enable chrony; systemctl restart chrony'), machines)
    return net.each(lambda machine: settled(machine, 150), machines)


def feed(net):
    """Own clocks that chronyd sets by samples of tsp-feed, with the unit and the example as they are installed: chronyd takes them on each machine."""
    machines = net.machines[:COMPARED]
    for machine in machines:
        machine.write('/etc/chrony/chrony.conf', FED + 'confdir /etc/chrony/conf.d\n')
        machine.must('mkdir -p /etc/chrony/conf.d; cp /usr/share/doc/tsp/examples/chrony.conf /etc/chrony/conf.d/tsp.conf; systemctl enable chrony; '
                     'systemctl restart chrony; tsp-feed --status; systemctl enable --now tsp-feed', patience=network.UP)
    took = net.each(settled, machines)
    wanted(None not in took, f'chronyd takes no samples: {machines[took.index(None)].says("chronyc -n sources; journalctl -u tsp-feed -o cat -n 5")}'
           if None in took else '')
    states = net.each(lambda machine: machine.says('systemctl is-active tsp-feed'), machines)
    wanted(states == ['active'] * len(machines), f'the units of the feed are {states}')
    return (f'chronyd takes samples after {", ".join(f"{seconds:.0f}" for seconds in took)} s; own clocks: '
            f'{"; ".join(f"{machine.name} {steps_of(machine)}" for machine in machines)}')


def server(net):
    """Own clocks by chronyd with the first machine as the server of the others, for comparison."""
    machines = net.machines[:COMPARED]
    took = by_chrony(net, [SERVER] + [CLIENT] * (len(machines) - 1), machines)
    time.sleep(SETTLED)
    return f'the clients have a source after {", ".join(str(round(one)) for one in took[1:] if one is not None)} s; ' + measured(net)[0]


def orphan(net):
    """Own clocks by chronyd without a server, each a peer of all others as `local orphan`, for comparison."""
    machines = net.machines[:COMPARED]
    texts = [ORPHAN + ''.join(f'peer {other.address} minpoll 4 maxpoll 6\n' for other in machines if other is not machine) for machine in machines]
    took = by_chrony(net, texts, machines)
    time.sleep(SETTLED)
    return f'sources after {", ".join("none" if one is None else str(round(one)) for one in took)} s; ' + measured(net)[0]


def gone(net, victim, is_over, unit):
    """The power of a machine goes, and is back once the others have another one, or after some minutes: how long that took, how far their own clocks were apart
    before, meanwhile and afterwards, how long after its boot the machine had a source, and which clocks were stepped."""
    others, total = [machine for machine in net.machines[:COMPARED] if machine is not victim], AROUND + SYNCHRONISED * 3
    truth.begin(net, total, others)
    time.sleep(AROUND)
    rate = truth.counts_in_microsecond(net.answerer)
    moments = [truth.now(net) / rate]
    victim.cut()
    took = is_over(others)
    moments.append(truth.now(net) / rate)
    victim.start()
    victim.ready()
    again = since_boot(victim, unit)
    moments.append(truth.now(net) / rate)
    time.sleep(2 * AROUND)
    seen = truth.Truth(net, others)
    bounds = [0, *moments, float('inf')]
    parts = [truth.three(seen.apart('own', begun, ended)) for begun, ended in zip(bounds, bounds[1:])]
    return (f'{took}; own clocks of the others were apart by {parts[0]} us before, {parts[1]} while it was gone, {parts[2]} until it had a source again, '
            f'{parts[3]} then; {victim.name} had a source {again:.0f} s after its unit {unit} was up; stepped: {seen.stepped()} of the others, '
            f'{victim.name} {steps_of(victim)}')


def feed_gone(net):
    """The power of the master goes, while own clocks are fed: another host leads, its followers' clocks are fed again, and none of these is stepped."""
    victim = net.master()
    wanted(victim in net.machines[:COMPARED], f'{victim.name} leads, whose clock isn\'t fed')

    def is_over(_):
        begun, others = time.monotonic(), [machine for machine in net.machines if machine is not victim]
        led = net.leads(others)
        net.led(machines=others)
        return f'another host led {led:.0f} s after the power went, and all followed it after {time.monotonic() - begun:.0f}'
    return gone(net, victim, is_over, 'tsp')


def server_gone(net):
    """The power of chronyd's only server goes, and is back after five minutes."""
    def is_over(_):
        time.sleep(GONE)
        return f'for {GONE} s there was no server'
    return gone(net, net[1], is_over, 'chrony')


def orphan_gone(net):
    """The power of the host goes that the others follow as `local orphan`, and is back after five minutes, or as soon as another one serves."""
    machines = net.machines[:COMPARED]
    victim = next(machine for machine in machines if serves(machine))

    def is_over(others):
        begun = time.monotonic()
        while sum(map(serves, others)) != 1 or sum(bool(has_source(machine)) for machine in others) != len(others) - 1:
            if time.monotonic() - begun > GONE:
                return f'in {GONE} s no other host served'
            time.sleep(network.OFTEN)
        return f'another host served {time.monotonic() - begun:.0f} s after the power went'
    return gone(net, victim, is_over, 'chrony')
