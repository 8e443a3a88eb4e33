"""The commands for systemd that the pages print, and programs in C that were built with an older header. Each function is a scenario, as in faults."""
import os
import re
import subprocess
import time
from collections import namedtuple

from lab.hosts import Failed
from lab.machines import network, pages
from lab.machines.network import is_another, life_of, status_of, wanted

UNITS = '/etc/systemd/system'
# Seconds: until metrics are there, a unit has started, and a command shows what is new.
METRICS, STARTED, SOON = 150, 300, 60
COLLECTED = '/var/lib/prometheus/node-exporter'
CHRONY = 'driftfile /var/lib/chrony/chrony.drift\nconfdir /etc/chrony/conf.d\n'
# Versions of the header: one of each version of the page that programs were built with, by the commit that had it last.
HEADERS = (('1', '975fbc1f'), ('2', '77bc3f38'))
STALE, SYNCHRONISED = 0, 2
# The section of the guide on chronyd and the date.
NEAR = 'Keep it near true time'


class Step(namedtuple('Step', 'command before proof edited', defaults=('',))):
    """A command of the pages, what is done before it, what is to be so afterwards, or else `proof` raises Failed, and what is written in the editor
    that it calls."""
    __slots__ = ()

    def call(self, one):
        """Calls the command on a machine, where it is to end well."""
        if self.edited:
            pages.edit(one, self.command, self.edited)
        else:
            one.must(f'{self.command} </dev/null | cat; exit ${{PIPESTATUS[0]}}', patience=STARTED)


def shows(command, pattern):
    """That a command soon writes what fits a pattern."""
    def proof(one, _):
        until = time.monotonic() + SOON
        while not re.search(pattern, said := one.says(command), re.MULTILINE):
            wanted(time.monotonic() < until, f'`{command}` doesn\'t show {pattern}: {said[-400:]}')
            time.sleep(network.OFTEN)
    return proof


def is_same(one, before):
    """That the daemon went on."""
    time.sleep(3)
    wanted(life_of(one) == before, f'the daemon of {one.name} was started again')
    wanted(one.says('systemctl is-active tsp') == 'active', f'the unit of {one.name} isn\'t active')


def read_again(one, before):
    """That the hosts file was read again, with a line, and the daemon went on."""
    shows('journalctl -u tsp -o cat --no-pager', r'Reloaded [^\0]*hosts file [^\n]* was read: the daemon goes on')(one, before)
    is_same(one, before)


def is_on(unit):
    """That a unit is active and enabled."""
    def proof(one, _):
        said = one.says(f'systemctl is-active {unit}; systemctl is-enabled {unit}').split()
        wanted(said == ['active', 'enabled'], f'{unit} is {said}: {one.says(f"systemctl status {unit} --no-pager -l | tail -n 8")}')
    return proof


def has_dropin(unit, line):
    """That a unit has a line of its administrator's."""
    def proof(one, _):
        wanted(line in one.must(f'systemctl cat {unit}'), f'{unit} has no {line}')
    return proof


def writes_metrics(one, _):
    """That node_exporter serves the metrics of the page and of all hosts."""
    one.must('systemctl start prometheus-node-exporter', patience=STARTED)
    until = time.monotonic() + METRICS
    while True:
        served = one.says('curl -s http://127.0.0.1:9100/metrics | grep -E "^tsp_" | sed "s/[{ ].*//" | sort | uniq -c')
        if 'tsp_clock_' in served and 'tsp_host_' in served:
            break
        wanted(time.monotonic() < until, f'node_exporter serves {served!r}; there are {one.says(f"ls -la {COLLECTED}")}')
        time.sleep(5)
    one.must('systemctl disable --now tsp-metrics.timer; systemctl stop prometheus-node-exporter')


def sets_date(one, _):
    """That the timer is on, and what it starts sets the date."""
    is_on('tsp-true.timer')(one, _)
    one.must('systemctl start tsp-true.service', patience=STARTED)
    one.must('systemctl disable --now tsp-true.timer')


def with_chrony(one):
    """chronyd without a source, as the guide has it, up to its restart."""
    one.write('/etc/chrony/chrony.conf', CHRONY)
    one.must('mkdir -p /etc/chrony/conf.d')
    for line in pages.blocks(NEAR)[0].splitlines():
        if line.startswith('cp '):
            one.must(line)


def with_true(one):
    """The units of the guide by which a host sets the true date."""
    for name, text in re.findall(r'^# (/etc/systemd/system/\S+?)[;\n].*?\n?((?:^[^#\n].*\n|^\n)+)', pages.blocks(NEAR)[-1] + '\n', re.MULTILINE):
        one.write(name, text)
    one.must('systemctl daemon-reload')


def nothing(_):
    """Nothing has to be done before."""


# Each command of the pages, in an order in which they can be called on a host that follows. Those of the tunnel are in the scenario `tunnelled`.
ELSEWHERE = ('systemctl enable --now wg-quick@tsp', 'systemctl restart wg-quick@tsp', 'systemctl disable --now wg-quick@tsp')
# Those of nftables' own service: no machine of the lab has it, and no test calls them.
UNTRIED = ('systemctl enable --now nftables', 'systemctl reload nftables')
STEPS = (
    Step('systemctl enable --now tsp', nothing, is_on('tsp')),
    Step('systemctl start tsp', nothing, is_same),
    Step('systemctl is-active tsp', nothing, shows('systemctl is-active tsp', r'^active$')),
    Step('journalctl -u tsp -p warning --since yesterday', nothing, is_same),
    Step('systemctl status tsp', nothing, shows('systemctl status tsp --no-pager -l', r'Status: ".*follows')),
    Step('journalctl -u tsp', nothing, shows('journalctl -u tsp --no-pager', r'runs and answers at .* by a hosts file with the digest [0-9a-f]{16}')),
    Step('journalctl -u tsp -o cat -n 1 -q --no-pager -g "hosts file with the digest"', nothing,
         shows('journalctl -u tsp -o cat -n 1 -q -g "hosts file with the digest"', r'^[^\n]*the digest [0-9a-f]{16}')),
    Step('systemctl reload tsp', nothing, read_again),
    Step('systemctl edit tsp', nothing, has_dropin('tsp', 'After=time-sync.target'), '[Unit]\nAfter=time-sync.target\n'),
    Step('systemctl daemon-reload', nothing, is_same),
    Step('systemctl enable --now tsp-metrics.timer', nothing, writes_metrics),
    Step('systemctl restart chrony', with_chrony, shows('chronyc -n sources', 'TSP')),
    Step('systemctl enable --now tsp-feed', nothing, is_on('tsp-feed')),
    Step('journalctl -u tsp-feed', nothing, shows('journalctl -u tsp-feed --no-pager', 'samples are sent')),
    Step('systemctl restart tsp', nothing, is_another),
    Step('systemctl enable --now tsp-true.timer', with_true, sets_date),
)


def not_tried():
    """The commands of the pages for which there is no step, and the steps whose command is on no page."""
    printed, tried = set(pages.commands()), {step.command for step in STEPS} | {*ELSEWHERE, *UNTRIED}
    return sorted(printed - tried), sorted(tried - printed)


def printed(net):
    """On a host that follows, each command for systemd that README, the operator's guide, manual pages and examples print does what its page says."""
    new, old = not_tried()
    wanted(not new and not old, f'the pages print {new}, for which there is no step, and no longer {old}')
    one, found = net.victim(), []
    for step in STEPS:
        step.before(one)
        before = life_of(one)
        step.call(one)
        try:
            step.proof(one, before)
        except Failed as fault:
            raise Failed(f'after `{step.command}`: {fault}') from fault
        found.append(step.command)
    one.must(f'systemctl disable --now tsp-feed chrony; rm -rf {UNITS}/tsp.service.d {UNITS}/tsp-metrics.service.d {UNITS}/tsp-true.*; systemctl daemon-reload')
    took = net.joined([one])
    said = one.says('journalctl -u tsp -u tsp-feed -u tsp-metrics -p err -o cat -b').strip()
    wanted(not said, f'the journal has errors: {said[-300:]}')
    return f'{len(found)} commands did what their pages say, no error in the journal; synchronised {took:.0f} s after the last restart'


def reader(net, commit):
    """A program that reads the page by the header of a commit."""
    folder = os.path.join(net.folder, f'header-{commit}')
    os.makedirs(folder, exist_ok=True)
    shown = subprocess.run(['git', 'show', f'{commit}:tools/tsp_clock.h'], cwd=pages.TOP, stdout=subprocess.PIPE, stderr=subprocess.DEVNULL, check=False)
    wanted(shown.returncode == 0, f'the clone has no commit {commit}, whose header is to be tried')
    with open(os.path.join(folder, 'tsp_clock.h'), 'wb') as file:
        file.write(shown.stdout)
    program = os.path.join(folder, 'reads')
    subprocess.run(['cc', '-O2', '-static', f'-I{folder}', '-o', program, os.path.join(os.path.dirname(os.path.realpath(__file__)), 'reads.c')], check=True)
    return program


def headers(net):
    """Programs in C that were built with headers of earlier versions, on a host whose daemon is of this one: where the page's version is the header's they read
    what tsp-now reads, else they say that there is no page, and nothing wrong."""
    one, found = net.followers()[-1], []
    wanted(status_of(one) == 'synchronised', f'{one.name} isn\'t synchronised')
    version = one.must('od -An -t u4 -j 8 -N 4 /run/tsp/clock').split()[0]
    for of, commit in HEADERS:
        one.put(reader(net, commit), f'/srv/reads-{commit}', '755')
        opened, status, shown, width = map(int, one.must(f'/srv/reads-{commit}').split())
        true = float(one.must('tsp-now +%s.%N'))
        if of == version:
            wanted((opened, status) == (0, SYNCHRONISED), f'the header of page {of} doesn\'t read a page {version}: {opened}, {status}')
            wanted(0 < true - shown / 1e6 < 30 and 0 < width < 100_000, f'it reads {shown} us, {width} wide, {true} s before tsp-now')
        else:
            wanted((opened, status) == (-1, STALE), f'the header of page {of} reads a page {version}: {opened}, {status}')
        found.append(f'header of page {of}: {"read as tsp-now reads it" if of == version else "no page, status stale"}')
    return f'the page has version {version}; {"; ".join(found)}'
