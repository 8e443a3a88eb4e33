"""Samples of machines over all that befalls them: a unit takes them from each boot on, and the lab asks for a machine's counter before and after what may set
that anew."""
from collections import namedtuple

from lab.machines import truth

PLACE, BOOT = '/srv/record', '/proc/sys/kernel/random/boot_id'
UNIT = f'''[Service]
ExecStart=/bin/sh -c 'mkdir -p {PLACE}; exec /srv/sampler SECONDS >>{PLACE}/$(cat {BOOT})'

[Install]
WantedBy=multi-user.target
'''
# A counter goes on if the host's is ahead of it by as much as before, to so many counts (a microsecond or two).
SAME = 5000


class Mark(namedtuple('Mark', 'boot lines ahead')):
    """Which boot of a machine this was in, how many lines of it there were, and by how many counts the host's counter was ahead of its own."""
    __slots__ = ()


def pieces(marks, count):
    """The parts of the lines of one boot that can be told, where there are so many: from which line on, up to which one, and by how many counts the host's
    counter is ahead there. Between two marks that differ, something set the counter anew, and nobody knows at which line."""
    bounds = [0, *(mark.lines for mark in marks), count]
    same = [one.ahead if abs(one.ahead - other.ahead) <= SAME else None for one, other in zip(marks, marks[1:])]
    aheads = [marks[0].ahead, *same, marks[-1].ahead]
    return [(first, last, ahead) for first, last, ahead in zip(bounds, bounds[1:], aheads) if ahead is not None]


class Record:
    """The samples of all machines of a network, for so many seconds."""

    def __init__(self, net, seconds):
        self.net, self.marks = net, {machine: [] for machine in net.machines}

        def one(machine):
            machine.write('/etc/systemd/system/record.service', UNIT.replace('SECONDS', str(int(seconds))))
            machine.must('systemctl daemon-reload; systemctl enable --now record')
        net.each(one)
        self.mark(net.machines)

    def mark(self, machines):
        """Notes the counters of machines, one after the other, since each keeps a processor busy."""
        for machine in machines:
            ahead, _ = truth.offset(self.net, machine)
            boot, lines = machine.must(f'cat {BOOT}; wc -l <{PLACE}/$(cat {BOOT})').split()
            self.marks[machine].append(Mark(boot, int(lines), ahead))

    def samples(self, _, machine):
        """The samples of a machine, by the host's counter. They stay in the lab's folder."""
        marks, found = self.marks[machine], []
        for boot in dict.fromkeys(mark.boot for mark in marks):
            lines = machine.get(f'{PLACE}/{boot}').decode().split('\n')
            for first, last, ahead in pieces([mark for mark in marks if mark.boot == boot], len(lines)):
                found += truth.of_lines(lines[first:last], ahead)
        with open(machine.path('samples'), 'w', encoding='ascii') as file:
            file.writelines(' '.join(map(str, sample)) + '\n' for sample in found)
        return found

    def end(self):
        """Ends the samples, and gives what is known of them."""
        self.mark(self.net.machines)
        self.net.each(lambda machine: machine.must('systemctl disable --now record'))
        return truth.Truth(self.net, taken=self.samples)
