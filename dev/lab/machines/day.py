"""A day of a network: at times drawn from a seed one of the things that a day brings befalls it, and over all of it each machine's clocks are sampled."""
import random
import time
from collections import namedtuple

from lab.hosts import Failed
from lab.machines import confined, faults, network, packages, truth
from lab.machines.network import wanted
from lab.machines.record import Record

# What a day brings: scenarios, each with the state that is wanted after it. What may set a machine's counter anew is named.
SORTS = (faults.reboot, faults.suspend, faults.cable_short, faults.step, faults.killed, faults.rotated, faults.restarted, packages.again, faults.burdened,
         faults.next_master)
SETS_COUNTER = faults.reboot, faults.suspend
# How many come in an hour, where that is enough for each sort to come once; seconds in that; between two looks at a machine's memory; and for how long
# samples are taken beyond the day, which lasts until all is well after its last event.
PER_HOUR, HOUR, LOOKS, BEYOND = 1.6, 3600, 60, 86_400
# A process may have so much more memory at the end than it had in the first hour, or in the first half of a short day.
GROWN, HALF = 1.1, 0.5
UNITS = ' '.join(f'-u {unit}' for unit in ('tsp', 'tsp-feed', 'tsp-metrics'))
# What the supervisor and the daemon have in memory, in KiB.
RESIDENT = 'ps -o rss= -p $(systemctl show -p MainPID --value tsp); ps -o rss= -C tsp'
PROCESSES = 'supervisor', 'daemon'


class Event(namedtuple('Event', 'second at name victim is_well said took')):
    """Something that befell the network: at which second of the day, and which count of the host's; what it was, and on which machine; whether all was as
    wanted, what was seen, and after how many seconds all hosts were well again."""
    __slots__ = ()


def planned(hours, seed):
    """At which seconds of a day what happens: each sort as often as the others, in an order drawn from a seed, in the first half of its part of the day."""
    draw = random.Random(seed)
    sorts = [sort for _ in range(max(1, round(PER_HOUR * hours / len(SORTS)))) for sort in draw.sample(SORTS, len(SORTS))]
    part = hours * HOUR / len(sorts)
    return [(part * (number + draw.uniform(0, HALF)), sort) for number, sort in enumerate(sorts)]


class Day:
    """A network's day: its samples, events, and what its processes have in memory."""

    def __init__(self, net):
        self.net, self.draw, self.events = net, random.Random(net.seed), []
        self.since = {machine: confined.cursor(machine) for machine in net.machines}
        self.resident = {machine: [] for machine in net.machines}
        self.record = Record(net, net.hours * HOUR + BEYOND)
        self.begun, self.at = time.monotonic(), truth.now(net)

    def second(self):
        """The seconds since the day began."""
        return time.monotonic() - self.begun

    def when(self, moment, rate):
        """A moment of the truth's as hours, minutes and seconds of the day."""
        seconds = int(moment - self.at / rate) // 1_000_000
        return f'{seconds // HOUR}:{seconds // 60 % 60:02}:{seconds % 60:02}'

    def look(self, machine):
        """Looks at the memory of a machine's processes, if both run."""
        words = machine.says(RESIDENT).split()
        if len(words) == len(PROCESSES) and all(word.isdigit() for word in words):
            self.resident[machine].append((self.second(), *map(int, words)))

    def wait(self, until):
        """Waits for a second of the day, and looks at memory meanwhile."""
        while True:
            self.net.each(self.look)
            left = until - self.second()
            if left <= 0:
                return
            time.sleep(min(left, LOOKS))

    def befall(self, sort):
        """Something happens, and all get well again."""
        second, at = self.second(), truth.now(self.net)
        victim = self.draw.choice(self.net.followers())
        self.net.choose(victim)
        marked = [victim] if sort in SETS_COUNTER else []
        try:
            self.record.mark(marked)
            said, is_well = sort(self.net), True
            self.record.mark(marked)
        except (Failed, OSError) as fault:
            said, is_well = str(fault), False
        fault = self.not_well()
        took = self.second() - second
        told = ' '.join(f'{said}{fault}'.split())
        self.events.append(Event(second, at, sort.__name__, victim.name, is_well and not fault, told, took))
        self.net.say(f'    {self.line(self.events[-1])}')

    def not_well(self):
        """Waits until a host leads and all others follow it, and no unit has failed; gives what isn't so, behind a semicolon."""
        try:
            self.net.led(network.FOLLOWED, is_told=False)
            self.net.each(faults.none_failed)
        except (Failed, OSError) as fault:
            return f'; {fault}'
        return ''

    @staticmethod
    def line(event):
        """An event as a line of the table."""
        hours, minutes = divmod(int(event.second) // 60, 60)
        return f'{hours:2}:{minutes:02} {event.name} ({event.victim}): {"well" if event.is_well else "NOT WELL"} again after {event.took:.0f} s: {event.said}'

    def table(self, judged, rate):
        """What befell, with how many intervals were read and missed from then on until the next one."""
        bounds = [event.at / rate for event in self.events] + [float('inf')]
        for event, begun, ended in zip(self.events, bounds, bounds[1:]):
            those = [late for _, moment, late in judged if begun <= moment < ended]
            yield f'{self.line(event)}; {sum(late != 0 for late in those)} of {len(those)} intervals missed'

    def grown(self):
        """By how much the memory of each process grew: the last look's as a part of the most that it had in the first hour. Both are in the line; what is too
        much is apart."""
        early, lines, too_much = min(HOUR, HALF * self.second()), [], []
        for machine, looks in self.resident.items():
            for place, process in enumerate(PROCESSES, 1):
                first, last = max((look[place] for look in looks if look[0] <= early), default=0), looks[-1][place] if looks else 0
                lines.append(f'{machine.name} {process} {first} to {last}')
                if not first or last > GROWN * first:
                    too_much.append(lines[-1])
        return lines, too_much

    def errors(self):
        """The lines of the journal that are errors, have a traceback, or are the kernel's of what the profile lacks. The journal stays in the lab's folder."""
        found = []
        for machine, since in self.since.items():
            after = f'--no-pager -q --after-cursor="{since}"'
            with open(machine.path('journal'), 'w', encoding='utf-8') as file:
                file.write(machine.says(f'journalctl {UNITS} -o short-iso-precise {after}'))
            said = machine.says(f'journalctl {UNITS} -o cat -p err {after}; journalctl {UNITS} -o cat {after} | grep -A 20 Traceback').splitlines()
            found += [f'{machine.name}: {line}' for line in [*said, *confined.noted(machine, since)]]
        return found


def verdict(found, what):
    """A line of what was found, where it is something."""
    return [f'{len(found)} {what}: {"; ".join(map(str, found[:5]))}'] if found else []


def day(net):
    """For some hours (--hours) and at times drawn from a seed: a follower reboots, a machine sleeps, cables are out for 10 s, a clock is stepped, a daemon is
    killed, logs are rotated, the unit is restarted, the package is installed again, programs take a processor, the master is restarted, each with what is
    wanted after it. No interval misses the master's clock, no shown value falls but by a step, no process grows by a tenth, and the journal has no error."""
    one = Day(net)
    for second, sort in planned(net.hours, net.seed):
        one.wait(second)
        one.befall(sort)
    one.wait(net.hours * HOUR)
    last = one.not_well()
    one.wait(one.second())
    lasted, errors = one.second() / HOUR, one.errors()
    seen = one.record.end()
    judged = seen.judged()
    for line in one.table(judged, seen.rate):
        net.say(f'    {line}')
    bad = [*filter(None, [last]), *(event.name for event in one.events if not event.is_well)]
    missed, fallen = ([f'{machine.name} at {one.when(moment, seen.rate)} by {by:.0f} us' for machine, moment, by in found if by]
                      for found in (judged, seen.falls()))
    lines, too_much = one.grown()
    amiss = [*verdict(bad, 'events weren\'t well'), *verdict(missed, 'intervals missed the master\'s clock'), *verdict(fallen, 'shown values fell'),
             *verdict(too_much, 'processes grew'), *verdict(errors, 'lines of the journal')]
    summed = (f'{lasted:.1f} hours, {len(one.events)} events, {len(missed)} of {len(judged)} intervals missed the master\'s clock, {len(fallen)} shown values '
              f'fell; shown values were apart by {truth.three(seen.apart("shown"))} us; KiB in memory, the most at first and the last: {", ".join(lines)}')
    wanted(judged and not amiss, f'{"; ".join(amiss)} ({summed})')
    return summed
