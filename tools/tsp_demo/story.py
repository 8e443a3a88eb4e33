"""What happens to three hosts in a demonstration, and what is seen of it."""
import time

import tsp_clock
from tsp_daemon.network import milliseconds, signed
from tsp_daemon.views import span
from tsp_texts.tool import Fault

NOT_SEEN, NOT_RUN = 1, 3
# How often it looks, in seconds; how long it waits for anything, in seconds of fast time; and by how many microseconds a correction is worth a line.
LOOK, MOST, LEAST = 0.05, 2400, 1000
# How many times as fast time may run on a busy machine too.
SLOW = 20


class Story:
    """Starts hosts and looks at them. `show` is called after each look, with the story; `events` are lines of what happened, each with its time."""

    def __init__(self, network, show, is_proved=True):
        self.network, self.show, self.is_proved, self.events, self.seen, self.before = network, show, is_proved, [], {}, {}
        self.intervals, self.outside, self.apart, self.master = 0, 0, None, None
        self.followed, self.led = {}, {}

    def say(self, text):
        """Notes what happened, and gives when, in seconds of fast time."""
        now = self.network.seconds()
        self.events.append((now, text))
        return now

    def look(self):
        """Looks at all hosts at one moment."""
        ended = self.network.ended()
        if ended:
            raise Fault(f'{ended.name} ended: {self.network.said(ended)}', NOT_RUN)
        self.before, self.seen = self.seen, self.network.look()
        running = {host: seen for host, seen in self.seen.items() if seen}
        self.master = next((host for host, seen in running.items() if seen.now.role == tsp_clock.LEADS), None)
        targets = [seen.target for seen in running.values()]
        self.apart = max(targets) - min(targets) if len(targets) > 1 else None
        for host, seen in running.items():
            self.tell(host, self.before.get(host), seen)
            self.judge(host, seen)
        self.show(self)

    def tell(self, host, before, seen):
        """Tells what changed at a host."""
        if before is None:
            return
        if seen.now.role != before.now.role and seen.now.role == tsp_clock.LEADS:
            self.led[host] = self.say(f'{host.name} is elected, and leads from now on')
        if seen.now.role == tsp_clock.FOLLOWS and seen.now.status == tsp_clock.SYNCHRONISED and self.followed.get(host) != seen.now.master:
            self.followed[host] = seen.now.master
            self.say(f'{host.name} follows {seen.now.master}')
        amount = seen.moved - before.moved
        if seen.now.life != before.now.life:
            self.say(f'{host.name} starts its daemon again, since the others follow another master')
        elif abs(amount) >= LEAST:
            self.say(f'{host.name} is {"set" if seen.steps != before.steps else "corrected"} by {signed(amount)} ms')
        if seen.now.status == tsp_clock.HOLDING != before.now.status:
            self.say(f'{host.name} has lost its master: its clock runs on, and its interval widens')

    def judge(self, host, seen):
        """Compares a host's interval with its master's clock, unless that was corrected since it was looked at."""
        master = self.seen.get(self.master) if self.master else None
        if not master or host is self.master or seen.now.status != tsp_clock.SYNCHRONISED or seen.now.master != self.master.name:
            return
        if master.corrected < seen.looked:
            self.intervals += 1
            self.outside += not seen.now.earliest <= master.target <= seen.now.latest

    def until(self, what, holds):
        """Looks until this holds."""
        begun = self.network.seconds()
        while not holds():
            if self.network.seconds() - begun > MOST:
                slower = f'; if the machine is busy, try --speed {SLOW}' if self.network.speed > SLOW else ''
                raise Fault(f'not seen within {span(MOST * 10**6)}: {what}{slower}', NOT_SEEN)
            time.sleep(LOOK)
            self.look()

    def are_together(self, master):
        """Whether all others follow this host and know its clock."""
        others = [self.seen.get(host) for host in self.network.hosts if host.process and host is not master]
        return all(seen and seen.now.status == tsp_clock.SYNCHRONISED and seen.now.master == master.name for seen in others)

    def moved(self):
        """By how much all clocks were corrected so far."""
        return [seen.moved for seen in self.seen.values() if seen]

    def lead(self):
        """A host is elected, all follow it, and it leads a round: gives it, and how far clocks are apart then."""
        self.until('a master', lambda: self.master in self.led)
        master = self.master
        self.until(f'all follow {master.name}', lambda: self.are_together(master))
        moved = self.moved()
        self.until(f'{master.name} leads a round', lambda: self.moved() != moved)
        self.until(f'all follow {master.name} after its round', lambda: self.are_together(master))
        self.say(f'a round is over: the clocks are at most {milliseconds(self.apart)} ms apart')
        self.show(self)
        return master, self.apart

    def run(self):
        """All of it; gives the last line."""
        for host in self.network.hosts:
            self.network.start(host)
        self.say('three hosts start, whose clocks differ' + ('' if self.is_proved else '; their program is unproved'))
        self.until('the daemons of all three hosts are up', lambda: all(self.seen.get(host) for host in self.network.hosts))
        at_first = self.apart
        first, apart = self.lead()
        self.network.kill(first)
        killed = self.say(f'{first.name} is killed')
        self.look()
        second, later = self.lead()
        if self.outside:
            raise Fault(f'in {self.outside} of {self.intervals} readings the master\'s clock was outside of the interval', NOT_SEEN)
        elected, again = (span(round(seconds * 1e6)) for seconds in (self.led[first], self.led[second] - killed))
        return (f'seen: clocks {milliseconds(at_first)} ms apart; {first.name} led after {elected}, and they were {milliseconds(apart)} ms apart; '
                f'it was killed, {second.name} led {again} later, and they were {milliseconds(later)} ms apart; '
                f'in all of {self.intervals} readings the master\'s clock lay in the interval' + ('' if self.is_proved else '; unproved'))
