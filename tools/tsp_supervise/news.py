"""What a person wants to know of a daemon, told line by line in the log: who leads, what is lost, and what the clock was corrected by."""
import re
import time

from tsp_daemon import views
from tsp_supervise.log import INFO, NOTICE, WARNING, Seldom

# Acts that are told of. Most lines of a trace have none of these words.
SIGNS = (b' become ', b' join ', b' leave ', b' gave ', b' late ', b' abandon', b' rival ', b' quit ', b' correct ', b' close ', b' refuse ', b' masterup ', b' slaveup ', b' election ')
ACT = re.compile(rb'^[0-9]+ 0 ([0-3]) ([0-9]+) (?:(become|join|leave|gave|late|rival|quit|correct|close) (.+)|(abandon)'
                 rb'|took (\S+) (refuse|masterup|slaveup|election) \S+ (\S+))$', re.MULTILINE)
# A correction by more microseconds is told of.
MUCH = 1000
# Seconds: between two lines that say how it goes, and in which hosts are gathered that come or go together.
PERIOD, TOGETHER = 6 * 3600, 10
# So many names stand in one line.
MOST_NAMES = 8
MILLION = 1_000_000
# What may be wrong where hosts know each other otherwise.
ALIKE = 'the hosts files may differ: `tsp-launch --lint` prints a digest'


def date(seconds):
    """A time of the wall clock, in UTC."""
    return time.strftime('%Y-%m-%d %H:%M:%S UTC', time.gmtime(seconds))


def times(count, what):
    """A number of things."""
    return f'{count} {what}{"" if count == 1 else "s"}'


class Port:
    """What is known of the daemon on one of its networks: its role since when, whom it followed or that it led before, who follows it, and when a date had these leave last."""

    def __init__(self, role='starting', master=None, since=0):
        self.role, self.master, self.since, self.before, self.slaves, self.dated = role, master, since, '', set(), None


class Corrections:
    """How many corrections came since when, the greatest of them, and whether one was told of."""

    def __init__(self, since):
        self.since, self.count, self.most, self.is_told = since, 0, 0, False


class News:
    """Reads a daemon's lines, and says what is new. `names` are those of the hosts by their numbers, the own one first."""

    def __init__(self, loop, names, say, wall=time.time):
        self.loop, self.names, self.say, self.wall = loop, names, say, wall
        self.seldom = Seldom(loop, say)
        self.gathered = {}
        self.begin()

    def begin(self):
        """A daemon starts."""
        self.ports, self.corrections, self.silent = {}, Corrections(self.wall()), None
        # When the act was that is read, when a round ended last, and when the clock was set last that no round set.
        self.tick = self.closed = self.dated = None
        self.loop.after('news', PERIOD, self.tell_all)

    def end(self):
        """The daemon ends."""
        self.loop.cancel('news', *self.gathered)
        self.gathered.clear()

    def name(self, number):
        """A host's name."""
        number = int(number)
        return self.names[number] if number < len(self.names) else f'host {number}'

    def hear(self, lines):
        """Takes whole lines of the daemon's trace."""
        if any(sign in lines for sign in SIGNS):
            for port, tick, *words in ACT.findall(lines):
                self.tick = int(tick)
                word, rest, alone, who, message, name = (each.decode('ascii', 'replace') for each in words)
                if message:
                    self.took(int(port), who, message, name)
                else:
                    getattr(self, f'on_{word or alone}')(int(port), *rest.split())

    def port(self, number):
        """The daemon on one of its networks."""
        return self.ports.setdefault(number, Port(since=self.wall()))

    def where(self, number):
        """The port, where it isn't the first one."""
        return f'port {number}: ' if number else ''

    def tell(self, number, text, level=INFO, kind=None):
        """Says something of a port, seldom if it is of a kind that may come often."""
        text = self.where(number) + text
        if kind is None:
            self.say(text, level)
        else:
            self.seldom.say((kind, number), text, level)

    def started(self, local, digest):
        """The daemon answers for the first time."""
        by = f', by a hosts file with the digest {digest}' if digest else ''
        self.say(f'{self.names[0]} runs and answers at {local}{by}; after 80 s it asks who leads', NOTICE)

    def on_become(self, number, role, master=None):
        """The daemon has another role."""
        old, now = self.port(number), self.wall()
        new = self.ports[number] = Port(role, master and self.name(master), now)
        new.before = self.before(old, now)
        if role == 'follow':
            self.tell(number, f'follows {new.master}{new.before}', NOTICE)
            new.before = ''
        elif role == 'master':
            self.tell(number, f'leads{new.before}', NOTICE)
            new.before = ''
        elif role == 'candidate':
            self.tell(number, f'stands for election{new.before}', INFO, 'candidate')
        elif role == 'loose' and old.role in ('follow', 'master'):
            self.tell(number, f'has no master{new.before}', WARNING, 'loose')
        elif role == 'loose':
            self.tell(number, 'wasn\'t elected' if old.role == 'candidate' else 'asks who leads', INFO, 'loose')

    @staticmethod
    def before(old, now):
        """What the daemon did before, until now."""
        lasted = views.span(int(now - old.since) * MILLION)
        if old.role == 'follow':
            return f'; it followed {old.master} for {lasted}, since {date(old.since)}'
        return f'; it led for {lasted}, since {date(old.since)}' if old.role == 'master' else old.before

    def on_join(self, number, who):
        """A host reports to this one, which leads."""
        self.port(number).slaves.add(who)
        self.gather(number, 'join', who)

    def on_leave(self, number, who):
        """A host that this one leads is silent."""
        port = self.port(number)
        port.slaves.discard(who)
        if self.dated != self.tick:
            self.gather(number, 'leave', who)
        elif port.dated != self.tick:
            port.dated = self.tick
            self.tell(number, 'a date was set; its hosts report again', INFO, 'date')

    def gather(self, number, what, who):
        """Hosts that come or go together are told of in one line."""
        key = ('gather', number, what)
        if key not in self.gathered:
            self.gathered[key] = [], 0
            self.loop.after(key, TOGETHER, lambda: self.tell_hosts(key))
        names, _ = self.gathered[key]
        names.append(self.name(who))
        self.gathered[key] = names, len(self.port(number).slaves)

    def tell_hosts(self, key):
        """Says which hosts came or went."""
        _, number, what = key
        names, count = self.gathered.pop(key)
        names = list(dict.fromkeys(names))
        shown = ', '.join(names[:MOST_NAMES]) + (f' and {len(names) - MOST_NAMES} more' if len(names) > MOST_NAMES else '')
        follow = f'{times(count, "host")} now' if self.port(number).role == 'master' else 'it leads no more'
        if what == 'join':
            self.tell(number, f'leads {shown}: {follow}', INFO, 'join')
        else:
            self.tell(number, f'lost {shown}, which didn\'t answer a whole round: {follow}', WARNING, 'leave')

    def on_gave(self, number, who):
        """Three sends to a host stayed without an answer."""
        self.tell(number, f'{self.name(who)} doesn\'t acknowledge', INFO, 'gave')

    def on_late(self, number, alarm):
        """The daemon came too late for an alarm."""
        what = views.ALARMS.get(alarm, alarm)
        self.tell(number, f'was more than a second late ({what}): this machine is busy, or stood still', WARNING, 'late')

    def on_abandon(self, number):
        """A round was given up."""
        self.tell(number, 'gave up a round, in which no clock was corrected', WARNING, 'abandon')

    def on_rival(self, number, who):
        """Another host leads too."""
        self.tell(number, f'{self.name(who)} leads too; one of the two gives way within minutes', WARNING, 'rival')

    def on_quit(self, number, who):
        """Another host, which leads, tells this one to give way."""
        self.tell(number, f'{self.name(who)} leads, and tells this host to give way', NOTICE, 'quit')

    def took(self, number, who, message, name):
        """A host votes against this one; or one bears another name than the hosts file has, or isn't there, since hosts files differ."""
        if who == '-':
            self.tell(number, f'a host that calls itself {name} sends what peers send, and its address isn\'t in this hosts file; {ALIKE}', WARNING, 'stranger')
        elif len(self.names) > 1 and name != self.name(who):
            self.tell(number, f'the host that this hosts file calls {self.name(who)} calls itself {name}; {ALIKE}', WARNING, 'name')
        elif message == 'refuse' and self.port(number).role == 'candidate':
            self.tell(number, f'{name} refuses its election', INFO, 'refuse')

    def on_close(self, number, count, *_):
        """A round ended."""
        self.closed = self.tick
        slaves = len(self.port(number).slaves)
        if int(count) == 1 and slaves:
            self.tell(number, f'no clock of {times(slaves, "host")} is within 20 ms of another one, so none was averaged', WARNING, 'close')

    def on_correct(self, number, amount, way, shown):
        """The clock was corrected."""
        amount, seen = int(amount), self.corrections
        if way == 'step':
            # (a round sets the clock as it ends; else it is a date, which has all slaves leave and report again)
            self.dated = None if self.closed == self.tick else self.tick
            self.tell(number, f'the clock was set, by {amount / MILLION:+.3f} s, to {views.time_text(int(shown))}', NOTICE, 'step')
            return
        seen.count += 1
        seen.most = max(seen.most, abs(amount))
        if abs(amount) > MUCH and not seen.is_told:
            seen.is_told = True
            self.tell(number, f'corrected by {amount / 1000:+.3f} ms; how often and how far more is said every {PERIOD // 3600} h')

    def tell_all(self):
        """Says how it goes: whom the daemon follows since when, and how it was corrected since the last such line."""
        now, seen = self.wall(), self.corrections
        roles = [f'{self.where(number)}{self.role_text(port)}' for number, port in sorted(self.ports.items())]
        most = f', by {seen.most / 1000:.3f} ms at most' if seen.count else ''
        self.say(f'{"; ".join(roles) or "its role is not known yet"}; {times(seen.count, "correction")} since {date(seen.since)}{most}', INFO)
        self.corrections = Corrections(now)
        self.loop.after('news', PERIOD, self.tell_all)

    @staticmethod
    def role_text(port):
        """The role in words, and since when."""
        text = f'leads {times(len(port.slaves), "host")}' if port.role == 'master' else views.role_text(port.role, port.master)
        return f'{text} since {date(port.since)}'

    def master_silent(self, master):
        """A look at the master failed: the second one in a row is told of."""
        if self.silent is None or self.silent[0] != master:
            self.silent = master, self.wall(), False
        elif not self.silent[2]:
            self.silent = *self.silent[:2], True
            self.seldom.say('silent', f'lost {master}, which this host follows: it doesn\'t answer, or leads no more', WARNING)

    def master_answers(self, master):
        """A look at the master was well."""
        if self.silent and self.silent[2] and self.silent[0] == master:
            self.seldom.say('answers', f'{master} answers again, after {views.span(int(self.wall() - self.silent[1]) * MILLION)}', NOTICE)
        self.silent = None
