#!/usr/bin/env python3
"""Runs a daemon for tsp-launch, and stays with it: `supervise.py PROGRAM serve LOCAL NAME ..`.

What the daemon writes is handed on, as fast as it is read. systemd is told when the daemon answers, and which role it has. SIGTERM ends
both, and the status is then 0. A daemon that ends before it ever answered ends this too, with its status; one that answered is started
again, but where that is no use. SIGHUP reads the hosts file again.
"""
import os
import signal
import sys

sys.dont_write_bytecode = True
sys.path.insert(0, os.path.dirname(os.path.dirname(os.path.realpath(__file__))))
from tsp_daemon import hosts, learn, machine, sockets, usage, views  # noqa: E402
from tsp_supervise import log, trail  # noqa: E402
from tsp_supervise.absence import Address  # noqa: E402
from tsp_supervise.applied import Applied, faster, rate_line  # noqa: E402
from tsp_supervise.follow import Follow  # noqa: E402
from tsp_supervise.keeper import Keeper  # noqa: E402
from tsp_supervise.loop import Loop  # noqa: E402
from tsp_supervise.news import News  # noqa: E402
from tsp_supervise.outlet import Outlet  # noqa: E402
from tsp_supervise.output import Output  # noqa: E402
from tsp_supervise.page import PageFile, Taken  # noqa: E402
from tsp_supervise.reload import Reload  # noqa: E402
from tsp_supervise.serving import Serving  # noqa: E402
from tsp_supervise.systemd import Systemd  # noqa: E402
from tsp_texts import tool  # noqa: E402
import tsp_clock  # noqa: E402

DONE, NO_WORDS, BAD_WALL, NO_NETWORK = 0, 1, 2, 5
# How many octets of what this says itself wait for a slow reader.
MOST_SAID = 65536
# By how many parts in a million counters may be wrong, where nobody says that.
DRIFT = 100
# After how many seconds a page is tried again that another supervisor keeps.
TRY_PAGE = 5
# Seconds: between two looks at the machine, by how many the alarm for its waking is later, between two starts at least, between two tries at most,
# after which a daemon has held, until whoever tells both to end has told both, and for the last lines.
LOOK, WAKING, APART, LONGEST_PAUSE, HELD, BOTH, LAST_LINES = 1, 0.1, 1, 60, 60, 0.2, 0.3
# How a daemon ends that is told to.
TOLD = 128 + signal.SIGTERM, 128 + signal.SIGINT


class Supervisor:
    """A daemon, and what becomes of it; `final` is the status to end with, once that is known."""

    def __init__(self, words):
        self.words, self.local = words, words[2]
        self.names = os.environ.get('TSP_NAMES', '').split()
        self.is_shown = os.environ.get('TSP_TRACE', 'on') != 'off'
        # (it only takes the trace of a daemon, and ends with it)
        self.is_once = os.environ.get('TSP_ONCE') == 'on'
        self.loop = Loop()
        self.errors = Outlet(2, MOST_SAID)
        self.log = log.Log(self.errors, 'tsp-launch')
        self.news = News(self.loop, self.names or [words[3]], self.say)
        self.address = Address(self.local.split(':')[0], self.loop.now, self.warn)
        self.lines = self.trace_output()
        self.systemd = Systemd(self.loop, self.warn)
        self.reload = Reload(self.loop, words, self.names, self.say, self.begin_anew)
        self.serving = self.sleep = self.final = None
        self.alarm = machine.Alarm()
        if self.alarm.file is not None:
            self.loop.watch(self.alarm.file, self.look)
        self.has_answered, self.was_switched, self.pause, self.started, self.left_out = False, False, APART, -APART, 0
        self.is_told = self.is_told_to_end = False
        self.unkept, self.follow = '', Follow()
        self.keeper = self.kept()
        # (where the rate is to be learned)
        self.learned = learn.Kept(learn.path_of(), self.say) if os.environ.get('TSP_RATE') == learn.WORD else None
        self.applied = Applied(self.learned.learning, self.drift(), self.news.seldom.say, self.note) if self.learned else None

    def trace_output(self):
        """Where the trace goes: into a file of bounded size, a file that others rotate, or standard output."""
        place, path = os.environ.get('TSP_TRACE', 'on'), os.environ.get('TSP_OUTPUT', '')
        if path or not place.startswith('/'):
            return Output(path, self.loop, self.warn_of_trace, self.give_up)
        return trail.Trail(place, self.loop, self.warn_of_trace, int(os.environ.get('TSP_KEEP') or trail.KEEP) * trail.MIB)

    def warn_of_trace(self, text):
        """Something is wrong with the trace's file, which may last."""
        self.news.seldom.say('trace', text, log.WARNING)

    def kept(self):
        """What keeps the page of the network's time, where there is a place for it. One that another supervisor keeps is tried again."""
        path = os.environ.get('TSP_CLOCK') or tsp_clock.PATH
        os.environ.pop('TSP_PAGE', None)
        if not os.environ.get('TSP_CLOCK') and (self.is_once or not os.path.isdir(os.path.dirname(path))):
            return None
        try:
            page = PageFile(path)
        except OSError as fault:
            if self.unkept != str(fault):
                self.unkept = str(fault)
                self.say(f'programs can\'t read the time: {path}: {fault.strerror}', log.WARNING)
            if isinstance(fault, Taken):
                self.loop.after('get-page', TRY_PAGE, self.keep)
            return None
        networks = [[]]
        for word in self.words[6:]:
            if word == '+':
                networks.append([])
            else:
                networks[-1].append(hosts.pair_of(word))
        names = self.names or [word for word in self.words[3:4] + self.words[6:] if word != '+']
        os.environ['TSP_PAGE'] = path
        return Keeper(self.loop, page, networks, names, self.drift(), self)

    @staticmethod
    def drift():
        """By how many parts in a million counters may be wrong."""
        return int(os.environ.get('TSP_DRIFT', DRIFT))

    def keep(self):
        """Tries to get the page that another supervisor kept. The daemon has to start again to write it."""
        self.keeper = self.kept()
        if self.keeper:
            self.begin_again('the page of the network\'s time is free now')

    def page_mended(self, what):
        """Something had become of the page's file."""
        self.say(f'the page of the network\'s time {what}; it is whole again')

    def page_gone(self, fault):
        """The page's file is gone for good: it is made anew, which needs another start of the daemon."""
        self.end_daemon()
        self.keeper.page.close()
        self.keeper = self.kept()
        self.say(f'the page of the network\'s time is gone ({fault.strerror}); it is made anew, and the daemon is started again')
        self.start()

    def other_leads(self, master, other):
        """The daemon follows a master that is gone, and another one leads. By the rules it would wait for its own election, and each one that is held
        lets all others wait anew: so it is started again, and finds the other one."""
        wait = None if os.environ.get('TSP_FOLLOW') == 'wait' else self.follow.wait(self.loop.now())
        if wait is not None:
            why = f'{master}, which the daemon follows, doesn\'t lead any more, and {other} does'
            self.loop.after('follow', wait, lambda: self.begin_again(why))

    def stood_still(self, seconds):
        """The machine stood still, and its own clocks with it: what the daemon shows is too early, and what came meanwhile may be old."""
        self.begin_again(f'by other hosts\' clocks the machine stood still for {seconds:.0f} s, as when its hypervisor stops it')

    def rate_changed(self, tick, rate):
        """From this tick on the daemon counts with this rate."""
        if self.applied:
            self.applied.changed(tick, rate)

    @property
    def learning(self):
        """What is learned of the counter, where that is asked for."""
        return self.learned.learning if self.learned else None

    def master_answers(self, master):
        """The master that the daemon follows answered."""
        self.news.master_answers(master)

    def master_silent(self, master):
        """The master that the daemon follows is silent, or leads no more."""
        self.news.master_silent(master)

    def say(self, text, level=log.NOTICE):
        """A line on standard error, for which nobody waits."""
        self.log.say(text, level)

    def warn(self, text):
        """A warning."""
        self.say(text, log.WARNING)

    def note(self, text):
        """A line that belongs to the trace: it goes with it into a file, and else onto standard error."""
        if self.is_shown and self.lines.path:
            self.lines.put(f'tsp-launch: {tool.one_line(text)}\n'.encode('ascii', 'replace'))
        elif self.is_shown:
            self.say(text, log.DEBUG)

    def run(self):
        """Runs the daemon, and gives the status to end with."""
        hang_up = self.stop if self.is_once else self.hang_up
        for number, call in ((signal.SIGTERM, self.stop), (signal.SIGINT, self.stop), (signal.SIGHUP, hang_up), (signal.SIGCHLD, self.look)):
            self.loop.on(number, call)
        signal.pthread_sigmask(signal.SIG_UNBLOCK, (signal.SIGINT, signal.SIGHUP))
        self.start()
        while self.final is None:
            self.loop.step()
        self.end_daemon()
        for outlet in (self.lines, self.errors):
            outlet.flush(LAST_LINES)
        return self.final

    def stop(self):
        """The daemon and this are told to end."""
        self.systemd.end()
        self.final = usage.WELL

    def hang_up(self):
        """The trace's file is opened anew, and the hosts file is read again."""
        self.lines.reopen()
        self.reload.begin()

    def start(self):
        """Starts the daemon."""
        if self.names:
            peers = ''.join(f', {number} {name}' for number, name in enumerate(self.names) if number)
            self.note(f'in the trace peer 0 is {self.names[0]}{peers}')
        self.news.begin()
        self.sleep, self.started, self.is_told_to_end = machine.Sleep(), self.loop.now(), False
        self.apply_rate()
        if self.keeper:
            self.keeper.begin()
        try:
            self.serving = Serving(self.loop, self.words, self.names, self)
        except OSError as fault:
            self.not_begun(f'{self.words[0]}: {fault.strerror}')
            return
        self.look()

    def not_begun(self, why):
        """The program can't be run: it is tried again if a daemon answered before, as while the file of the program is replaced."""
        if self.has_answered:
            self.try_later(why)
        else:
            self.give_up(why, usage.BAD_FILE)

    def apply_rate(self):
        """The rate with which the daemon that starts is to count. It reads that from the environment."""
        drift = self.drift()
        rate = self.learned.begin(1000 * drift) if self.learned else int(os.environ.get('TSP_RATE', 0))
        os.environ['TSP_RATE'] = str(rate)
        if self.keeper:
            self.keeper.learned = rate
        if self.applied:
            self.applied.begin(rate)
        if rate:
            self.say(f'the daemon counts {faster(rate)}', log.INFO)
            self.note(rate_line(rate))
        if abs(rate) > 1000 * drift:
            self.say(f'that is more than TSP_DRIFT, {drift} parts in a million, allows a counter to be wrong: are intervals wide enough?', log.WARNING)

    def hear(self, lines, left_out):
        """Hands lines on. The questions of supervisors are left out, and only counted."""
        self.left_out += left_out
        if lines and self.is_shown:
            note = f'... {self.left_out} lines of supervisors left out\n'.encode() if self.left_out else b''
            self.lines.put(note + lines)
            self.left_out = 0
        if not self.is_told and b' trace on\n' in lines:
            self.is_told = True
            self.news.started(self.local, os.environ.get('TSP_DIGEST'))
        self.news.hear(lines)

    def changed(self, change):
        """The daemon's state changed: systemd is told of it, and the page."""
        if change.kind == 'trace':
            self.note_trace(change.values['trace'] == 'on')
        if self.has_answered:
            self.systemd.tell('READY=1', f'STATUS={views.summary(self.serving.state)}')
        if change.kind == 'learned' and self.learned:
            self.learned.write()
        elif change.kind == 'correction' and self.applied and self.keeper:
            self.applied.ask(self.keeper)

    def note_trace(self, is_on):
        """The daemon traces, so it answers; or somebody switched that off."""
        if not is_on:
            self.was_switched = True
        elif self.was_switched:
            self.was_switched = False
            self.news.seldom.say('switched', 'somebody switched the trace off; it is on again', log.WARNING)
        if is_on and not self.has_answered:
            self.has_answered = True
            self.tell_of_no_page()

    def tell_of_no_page(self):
        """Says that there is no place for a page, unless none is wanted, or why there is none was said already."""
        if not self.keeper and not self.unkept and not self.is_once:
            place = os.path.dirname(tsp_clock.PATH)
            self.say(f'programs can\'t read the time: there is no page, since {place} isn\'t there, and TSP_CLOCK names none')

    def look(self):
        """Looks at the daemon and at what it stands on, once a second, and at once when the machine wakes."""
        self.alarm.set(0)
        if self.serving is None:
            return
        status, slept = self.serving.status(), self.sleep.seconds()
        if self.has_answered and self.address.is_given_up(status is None and not slept):
            self.end_daemon()
            self.address.give_up()
            self.wait_for_address()
        elif status in TOLD and not self.is_told_to_end:
            self.is_told_to_end = True
            self.loop.after('watch', BOTH, self.look)
        elif status is not None:
            self.ended(status)
        elif slept:
            self.begin_again(f'the machine slept for {slept:.0f} s, in which the daemon didn\'t count')
        else:
            self.loop.after('watch', LOOK, self.look)
            self.alarm.set(LOOK + WAKING)

    def end_daemon(self):
        """Ends the daemon, if it runs."""
        self.loop.cancel('watch', 'start', 'follow')
        self.is_told = False
        if self.serving:
            self.serving.end()
        self.news.end()
        if self.keeper:
            self.keeper.end()
        self.serving = None

    def begin_again(self, why):
        """Ends the daemon, and starts it again."""
        self.end_daemon()
        self.say(f'{why}; the daemon is started again')
        self.start()

    def begin_anew(self):
        """Reads all anew, since the hosts file changed what the daemon is started with."""
        self.end_daemon()
        self.say('the hosts file changed what the daemon is started with; it is started again')
        for outlet in (self.lines, self.errors):
            outlet.flush(LAST_LINES)
        if self.learned:
            os.environ['TSP_RATE'] = learn.WORD
        # (whoever told it to end meanwhile isn't forgotten)
        if not {signal.SIGTERM, signal.SIGINT} & set(self.loop.signals):
            self.systemd.hand_on()
            self.reload.begin_anew()

    def wait_for_address(self):
        """Starts the daemon when its address is there."""
        if self.address.is_there():
            self.say(f'{self.address.host} is an address of this machine again')
            self.start()
        else:
            self.loop.after('start', LOOK, self.wait_for_address)

    def ended(self, status):
        """The daemon ended by itself: it is started again, where it ever answered and that is of use."""
        self.end_daemon()
        why = self.why(status)
        if not self.has_answered or self.is_once or status in (NO_WORDS, BAD_WALL):
            self.give_up(why, status)
        elif status == DONE:
            self.news.seldom.say('done', 'all turns of the daemon are taken; it is started again', log.INFO)
            self.loop.at('start', max(self.loop.now(), self.started + APART), self.start)
        else:
            self.try_later(why or f'the daemon ended with status {status}')

    def try_later(self, why):
        """Starts the daemon again after a pause, which grows while it doesn't hold."""
        self.pause = APART if self.loop.now() - self.started > HELD else min(2 * self.pause, LONGEST_PAUSE)
        text = f'{why}; the daemon is started again in {self.pause} s'
        self.say(text, log.WARNING)
        self.systemd.tell(f'STATUS={text}')
        self.loop.after('start', self.pause, self.start)

    def give_up(self, why, status):
        """Ends with this status, and says why."""
        if why:
            self.say(why, log.FAULT)
        self.final = status

    def why(self, status):
        """What is to be said of the daemon's status, or None."""
        if status == NO_WORDS:
            return f'{self.words[0]} doesn\'t know the arguments \'{" ".join(self.words[1:])}\': it is of another version'
        if status != NO_NETWORK:
            return None
        why = sockets.why_not_bound(self.local)
        if why:
            return f'{self.local} can\'t be bound: {why}'
        return f'the socket failed while receiving on {self.local}' if self.has_answered else f'{self.local} couldn\'t be bound, and can be now'


def main():
    tool.open_closed()
    try:
        status = Supervisor(sys.argv[1:]).run()
    except tool.Fault as fault:
        tool.say(fault.text)
        status = fault.status
    # (whatever a thread still writes isn't waited for)
    os._exit(status)


main()
