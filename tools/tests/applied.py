"""What is learned of a counter's rate acts while the daemon runs: by made corrections and a made page. `applied.py FOLDER`."""
import os
import sys

HERE = os.path.dirname(os.path.realpath(__file__))
sys.path[:0] = os.path.dirname(HERE), HERE
import made_page  # noqa: E402
import tsp_clock  # noqa: E402
from tsp_daemon import learn, state  # noqa: E402
from tsp_supervise import log  # noqa: E402
from tsp_supervise.applied import Applied  # noqa: E402
from tsp_supervise.keeper import Keeper, Listener  # noqa: E402
from tsp_supervise.page import PageFile  # noqa: E402

FOLDER, ROUND = sys.argv[1], 240_000_000


def wanted(is_so, text):
    if not is_so:
        raise SystemExit(f'applied: {text}')


class Still:
    """A loop in which nothing happens."""

    def after(self, *_):
        pass

    def cancel(self, *_):
        pass

    def watch(self, *_):
        pass


class Host:
    """A host whose counter lacks so many parts in 10^9 against its network's."""

    def __init__(self, lacks, learning=None):
        self.lacks, self.learning, self.tick, self.left = lacks, learning or learn.Learning(), 0, 0.0

    def passes(self, time):
        """Time passes."""
        self.tick += time
        self.left += (self.lacks - self.learning.applied) * time / learn.BILLION

    def corrected(self, error=0, is_set=False):
        """Its clock is corrected by what it lacks, and by an error, which the next time has too."""
        amount, self.left = round(self.left + error), -error
        self.learning.change(state.Change(self.tick, 0, 'correction', {'amount_us': amount, 'way': 'slew', 'shown_us': 0}), is_set)

    def round(self, error=0, acts=True):
        """A round, after which it counts with what it has learned."""
        self.passes(ROUND)
        self.corrected(error)
        if acts and self.learning.wanted is not None:
            self.passes(1_000_000)
            self.learning.applies(self.tick, self.learning.wanted)


def learning():
    """The first correction acts as a whole, and later ones by their share; each counts with the rate that was in use; what is set teaches nothing."""
    host = Host(40_000)
    for number in range(2):
        wanted(host.learning.wanted is None, f'something is learned of {number} corrections')
        host.round()
    wanted(abs(host.learning.wanted - 40_000) < 10, f'after the first correction it is to count with {host.learning.wanted}')
    for _ in range(20):
        host.round()
        wanted(abs(host.learning.wanted - 40_000) < 10, f'a rate of 40000 becomes {host.learning.wanted}')
    # (an error of a millisecond is 4167 parts in 10^9 of a round, and a fraction of that now)
    host.round(1000)
    wanted(abs(host.learning.wanted - 40_000) < 300, f'one error of a millisecond makes the rate {host.learning.wanted}')
    # (a step, and one that only its amount tells)
    for is_set, error in (True, 3_000_000), (False, 3_000_000), (True, -9_000):
        before = host.learning.wanted
        host.passes(ROUND)
        host.left += error
        host.corrected(0, is_set)
        # (the round of that moment)
        host.corrected()
        wanted(host.learning.wanted == before, f'a clock that is set by {error} makes the rate {host.learning.wanted}, which was {before}')
    for _ in range(20):
        host.round()
    wanted(abs(host.learning.wanted - 40_000) < 60, f'after steps the rate is {host.learning.wanted}')
    # (a clock that was set shows what the way of its datagram did, too)
    host = Host(40_000)
    host.passes(ROUND)
    host.corrected(700, is_set=True)
    host.round()
    wanted(host.learning.wanted is None, f'after a clock was set its first correction makes the rate {host.learning.wanted}')
    host.round()
    wanted(abs(host.learning.wanted - 40_000) < 10, f'the second one makes it {host.learning.wanted}')


def warmer():
    """The temperature changes: an hour later the rate is the new one."""
    host = Host(40_000)
    for _ in range(30):
        host.round()
    host.lacks = 43_000
    for _ in range(learn.WINDOW):
        host.round()
    wanted(abs(host.learning.wanted - 43_000) < 60, f'an hour after the counter changed by 3000 the rate is {host.learning.wanted}')


def kept():
    """What is kept for the next start is the machine's rate, whatever rates were in use; and a daemon that begins with that keeps it, by one bad error too."""
    for acts in True, False:
        host = Host(-25_000)
        for _ in range(40):
            host.round(acts=acts)
        found = host.learning.found
        wanted(abs(found.rate + 25_000) <= 3 and found.error < 60, f'what is kept is {found}, where rates act: {acts}')
    again = Host(-25_000, host.learning)
    again.learning.begin(found.rate)
    wanted(again.learning.applied == again.learning.wanted == found.rate, 'the next start has another rate')
    for error in 0, 1000, 0:
        again.round(error)
        wanted(abs(again.learning.wanted + 25_000) < 30, f'after a start and an error of {error} the rate is {again.learning.wanted}')


def traced():
    """Who reads the trace learns the same of a rate that changes: the launcher says so there."""
    daemon = state.Daemon()
    lines = ['tsp-launch: in the trace peer 0 is b, 1 a', '1 0 0 5 become follow 1', '2 0 0 1000000 correct 0 slew 5', '3 0 0 241000000 correct 12000 slew 5',
             'tsp-launch: from tick 242000000 on the daemon counts 50000 parts in 10^9 faster than the machine',
             '4 0 0 481000000 correct 50 slew 5', '5 0 0 721000000 correct 0 slew 5']
    for line in lines:
        daemon.take(line)
    found = daemon.learning.found
    wanted(daemon.learning.applied == 50_000 and found and abs(found.rate - 50_000) <= 1 and found.error < 20, f'it has {daemon.learning.applied}, and {found}')


def page():
    """A rate stands on the page at once, in a half of the daemon's life with all else as it was; what the daemon takes of it is told."""
    path, told = os.path.join(FOLDER, 'page'), []
    file, listener = PageFile(path), Listener()
    listener.rate_changed = lambda *words: told.append(words)
    keeper = Keeper(Still(), file, [[('127.0.0.1', 9)]], ['a', 'b'], 50, listener)
    daemon = made_page.following(10 ** 15, 1).daemon._replace(role=tsp_clock.LEADS, master=0, rate=0, origin_tick=0)
    made_page.change(path, daemon=daemon)
    keeper.poll()
    before = file.page().look
    wanted(before.life == daemon.life and before.had == 1 and before.learned == 0 and told == [(0, 0)], f'the look is {before}, and it tells {told}')
    keeper.ask_for_rate(-25_000)
    wanted(file.page().look == before._replace(learned=-25_000), f'of {before} a rate makes {file.page().look}')
    changed = daemon._replace(rate=-25_000, origin=daemon.origin + 5000, origin_tick=5)
    made_page.change(path, daemon=changed)
    keeper.poll()
    wanted(told == [(0, 0), (5, -25_000)] and file.page().look.learned == -25_000, f'a changed rate makes {file.page().look}, and it tells {told}')
    # (another life, in which nobody looked yet)
    other = changed._replace(life=changed.life + 1, role=tsp_clock.NOBODY)
    made_page.change(path, daemon=other)
    keeper.poll()
    keeper.ask_for_rate(7)
    wanted(file.page().look.learned == -25_000, 'a half of another life has the rate of this one')
    made_page.change(path, daemon=other._replace(role=tsp_clock.LEADS))
    keeper.poll()
    wanted(file.page().look.learned == 7 and file.page().look.life == other.life, f'the next look is {file.page().look}')
    file.close()


class Asked:
    """Whoever is asked for a rate."""

    def __init__(self):
        self.learned, self.rates = 0, []

    def ask_for_rate(self, rate):
        self.learned = rate
        self.rates.append(rate)


def told():
    """A rate beyond the drift isn't asked for, and is warned of once; one that changes little isn't said."""
    learned, said, notes, keeper = learn.Learning(), [], [], Asked()
    applied = Applied(learned, 40, lambda *words: said.append(words), notes.append)
    applied.begin(0)
    for rate in None, 40_001, -50_000, 40_000, 40_000, -40_000:
        learned.recent.rate = rate
        applied.ask(keeper)
    wanted(keeper.rates == [40_000, -40_000], f'it asks for {keeper.rates}')
    warning = 'the counter needs +40.001 parts in a million, and TSP_DRIFT, 40 parts in a million, allows less: the daemon keeps its rate'
    wanted(said == [('beyond', warning, log.WARNING)], f'it says {said}')
    said.clear()
    for tick, rate in (5, 900), (6, 900), (7, 1100), (8, 500), (9, 100), (10, -2500):
        applied.changed(tick, rate)
    text = 'the daemon counts {} than the machine from now on, as its corrections ask for'
    rates = '1.100 parts in a million faster', '0.100 parts in a million faster', '2.500 parts in a million slower'
    wanted(said == [('rate', text.format(rate), log.INFO) for rate in rates], f'it says {said}')
    wanted([note.split()[2] for note in notes] == ['5', '7', '8', '9', '10'] and learned.applied == -2500, f'it notes {notes}')


learning()
warmer()
kept()
traced()
page()
told()
