"""The rate with which a daemon counts while it runs: what is learned is written into its page, and what it takes of that is said."""
from tsp_supervise import log

# By how many parts in 10^9 a rate has to change to be said.
SAID = 1000


def faster(rate):
    """By how much a daemon counts faster or slower than its machine, in words, of a rate in parts in 10^9."""
    return f'{abs(rate) / 1000:.3f} parts in a million {"slower" if rate < 0 else "faster"} than the machine'


def rate_line(rate):
    """The same as the trace has it."""
    return f'the daemon counts {rate} parts in 10^9 faster than the machine'


class Applied:
    """The rate of a daemon. `learning` is what is learned of it, `drift` what TSP_DRIFT says; `say` takes a line of a kind and its priority, and `note` one
    that belongs to the trace."""

    def __init__(self, learning, drift, say, note):
        self.learning, self.drift, self.say, self.note = learning, drift, say, note
        self.said, self.is_beyond = 0, False

    def begin(self, rate):
        """The daemon starts, and that it counts with this rate is said."""
        self.said = rate

    def ask(self, keeper):
        """The daemon was corrected: what is learned of that is asked for, but for a rate beyond the drift that readers are told of."""
        rate = self.learning.wanted
        if rate is None or rate == keeper.learned:
            return
        if abs(rate) <= 1000 * self.drift:
            keeper.ask_for_rate(rate)
        elif not self.is_beyond:
            self.is_beyond = True
            self.say('beyond', f'the counter needs {rate / 1000:+.3f} parts in a million, and TSP_DRIFT, {self.drift} parts in a million, allows less: the daemon keeps its rate',
                     log.WARNING)

    def changed(self, tick, rate):
        """From this tick on the daemon counts with this rate."""
        if rate == self.learning.applied:
            return
        self.learning.applies(tick, rate)
        self.note(f'from tick {tick} on {rate_line(rate)}')
        if abs(rate - self.said) >= SAID:
            self.said = rate
            self.say('rate', f'the daemon counts {faster(rate)} from now on, as its corrections ask for', log.INFO)
