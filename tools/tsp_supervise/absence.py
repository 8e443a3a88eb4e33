"""The daemon's address, and how long the daemon is kept while that is gone from its machine, as while a cable is out: its socket outlives that."""
import os

from tsp_daemon import machine

# After how many seconds a daemon ends whose address is gone, where nobody says that.
GRACE = 600


class Address:
    """An address; `now` gives seconds that never go back, and `say` writes a line for each thing that changes."""

    def __init__(self, host, now, say):
        self.host, self.now, self.say = host, now, say
        self.grace = int(os.environ.get('TSP_GONE') or GRACE)
        self.gone_since = None

    def is_there(self):
        """Whether it is this machine's now."""
        return machine.has_address(self.host)

    def is_given_up(self, is_of_use):
        """Looks at it, and gives whether the daemon has to end: after the grace, or before that if it is of no use any more."""
        if self.is_there():
            if self.gone_since is not None:
                self.say(f'{self.host} is an address of this machine again, after {self.gone_for():.0f} s; the daemon went on meanwhile')
            self.gone_since = None
            return False
        if self.gone_since is None:
            self.gone_since = self.now()
            if self.grace and is_of_use:
                self.say(f'{self.host} is no address of this machine any more; the daemon goes on, and ends if that lasts for {self.grace} s')
        return not is_of_use or self.gone_for() >= self.grace

    def gone_for(self):
        """For how many seconds it has been gone."""
        return self.now() - self.gone_since

    def give_up(self):
        """The daemon is ended, and waits for the address from now on."""
        lasted = f', and hasn\'t been for {self.gone_for():.0f} s' if self.gone_for() >= 1 else ''
        self.gone_since = None
        self.say(f'{self.host} is no address of this machine any more{lasted}; the daemon is started again when it is')
