"""How often a daemon is started again because the master that it follows is gone and another host leads."""
import random

# It is started again within so many seconds, since not all hosts are to do that at once, and not again for so many.
SPREAD, SELDOM = 10, 600


class Follow:
    """What is remembered of one daemon. `draw` gives a random number between two; times are in seconds."""

    def __init__(self, draw=random.uniform):
        self.draw, self.last = draw, -SELDOM

    def wait(self, now):
        """Another host leads: in how many seconds the daemon is started again, or None where it isn't."""
        if now - self.last < SELDOM:
            return None
        self.last = now
        return self.draw(0, SPREAD)
