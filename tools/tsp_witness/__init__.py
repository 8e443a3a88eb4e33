"""A network's own traces, put together: the schedule that its daemons lived through, and what they claim to have done."""


class Unusable(Exception):
    """The input can't be witnessed; the text says why."""
