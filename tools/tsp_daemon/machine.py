"""What changes under a daemon that runs: whether the machine slept, when it wakes, and whether the daemon's address is gone."""
import ctypes
import errno
import os
import socket
import time

# A clock that counts on in a sleep is ahead by that many seconds only after one. Two readings that are compared are no farther apart than that.
SLEPT, APART = 1, 0.1


def slept_so_far():
    """The seconds that the machine slept since its boot, and a part that doesn't change. If all stood still between two readings, they are taken
    again, since one clock would be ahead by that."""
    while True:
        before, ran, after = map(time.clock_gettime, (time.CLOCK_MONOTONIC, time.CLOCK_BOOTTIME, time.CLOCK_MONOTONIC))
        if after - before < APART:
            return ran - before


class Sleep:
    """Whether the machine slept since this was made. The daemon counts by a clock that doesn't run then."""

    def __init__(self):
        self.before = slept_so_far()

    def seconds(self):
        """How long it slept; 0 where it didn't."""
        slept = slept_so_far() - self.before
        return slept if slept > SLEPT else 0


class Moment(ctypes.Structure):
    """Seconds and nanoseconds, as the system's calls have them."""
    _fields_ = [('seconds', ctypes.c_long), ('nanoseconds', ctypes.c_long)]


class Alarm:
    """A timer that runs on while the machine sleeps, so that it is over when that wakes. `file` can be read then; it is None where there is no such timer."""

    def __init__(self):
        try:
            self.set_timer = ctypes.CDLL(None).timerfd_settime
            file = ctypes.CDLL(None).timerfd_create(time.CLOCK_BOOTTIME, os.O_NONBLOCK | os.O_CLOEXEC)
        except AttributeError:
            file = -1
        self.file = file if file >= 0 else None

    def set(self, seconds):
        """Is over after so many seconds, sleep included."""
        if self.file is not None:
            parts = divmod(int(seconds * 1e9), 10 ** 9)
            self.set_timer(self.file, 0, (Moment * 2)(Moment(0, 0), Moment(*parts)), None)


def has_address(host):
    """Whether an address is this machine's, as far as the system says."""
    try:
        with socket.socket(socket.AF_INET, socket.SOCK_DGRAM) as link:
            link.bind((host, 0))
    except OSError as fault:
        return fault.errno != errno.EADDRNOTAVAIL
    return True
