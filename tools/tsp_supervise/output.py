"""Where a trace goes: standard output, or a file that is opened anew where that is asked for, or where it took nothing."""
import errno
import os
import stat

from tsp_supervise import log
from tsp_supervise.outlet import Outlet
from tsp_daemon.usage import NOT_WRITTEN
from tsp_texts.tool import Fault

# How many octets wait for a slow reader, and after how many seconds a file that took nothing is tried again.
MOST, AGAIN = 4 << 20, 10
FLAGS = os.O_APPEND | os.O_CREAT | os.O_CLOEXEC
# Why a file takes nothing that may take something later.
FULL = errno.ENOSPC, errno.EDQUOT, errno.EFBIG, errno.EIO


def way_of(path):
    """Whether a file is opened for writing alone. A named pipe isn't, so that nobody waits for its reader, and it stays open without one."""
    try:
        return os.O_RDWR if stat.S_ISFIFO(os.stat(path).st_mode) else os.O_WRONLY
    except OSError:
        return os.O_WRONLY


class Output:
    """`path` is empty for standard output; where that takes nothing for good, `give_up` is called."""

    def __init__(self, path, loop, say, give_up):
        self.path, self.loop, self.say, self.give_up = path, loop, say, give_up
        try:
            self.outlet = self.opened(0)
        except OSError as fault:
            raise Fault(f'{path}: {fault.strerror}', NOT_WRITTEN) from fault

    def opened(self, lost):
        """The stream, behind so many lines that were lost."""
        number = os.open(self.path, FLAGS | way_of(self.path), 0o640) if self.path else os.dup(1)
        # (a person doesn't read a trace in the journal)
        shape = log.marked if not self.path and log.is_journal(1) else bytes
        outlet = Outlet(number, MOST, lambda: self.loop.soon(('failed', number), lambda: self.failed(outlet)), lost, shape)
        return outlet

    def put(self, lines):
        """Takes lines, and doesn't wait."""
        self.outlet.put(lines)

    def flush(self, seconds):
        """Waits until all is written, but so many seconds at most."""
        self.outlet.flush(seconds)

    def failed(self, outlet):
        """A stream takes nothing: the one that is written, and not one before it."""
        if outlet is not self.outlet:
            return
        if not self.path and outlet.fault.errno not in FULL:
            self.give_up(f'standard output takes nothing: {outlet.fault.strerror}', NOT_WRITTEN)
            return
        self.say(f'{self.path or "standard output"}: {outlet.fault.strerror}; lines are dropped until it can be written')
        self.loop.after('output', AGAIN, self.reopen)

    def is_same_pipe(self):
        """Whether a named pipe is open and at its path, so that it needn't be opened anew, since what waits for its reader would wait on beside that."""
        had = os.fstat(self.outlet.number)
        try:
            return self.outlet.fault is None and stat.S_ISFIFO(had.st_mode) and os.path.samestat(had, os.stat(self.path))
        except OSError:
            return False

    def reopen(self):
        """Opens the file at this path anew. What waits for the old one still goes there."""
        if (not self.path and self.outlet.fault is None) or self.is_same_pipe():
            return
        old = self.outlet
        try:
            self.outlet = self.opened(old.backlog.lost if old.fault else 0)
        except OSError as fault:
            self.say(f'{self.path}: {fault.strerror}')
            self.loop.after('output', AGAIN, self.reopen)
            return
        old.close()
