"""The page of the network's time: its file, and the half of it that the supervisor writes. The daemon writes the other one."""
import fcntl
import os
import stat

import tsp_clock
from tsp_clock import DAEMON_AT, HEAD, LOOK_AT, LOOK_FIELDS, MAGIC, SEQUENCE, SIZE, VERSION, Look, Page

# Beside the page lie its lock, which only its writer may open, and another name of the page, from which it gets the first one again.
LOCK, KEPT = '.lock', '.kept'


class Taken(OSError):
    """Another supervisor keeps the page."""


class NoPage(OSError):
    """Something else lies where the page should."""


def locked(path):
    """The lock of the page at a path. (readers can't open it, so none of them can take it)"""
    number = os.open(path + LOCK, os.O_RDWR | os.O_CREAT | os.O_NOFOLLOW | os.O_CLOEXEC, 0o600)
    try:
        fcntl.flock(number, fcntl.LOCK_EX | fcntl.LOCK_NB)
    except OSError as fault:
        os.close(number)
        raise Taken(fault.errno, 'another supervisor keeps it', path) from fault
    return number


def opened(path):
    """The file of a page at a path, and whether it was made. What is there is taken only where it is empty, or a page."""
    flags = os.O_RDWR | os.O_NOFOLLOW | os.O_NONBLOCK | os.O_CLOEXEC
    try:
        number = os.open(path, flags | os.O_CREAT | os.O_EXCL, 0o600)
        # (anybody may read it, whatever the mask is)
        os.fchmod(number, 0o644)
        return number, True
    except FileExistsError:
        number = os.open(path, flags)
    about = os.fstat(number)
    if not stat.S_ISREG(about.st_mode) or about.st_size and os.pread(number, 8, 0) != SEQUENCE.pack(MAGIC):
        os.close(number)
        raise NoPage(0, 'what is there is no page of the network\'s time, so it stays as it is', path)
    return number, False


class PageFile:
    """The page at a path, of which this is the only supervisor. OSError comes where there is none to be had."""

    def __init__(self, path):
        self.path = path
        self.lock = locked(path)
        try:
            self.file, _ = opened(path)
            # (if there is no room for it, whoever touched the page would be ended by the system)
            os.posix_fallocate(self.file, 0, SIZE)
            self.begin()
            self.keep()
        except OSError:
            os.close(self.lock)
            raise
        self.sequence = SEQUENCE.unpack(os.pread(self.file, SEQUENCE.size, LOOK_AT))[0]
        self.sequence += self.sequence % 2

    def begin(self):
        """Writes what comes before the halves. A page of another version is cleared first, which its readers take for a stale one."""
        head = HEAD.pack(MAGIC, VERSION, SIZE)
        if os.pread(self.file, HEAD.size, 0) != head:
            os.pwrite(self.file, bytes(SIZE - HEAD.size), HEAD.size)
            os.pwrite(self.file, head, 0)

    def keep(self):
        """Gives the page its other name."""
        kept = self.path + KEPT
        try:
            if not self.is_at(kept):
                with_no_file(kept)
                os.link(self.path, kept, follow_symlinks=False)
        except OSError:
            # (where a file has one name only, a page that is removed is made anew)
            pass

    def is_at(self, path):
        """Whether this page lies at a path."""
        try:
            return os.path.samestat(os.lstat(path), os.fstat(self.file))
        except OSError:
            return False

    def mend(self):
        """Puts the page where it belongs, and gives what had become of it, if something had. OSError comes where that can't be mended."""
        if os.fstat(self.file).st_size < SIZE:
            os.posix_fallocate(self.file, 0, SIZE)
            self.begin()
            return 'was cut off'
        if self.is_at(self.path):
            return None
        if not self.is_at(self.path + KEPT):
            raise FileNotFoundError(0, 'it was removed, with its other name', self.path)
        new = self.path + '.new'
        with_no_file(new)
        os.link(self.path + KEPT, new, follow_symlinks=False)
        os.rename(new, self.path)
        return 'was removed from its place'

    def read(self):
        """The page, and the nanosecond of the daemon's clock at which it was read; None where the daemon writes it and never ends."""
        return tsp_clock.read(lambda place, count: os.pread(self.file, count, place).ljust(count, b'\0'))

    def write(self, look: Look):
        """Writes the look's half."""
        os.pwrite(self.file, SEQUENCE.pack(self.sequence + 1), LOOK_AT)
        os.pwrite(self.file, LOOK_FIELDS.pack(*look), LOOK_AT + SEQUENCE.size)
        self.sequence += 2
        os.pwrite(self.file, SEQUENCE.pack(self.sequence), LOOK_AT)

    def end_daemon(self):
        """Writes that the daemon, which has ended, runs no more."""
        os.pwrite(self.file, SEQUENCE.pack(0), DAEMON_AT)

    def page(self) -> Page:
        """The page as it is now, or an empty one."""
        found = self.read()
        return found[0] if found else Page()

    def close(self):
        """Gives it up."""
        os.close(self.file)
        os.close(self.lock)


def with_no_file(path):
    """Removes what lies at a path, if something does."""
    try:
        os.unlink(path)
    except FileNotFoundError:
        pass
