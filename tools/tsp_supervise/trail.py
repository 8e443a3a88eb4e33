"""The files of a trace, of a bounded size together: a file that is full is put aside and compressed, and the oldest ones go."""
import gzip
import os
import re
import shutil
import threading
import time

from tsp_supervise.outlet import Outlet
from tsp_supervise.output import AGAIN, MOST, Output
from tsp_texts.tool import Fault

MIB = 1 << 20
# Where the unit's trace is kept unless TSP_TRACE says otherwise, and how many MiB it may take unless TSP_KEEP does.
PATH, KEEP = '/var/log/tsp/trace', 64
# A file is put aside with so many octets at most, and with a part of what all have.
WHOLE, PART = 8 * MIB, 8
# Seconds between two lines that tell the time.
HOUR = 3600
# What files that were put aside are called: the newer one has the greater number.
ASIDE = re.compile(r'\.([0-9]{6})(?:\.gz)?')


def aside(path):
    """The files that were put aside, by their numbers, the oldest first."""
    folder, name = os.path.split(path)
    found = [(ASIDE.fullmatch(each[len(name):]), each) for each in os.listdir(folder or '.') if each.startswith(name)]
    return sorted((int(match[1]), os.path.join(folder, each)) for match, each in found if match)


def compress(path):
    """Puts a compressed file in the place of one."""
    beside = path + '.gz~'
    try:
        with open(path, 'rb') as file, open(os.open(beside, os.O_WRONLY | os.O_CREAT | os.O_TRUNC, 0o640), 'wb') as out:
            with gzip.GzipFile('', 'wb', 6, out, os.stat(path).st_mtime) as packed:
                shutil.copyfileobj(file, packed, 65536)
        os.replace(beside, path + '.gz')
        os.unlink(path)
    except OSError:
        if os.path.exists(beside):
            os.unlink(beside)
        raise


class Trail(Output):
    """A trace's file that is put aside when it is full. `keep` is how many octets all files may have together."""

    def __init__(self, path, loop, say, keep):
        self.most, self.whole, self.put_so_far, self.tidying = keep, min(WHOLE, keep // PART), 0, threading.Lock()
        try:
            super().__init__(path, loop, say, None)
        except Fault as fault:
            # (what can't be opened yet is tried again, and lines until then are counted)
            self.outlet = Outlet(os.open(os.devnull, os.O_WRONLY), MOST)
            self.outlet.fault = fault
            say(f'{fault.text}; the trace is kept once it can be written')
            loop.after('output', AGAIN, self.reopen)
        self.tidy_later(None, self.last())
        self.tell_time()

    def opened(self, lost):
        """The file, behind a line that was cut when a supervisor was killed."""
        outlet = super().opened(lost)
        self.put_so_far = os.fstat(outlet.number).st_size
        try:
            with open(self.path, 'rb') as file:
                file.seek(-1, os.SEEK_END)
                if file.read(1) != b'\n':
                    outlet.put(b'\n')
        except OSError:
            pass
        return outlet

    def put(self, lines):
        """Takes lines, and puts the file aside if it is full."""
        super().put(lines)
        self.put_so_far += len(lines)
        if self.put_so_far >= self.whole:
            self.turn_over()

    def tell_time(self):
        """A line says what time it is, once an hour and at the beginning of each file, so that lines can be found by time."""
        self.loop.after('trail', HOUR, self.tell_time)
        super().put(time.strftime('... it is %Y-%m-%dT%H:%M:%SZ\n', time.gmtime()).encode('ascii'))

    def last(self):
        """The number of the file that was put aside last; 0 where there is none."""
        try:
            return max((number for number, _ in aside(self.path)), default=0)
        except OSError:
            return 0

    def turn_over(self):
        """Puts the file aside, and begins a new one. What waits for the old one still goes there."""
        old, self.put_so_far = self.outlet, 0
        try:
            if old.fault or os.stat(self.path).st_size < self.whole // 2:
                return
            number = self.last() + 1
            os.rename(self.path, f'{self.path}.{number:06}')
        except OSError as fault:
            self.say(f'{self.path} can\'t be put aside: {fault.strerror}')
            return
        self.reopen()
        self.tell_time()
        self.tidy_later(old, number)

    def tidy_later(self, old, number):
        """Has the files up to this number tidied by a thread, once the last one of them is written."""
        threading.Thread(name='tidy', target=self.tidy, args=(old, number), daemon=True).start()

    def tidy(self, old, last):
        """Compresses what was put aside, and removes the oldest files, so that there is room for a file and for one that is being compressed."""
        if old:
            old.thread.join()
        try:
            with self.tidying:
                for number, path in aside(self.path):
                    if number <= last and not path.endswith('.gz'):
                        compress(path)
                left = self.most - 2 * self.whole
                for _, path in reversed(aside(self.path)):
                    left -= os.stat(path).st_size
                    if left < 0:
                        os.unlink(path)
        except OSError as fault:
            text = f'{fault.filename or self.path} can\'t be tidied: {fault.strerror}'
            self.loop.soon('tidy', lambda: self.say(text))
