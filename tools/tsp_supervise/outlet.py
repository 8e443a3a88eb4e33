"""A stream to which a thread of its own writes, so that nobody waits for its reader."""
import os
import threading

from tsp_supervise.backlog import Backlog


class Outlet:
    """A file's number, the lines that wait for it, and why it takes no more; `failed` is called where it doesn't. `shape` is what becomes of lines there."""

    def __init__(self, number, most, failed=lambda: None, lost=0, shape=bytes):
        self.number, self.failed, self.shape = number, failed, shape
        self.backlog, self.fault, self.is_writing, self.is_closing = Backlog(most, lost), None, False, False
        self.changed = threading.Condition()
        self.thread = threading.Thread(target=self.write_on, daemon=True)
        self.thread.start()

    def put(self, octets):
        """Takes whole lines, and doesn't wait. Where the stream takes no more they are lost."""
        with self.changed:
            if self.fault is None:
                self.backlog.add(octets)
                self.changed.notify_all()
            else:
                self.backlog.lost += octets.count(b'\n')

    def write_on(self):
        """Writes what comes, until the stream fails, or nothing is left and it is closed. A stream that failed is closed too, when that is asked for."""
        while self.fault is None:
            with self.changed:
                self.changed.wait_for(lambda: self.is_closing or self.backlog.holds())
                if not self.backlog.holds():
                    break
                octets, self.is_writing = self.shape(self.backlog.take()), True
            self.write(octets)
            with self.changed:
                self.is_writing = False
                self.changed.notify_all()
        with self.changed:
            self.changed.wait_for(lambda: self.is_closing)
        os.close(self.number)

    def write(self, octets):
        """Writes octets, however long that takes."""
        left = memoryview(octets)
        try:
            while left:
                left = left[os.write(self.number, left):]
        except OSError as fault:
            with self.changed:
                self.fault = fault
                self.backlog.lose(octets, bytes(left))
            self.failed()

    def flush(self, seconds):
        """Waits until all is written, but so many seconds at most."""
        with self.changed:
            self.changed.wait_for(lambda: self.fault or not (self.is_writing or self.backlog.holds()), seconds)

    def close(self):
        """Takes no more, and closes the file when all is written."""
        with self.changed:
            self.is_closing = True
            self.changed.notify_all()
