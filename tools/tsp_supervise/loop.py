"""Waits for what comes: octets, signals, and times."""
import os
import select
import signal
import time

# A wait is no longer than that, so that a clock that jumped is seen.
LONGEST = 1


class Loop:
    """Calls whoever waits for a file, a signal or a time. All calls come one after the other, and none of them may wait."""

    def __init__(self):
        self.poll, self.readers, self.times, self.signals, self.handlers = select.poll(), {}, {}, [], {}
        # (what other threads ask for, which may touch nothing else)
        self.wanted = []
        self.woken, self.waker = os.pipe()
        for end in (self.woken, self.waker):
            os.set_blocking(end, False)
        self.watch(self.woken, self.awake)
        signal.set_wakeup_fd(self.waker, warn_on_full_buffer=False)

    @staticmethod
    def now():
        """Seconds that never go back."""
        return time.monotonic()

    def watch(self, number, call):
        """Calls where this file can be read."""
        self.readers[number] = call
        self.poll.register(number, select.POLLIN)

    def unwatch(self, number):
        """Calls no more."""
        if self.readers.pop(number, None):
            self.poll.unregister(number)
        self.times.pop(('rest', number), None)

    def rest(self, number, seconds):
        """Looks at this file again after so many seconds, so that what comes until then comes in one piece."""
        call = self.readers.get(number)
        if call is None:
            return
        self.unwatch(number)
        self.at(('rest', number), self.now() + seconds, lambda: self.watch(number, call))

    def at(self, name, time_due, call):
        """Calls once at this time, and no more at the one that had this name."""
        self.times[name] = time_due, call

    def after(self, name, seconds, call):
        """Calls once after so many seconds."""
        self.at(name, self.now() + seconds, call)

    def cancel(self, *names):
        """Calls no more at these times."""
        for name in names:
            self.times.pop(name, None)

    def on(self, number, call):
        """Calls at this signal. (under nohup SIGHUP stays ignored)"""
        if number != signal.SIGHUP or signal.getsignal(number) is not signal.SIG_IGN:
            self.handlers[number] = call
            signal.signal(number, lambda number, _: self.signals.append(number))

    def soon(self, name, call):
        """Ends the wait, and calls. (any thread may ask for it)"""
        self.wanted.append((name, call))
        try:
            os.write(self.waker, b'\0')
        except BlockingIOError:
            pass

    def awake(self):
        """Forgets what woke it, and takes over what other threads ask for."""
        os.read(self.woken, 65536)
        while self.wanted:
            name, call = self.wanted.pop(0)
            self.at(name, self.now(), call)

    def step(self):
        """Waits for the next thing, and calls whoever waits for it."""
        due = min((time_due for time_due, _ in self.times.values()), default=self.now() + LONGEST)
        wait = 0 if self.signals else min(max(due - self.now(), 0), LONGEST)
        for number, _ in self.poll.poll(wait * 1000):
            call = self.readers.get(number)
            if call:
                call()
        while self.signals:
            self.handlers[self.signals.pop(0)]()
        for name in [name for name, (time_due, _) in self.times.items() if time_due <= self.now()]:
            if name in self.times:
                self.times.pop(name)[1]()
