"""The line that says how far a build is: once in ten seconds, on a terminal in the place of the one before."""
import os
import sys
import time

EVERY = 10
WIDTH = 78


def put(text):
    """Writes on standard error. If that takes nothing, nothing is written there any more."""
    try:
        sys.stderr.write(text)
        sys.stderr.flush()
    except OSError:
        be_silent()


def be_silent():
    """Takes the place of a standard error that is closed, or takes nothing."""
    sys.stderr = open(os.devnull, 'w', encoding='utf-8')


def say(text):
    put(f'tsp: {text}\n')


def in_words(seconds):
    seconds = int(seconds)
    return f'{seconds} s' if seconds < 60 else f'{seconds // 60} min {seconds % 60:02} s'


class Progress:
    """What is said of a build while it goes on."""

    def __init__(self, forecast, total):
        self.forecast, self.total = forecast, total
        self.began, self.since = time.monotonic(), {}
        self.next, self.shown, self.said = 0.0, None, 0.0
        self.terminal = sys.stderr.isatty()

    def spent(self):
        return time.monotonic() - self.began

    def look(self, runs):
        """Notes what has ended and begun, and says how far it is if that is due."""
        spent = self.spent()
        proved, kept = runs.said()
        self.forecast.keep(kept)
        self.forecast.end(proved, spent, self.since)
        now = runs.begun()
        self.since.update({name: spent for name in now if name not in self.since})
        if spent >= self.next:
            self.next = spent + EVERY
            self.show(spent, sorted(now - set(self.forecast.ended)))

    def show(self, spent, now):
        percent, left = self.forecast.reckon({name: self.since[name] for name in now}, spent)
        ended = len(self.forecast.ended)
        minutes = max(1, int(-(-left // 60)))
        line = f'{ended} of {self.total} crates, {percent} % of the work, {in_words(spent)}, about {minutes} min more'
        if now:
            line += '; now ' + ' '.join(now)
        if self.terminal:
            put(f'\r\033[K{("tsp: " + line)[:WIDTH]}')
        elif (ended, now) != self.shown or spent - self.said >= 60:
            self.shown, self.said = (ended, now), spent
            say(line)

    def clear(self):
        if self.terminal:
            put('\r\033[K')
