"""At which tick a daemon is now, as a trace that is read late lets find it."""
from __future__ import annotations

import os
import time

import tsp_clock
from tsp_daemon import kept

MILLION = 1_000_000
# A line tells the time in whole seconds, so it was written up to one later.
TOLD_TO = MILLION


def steady():
    """What this machine's steady clock says, in microseconds."""
    return time.monotonic_ns() // 1000


def wall():
    """What this machine's wall clock says, in microseconds since 1970."""
    return time.time_ns() // 1000


class Place:
    """Where a daemon's ticks are in time. Lines that were there before they were read say nothing of that; one that comes does. `page` is the path of the
    daemon's page and `file` that of its trace, each None where there is none."""

    def __init__(self, page: str | None = None, file: str | None = None):
        self.page, self.file, self.is_live = page, file, False
        self.tick, self.lag = 0, None

    def waits(self):
        """All lines that were there are read: what is read from now on comes when it was written, or little later."""
        self.is_live = True

    def took(self, daemon):
        """Lines were read, the last of which had this daemon's tick. A start begins anew, and of what came the line that was held up least counts."""
        before, self.tick = self.tick, daemon.tick
        if not self.is_live or daemon.tick == before:
            return
        lag, is_anew = steady() - daemon.tick, self.lag is None or daemon.tick < before
        self.lag = lag if is_anew else min(lag, self.lag)

    def now(self, daemon):
        """The daemon's tick now, or None where nothing tells it: by lines that came, or by the page, or else by what was written into the trace last."""
        if self.lag is not None:
            return steady() - self.lag
        if self.page is not None:
            is_written, tick = self.by_page()
            if is_written:
                return tick if tick is not None and tick >= daemon.tick else None
        return self.by_words(daemon)

    def by_page(self):
        """Whether there is a page, and the tick of the daemon that writes it, None where none does."""
        try:
            found = tsp_clock.Clock(self.page).read()
        except OSError:
            return False, None
        if not found or tsp_clock.now_of(*found).status == tsp_clock.STALE:
            return True, None
        return True, found[0].daemon.tick_at(found[1])

    def by_words(self, daemon):
        """The least tick that a time which stands in the trace, or that of the file, lets it have. (both are as right as the wall clock since then)"""
        found = []
        if daemon.told:
            tick, seconds = daemon.told
            found.append(tick + wall() - seconds * MILLION - TOLD_TO)
        if self.file is not None:
            try:
                found.append(daemon.tick + wall() - os.stat(self.file).st_mtime_ns // 1000)
            except OSError:
                pass
        return max([daemon.tick, *found]) if found else None


def of_unit():
    """Where the ticks of this machine's unit are."""
    # (a trace that the caller names alone may be another daemon's than the page)
    is_named = bool(os.environ.get('TSP_TRACE') or os.environ.get('TSP_OUTPUT'))
    page = os.environ.get('TSP_CLOCK') or (None if is_named else kept.of_unit('TSP_CLOCK') or tsp_clock.PATH)
    return Place(page, kept.place() or None)
