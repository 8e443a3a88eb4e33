"""Lines of a trace that wait for a reader: a bounded number of them, and of the rest how many were dropped."""
import re
from collections import deque

from tsp_texts.grammar import OF_DAEMON

# Whoever may send a datagram writes these lines: what came from a stranger, and what was sent to one.
OF_STRANGERS = re.compile(f'^{OF_DAEMON}(?:took|post [0-9]+) - .*\n'.encode(), re.MULTILINE)
# And these whoever may send with a peer's address. All others are the daemon's own.
OF_ANYBODY = re.compile(f'^{OF_DAEMON}(?:took|post) .*\n'.encode(), re.MULTILINE)
SIFTS = (OF_STRANGERS, OF_ANYBODY)
# The line that stands for lines that were dropped. (the journal takes a priority before it)
TOLD = re.compile(rb'(?:<[0-7]>)?\.\.\. ([0-9]+) lines dropped\n')
# Pieces are put together up to this size.
PIECE = 65536


class Piece:
    """Whole lines, and how many were dropped before them or among them."""

    def __init__(self, octets, dropped):
        self.octets, self.dropped = bytearray(octets), dropped


def put_behind(pieces, octets, dropped=0):
    """Puts lines behind others, into the last piece where they have room there."""
    if pieces and len(pieces[-1].octets) + len(octets) <= PIECE:
        pieces[-1].octets += octets
        pieces[-1].dropped += dropped
    else:
        pieces.append(Piece(octets, dropped))


def dropped_text(count):
    """The line that stands for lines that were dropped."""
    return b'... %d lines dropped\n' % count if count else b''


class Backlog:
    """Lines in their order, of at most so many octets together.

    Where more come, the oldest lines of strangers are dropped first; then, where there are none any more, the oldest others that tell of a
    datagram; and then the oldest of all. `sifted` are pieces by how often they were sifted, the oldest ones the most often.
    """

    def __init__(self, most, lost=0):
        self.most, self.octets, self.lost = most, 0, lost
        self.sifted = [deque() for _ in range(len(SIFTS) + 1)]

    def add(self, octets):
        """Takes whole lines."""
        put_behind(self.sifted[0], octets)
        self.octets += len(octets)
        while self.octets > self.most:
            self.drop()

    def drop(self):
        """Drops the least of what there is."""
        for times, sift in enumerate(SIFTS):
            if self.sifted[times]:
                self.sift(times, sift)
                return
        piece = self.sifted[-1].popleft()
        self.octets -= len(piece.octets)
        self.lost += piece.dropped + piece.octets.count(b'\n')

    def sift(self, times, sift):
        """Leaves these lines out of the oldest piece that was sifted so often."""
        piece = self.sifted[times].popleft()
        kept, dropped = sift.subn(b'', piece.octets)
        self.octets -= len(piece.octets) - len(kept)
        put_behind(self.sifted[times + 1], kept, piece.dropped + dropped)

    def lose(self, taken, left):
        """Drops all, and of the lines that were taken last those that are left: if these tell how many were dropped before, that many."""
        told = TOLD.match(taken)
        self.lost += left.count(b'\n')
        if told and len(left) > len(taken) - told.end():
            self.lost += int(told[1]) - 1
        for pieces in self.sifted:
            self.lost += sum(piece.dropped + piece.octets.count(b'\n') for piece in pieces)
            pieces.clear()
        self.octets = 0

    def holds(self):
        """Whether there is anything to take."""
        return bool(self.lost or any(self.sifted))

    def take(self):
        """The oldest lines, behind one that says how many were dropped there; nothing where there are none."""
        for pieces in reversed(self.sifted):
            if pieces:
                piece = pieces.popleft()
                self.octets -= len(piece.octets)
                dropped, self.lost = self.lost + piece.dropped, 0
                return dropped_text(dropped) + piece.octets
        dropped, self.lost = self.lost, 0
        return dropped_text(dropped)
