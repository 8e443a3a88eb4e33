"""Lines of a daemon's trace."""
from tsp_texts import grammar
from tsp_texts.grammar import LONGEST
from tsp_texts.words import MOST_PEERS, MOST_PORTS


def line_of(text):
    """The line of a trace that a text is, or None; a trace of `tsp replay` has no more nodes than a daemon has peers. (the journal may put the time and the program's name before it, which end in a colon)"""
    found = grammar.line_of(text.rpartition(': ')[2])
    if not found or not found.number or found.port >= MOST_PORTS or found.node > MOST_PEERS:
        return None
    words = found.text.split(' ')
    place = grammar.place_of_peer(words)
    return found if place is None or int(words[place]) <= MOST_PEERS else None


def text_of(line):
    """A line as text that any stream and any file takes."""
    return line.decode('ascii', 'backslashreplace')


class Lines:
    """Cuts octets into lines, as they come. What isn't ASCII is written by its numbers."""

    def __init__(self):
        self.rest, self.is_long = b'', False

    def cut(self, octets):
        """The lines that end in these octets, but for those that are too long."""
        *whole, rest = (self.rest + octets).split(b'\n')
        for line in whole:
            if not self.is_long and len(line) <= LONGEST:
                yield text_of(line.rstrip(b'\r'))
            self.is_long = False
        self.is_long = self.is_long or len(rest) > LONGEST
        self.rest = b'' if self.is_long else rest

    def last(self):
        """The last line, where no line feed ends it."""
        if self.rest:
            yield text_of(self.rest)
