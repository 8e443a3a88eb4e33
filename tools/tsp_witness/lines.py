"""The lines of a host's journal: a daemon's acts, and what its launcher and its supervisor say."""
import re

from tsp_texts import grammar
from tsp_texts.words import MOST_PORTS

# What looks like a line and isn't one was cut or changed.
ALMOST = re.compile(f'(?:^|: )(?!0){grammar.OF_DAEMON}')
# What a daemon's supervisor says of questions for its clock, and their answers, which it didn't hand on.
LEFT_OUT = re.compile(r'(?:^|: )\.\.\. ([1-9][0-9]{0,18}) lines of supervisors left out$')
# No line of a start that names 999 peers is longer; longer ones are passed over.
LONGEST_START = 300_000
# A number of a trace has at most 64 bits.
GREAT_NUMBERS, MOST_NUMBER = re.compile('-?[0-9]{20,}'), 2**64 - 1


def is_too_great(line):
    """Whether a line has a number that no daemon has."""
    return any(len(number) > 21 or abs(int(number)) > MOST_NUMBER for number in GREAT_NUMBERS.findall(line.rpartition(': ')[2]))


def line_of(text):
    """The line of a daemon's trace that a line of a journal is, or None. A journal may have words before it, which end in a colon."""
    found = grammar.line_of(text.rpartition(': ')[2])
    is_daemons = found and found.number and found.node == 0 and found.port < MOST_PORTS
    # (a boot is none of a daemon's acts)
    return found if is_daemons and found.text not in ('boot', 'become starting') else None


def told_base(words, tick, moved, corrected):
    """A daemon's wall clock at its start, where an act tells it and the clock was moved so far by then, this act's move
    counted in; or None."""
    if words[0] == 'correct' and words[2] == 'step':
        return int(words[3]) - tick - moved
    if words[0] == 'correct' and not corrected:
        return int(words[3]) - tick
    if words[0] != 'post':
        return None
    if words[3] == 'request':
        return int(words[4])
    if words[3] == 'reply':
        return int(words[7]) - tick - moved
    return int(words[5]) - tick - moved if words[3] == 'settime' else None
