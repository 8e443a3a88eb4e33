"""The lines of traces, `NUMBER NODE PORT TICK ACT`: what `tsp replay` writes, `tsp audit` takes and daemons tell.

NUMBER is that of an event, or in a daemon's own trace that of a turn; there NODE is 0.
"""
import re
from collections import namedtuple
from functools import lru_cache

# No line of a trace is longer.
LONGEST = 1024
NUMBER, SIGNED, WHO = '(?:0|[1-9][0-9]{0,19})', '(?:0|-?[1-9][0-9]{0,18})', '(?:-|0|[1-9][0-9]{0,19})'
# How a line of a daemon's own trace begins: its turn, node 0, a port and the tick.
OF_DAEMON = '[0-9]+ 0 [0-3] [0-9]+ '
NAME = '(?:%|(?:[!-$&-~]|%[0-9a-f]{2}){1,255})'
ALARM = '(?:quiet|search|elect|window|probe|close|resolve|round)'
# The kinds of messages with a name in the order of their numbers, from 1 on, and those of them that have a time.
KINDS = ('adjtime ack masterreq masterack settime masterup slaveup election accept refuse conflict resolve quit date datereq dateack '
         'traceon traceoff msite msitereq test setdate setdatereq loop').split()
TIMED = ('adjtime', 'settime', 'date', 'datereq', 'setdate', 'setdatereq')
BARE = [kind for kind in KINDS if kind not in TIMED and kind != 'loop']
# What can be wrong with octets that are no datagram.
FAULTS = ('short', 'long', 'version', 'kind', 'stamp-length', 'no-end', 'name-too-long', 'reserved', 'time')
MESSAGES = (
    f'(?:{"|".join(BARE)}) {NUMBER} {NAME}', f'(?:{"|".join(TIMED)}) {NUMBER} {SIGNED} {NAME}', f'loop {NUMBER} {NUMBER} {NAME}',
    f'request {NUMBER} {NUMBER}', f'reply {NUMBER} {NUMBER} {NUMBER} {SIGNED}',
)
MESSAGE = f'(?:{"|".join(MESSAGES)})'
# Acts that speak of a peer and of nothing else.
OF_PEERS = ('back', 'backer', 'quit', 'join', 'leave', 'rival', 'acked', 'gave')
ACTS = (
    f'took {WHO} (?:{MESSAGE}|refused (?:{"|".join(FAULTS)}))', f'post {NUMBER} {WHO} {MESSAGE}',
    f'arm {ALARM} {NUMBER}', f'(?:ring|late) {ALARM}', f'(?:{"|".join(OF_PEERS)}) {NUMBER}',
    f'sample {NUMBER} {NUMBER} {SIGNED} {NUMBER} {NUMBER}', f'close {NUMBER} {SIGNED} {NUMBER} {SIGNED}', f'correct {SIGNED} (?:slew|step) {SIGNED}',
    f'become (?:starting|loose|candidate|master|follow {NUMBER})', 'boot', 'abandon', 'trace (?:on|off)',
)
# At which word of an act a peer stands.
PEER_AT = {'took': 1, 'post': 2, 'become': 2, 'sample': 1, **{word: 1 for word in OF_PEERS}}


class Line(namedtuple('Line', 'number node port tick text')):
    """A line of a trace. The text says what was done."""
    __slots__ = ()


@lru_cache(maxsize=None)
def pattern():
    """The pattern of a line, which is made where it is first needed."""
    return re.compile(f'^({NUMBER}) ({NUMBER}) ({NUMBER}) ({NUMBER}) ({"|".join(ACTS)})$', re.MULTILINE)


def line_of(text):
    """The line of a trace that a text is, or None."""
    found = pattern().fullmatch(text)
    if not found:
        return None
    number, node, port, tick, act = found.groups()
    return Line(int(number), int(node), int(port), int(tick), act)


def lines_of(text):
    """The lines of a whole text as their parts, whose numbers are texts yet; None where one of them is none of a trace's."""
    found = pattern().findall(text)
    return found if len(found) == text.count('\n') and text[-1:] in ('', '\n') else None


def place_of_peer(words):
    """At which word of an act a peer's number stands, or None."""
    place = PEER_AT.get(words[0])
    return place if place is not None and place < len(words) and words[place] != '-' else None
