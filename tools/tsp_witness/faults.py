"""What isn't as it should be in the traces, in lines for a reader."""
import collections

from tsp_witness.journal import QUIET

MILLION = 1_000_000


def name_of(network, journals, life):
    """How a start of a daemon is named to a reader."""
    name = network.names[life.node]
    return name if len(journals[life.node].lives) == 1 else f'{name} (start {life.number + 1})'


def turn_name(network, journals, turn):
    """How a turn is named to a reader."""
    name = name_of(network, journals, turn.life)
    return f'{name} in turn {turn.number}' if turn.number else f'{name} at its start'


def notes_of(network, journals, matching):
    """What is missing in the traces, or couldn't be used."""
    notes = []
    for journal in journals.values():
        notes += journal.notes
        for life in journal.lives:
            notes += missing(name_of(network, journals, life), life)
    absent = collections.Counter()
    for turn in matching.strange:
        sender, _ = matching.sender(turn)
        absent[turn.life.node, sender] += sender not in journals
    return notes + [f'{network.names[node]} took {count} datagrams of {network.names[sender]}, which has no trace here'
                    for (node, sender), count in absent.items() if count]


def missing(name, life):
    """Which lines of a start aren't there."""
    if life.first_tick >= QUIET:
        yield f'{name}: the trace begins {life.first_tick // MILLION} s after the start, when the quiet time was over'
    for turn, wanted, number in life.gaps:
        yield f'{name}: lines are lost before turn {turn.number}, which posts datagram {number}: {wanted} would be next'


def altered_of(network, journals, matching):
    """What was taken otherwise than it was posted, of hosts that have a trace."""
    return [altered_text(network, journals, matching, turn) for turn in matching.strange if matching.sender(turn)[0] in journals]


def altered_text(network, journals, matching, turn):
    """What a daemon took of a peer that never posted it, or, where the turn is doubted, that posted it at another time alone."""
    sender = matching.sender(turn)[0]
    what = f'{name_of(network, journals, turn.life)} took "{" ".join(turn.took().words[2:])}" of {network.names[sender]} in turn {turn.number}'
    if turn in matching.doubted:
        return f'{what}, which by its trace posted that to it at another time alone'
    nearest = matching.nearest(turn)
    return f'{what}, which by its trace never posted that to it' + (f'; it posted "{nearest}"' if nearest else '')
