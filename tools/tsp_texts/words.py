"""The words of the program's commands, as `--help` has them, and the first of some words that the grammar has no place for."""
import re

COMMAND = re.compile(r'    tsp (\S+(?: \S+)*)(?:  .*)?')
ADDRESS, HOST = re.compile(r'([^:]*):([^:]*)'), re.compile(r'[A-Za-z0-9._-]{1,255}')
# (a port of a daemon is one of its networks)
MOST_PEERS, MOST_PORTS = 999, 4
MOST_TIME = 2**31 * 10**6


def is_number(word, least, most):
    """Whether a word is a number of this range as the grammar spells it: decimal, and without leading zeros."""
    return re.fullmatch(r'0|-?[1-9][0-9]{0,19}', word) is not None and least <= int(word) <= most


def is_address(word):
    """Whether a word is A.B.C.D:PORT, the port from 1 on."""
    parts = ADDRESS.fullmatch(word)
    octets = parts.group(1).split('.') if parts else ()
    return len(octets) == 4 and all(is_number(octet, 0, 255) for octet in octets) and is_number(parts.group(2), 1, 65535)


# What stands for a word in `--help`: what belongs there, and whether a word does.
AN_ADDRESS = ('an address A.B.C.D:PORT', is_address)
KINDS = {
    'LOCAL': AN_ADDRESS,
    'ADDR': AN_ADDRESS,
    'NAME': ('a name of 1 to 255 letters, digits, dots, dashes and low lines', lambda word: HOST.fullmatch(word) is not None),
    'FLAG': ('m, s or x', lambda word: word in ('m', 's', 'x')),
    'TURNS': ('a number of turns from 1 to 1000000000', lambda word: is_number(word, 1, 10**9)),
    'on': ('on or off', lambda word: word in ('on', 'off')),
    'TIME': (f'microseconds since 1970 between -{MOST_TIME} and {MOST_TIME}', lambda word: is_number(word, 1 - MOST_TIME, MOST_TIME - 1)),
    'SEED': (f'a number from 0 to {2**64 - 1}', lambda word: is_number(word, 0, 2**64 - 1)),
    'NODES': ('a number of nodes from 1 to 64', lambda word: is_number(word, 1, 64)),
    'EVENTS': ('a number of events from 1 to 200000', lambda word: is_number(word, 1, 200_000)),
}
PEERS = 'PEER..'


def commands(text):
    """The commands of a text as `--help` writes it: each one's first word, with what stands behind it."""
    lines = (COMMAND.fullmatch(line) for line in text.splitlines())
    forms = [match.group(1).split(' ') for match in lines if match]
    return {form[0]: form[1:] for form in forms}


def fault(words, text):
    """What is wrong with words that are no command, by the text of `--help`; None where the grammar has a place for all of them."""
    known = commands(text)
    if not words:
        return 'there is no word, and a command belongs there'
    if words[0] not in known:
        return misplaced(words, 0, 'no command has this name')
    form = known[words[0]]
    for at, kind in enumerate(form, 1):
        if kind == PEERS:
            return fault_of_peers(words, at)
        belongs, fits = KINDS[kind]
        if at == len(words):
            return f'an argument is missing behind \'{words[-1]}\' (argument {at}): {belongs} belongs there'
        if not fits(words[at]):
            return misplaced(words, at, f'{belongs} belongs there')
    return misplaced(words, len(form) + 1, 'nothing belongs there') if len(words) > len(form) + 1 else None


def fault_of_peers(words, first):
    """The same of the peers of a daemon, from this word on, with a `+` before each port's but the first one's."""
    taken, ports = {words[1]}, 1
    for at, word in enumerate(words[first:], first):
        why = None
        if word == '+':
            ports += 1
            why = f'a daemon is on {MOST_PORTS} networks at most' if ports > MOST_PORTS else None
        elif not is_address(word):
            why = f'{AN_ADDRESS[0]} or a + belongs there'
        elif word in taken:
            why = 'this is the daemon\'s own address' if word == words[1] else 'this peer stands before already'
        elif len(taken) > MOST_PEERS:
            why = f'a daemon has {MOST_PEERS} peers at most'
        if why:
            return misplaced(words, at, why)
        if word != '+':
            taken.add(word)
    return None


def misplaced(words, at, why):
    """The line for a word that the grammar has no place for."""
    return f'the first argument that the grammar has no place for is \'{words[at]}\' (argument {at + 1}): {why}'
