"""What is wrong with a line that isn't in the grammar of a schedule: the field, counted from 1, and a hint."""
import re
from collections import namedtuple

from tsp_texts import schedule

WORD_BITS, NODE_BITS, PORT_BITS = 64, 32, 8


class Field(namedtuple('Field', 'name means hint')):
    """A word of a line: its name, what belongs there, and a call that gives a hint or None."""
    __slots__ = ()


def literal(word):
    """A word that stands as it is."""
    def hint(given, _nodes):
        if given == word:
            return None
        return f'words are in lower case: `{word}`' if given.lower() == word else f'`{word}` belongs here'
    return Field(word, f'the word `{word}`', hint)


def number(name, means, low, high):
    """A whole number from low to high."""
    def hint(given, nodes):
        if re.fullmatch('0|-?[1-9][0-9]*', given):
            if low <= int(given) <= high:
                return None
            return f'{given} is below {low}' if int(given) < low else f'{given} is above {high}'
        return spelling_hint(given, low) or name_hint(given, name, nodes) or f'`{given}` is no number; {means} belongs here'
    return Field(name, means, hint)


def spelling_hint(given, low):
    """Why something that looks like a number isn't spelled as one."""
    if re.fullmatch(r'\+[0-9]+', given):
        return 'a number has no plus sign'
    if re.fullmatch('-0+', given):
        return 'zero has no sign'
    if re.fullmatch('-?0[0-9]+', given):
        return f'a number has no leading zeros: {int(given)}'
    if re.fullmatch(r'-?[0-9][0-9_,\']*', given):
        return 'digits stand together: ' + re.sub(r"[_,']", '', given)
    if re.fullmatch(r'-?[0-9]*\.[0-9]+|-?[0-9.]+[eE][0-9+-]+', given):
        return 'numbers are whole; times are in microseconds'
    if re.fullmatch('(?i)0x[0-9a-f]+', given):
        return f'numbers are decimal: {int(given, 16)}'
    if found := re.fullmatch('(-?[0-9]+)(us|ms|s|ppm)', given):
        return f'a number has no unit: {found[1]}' if found[2] in ('us', 'ppm') else 'a number has no unit; times are in microseconds'
    return None


def name_hint(given, name, nodes):
    """Where a node's name stands in place of its number."""
    names = [node.name for node in nodes]
    if name in ('N', 'P') and given in names:
        return f'a node has a number here, not its name: {given} is {names.index(given)}'
    return None


def name_of_a_node(given, _nodes):
    if len(given) > 255:
        return f'a name has at most 255 octets, not {len(given)}'
    bad = re.search('[^A-Za-z0-9._-]', given)
    return f'a name has letters, digits, `.`, `-` and `_`, not `{bad[0]}`' if bad else None


def flag(given, _nodes):
    return None if given in ('m', 's') else f'`m` belongs here where the node may be master, or `s`, not `{given}`'


def peer(given, nodes):
    return None if given == '-' else number('P', 'a peer\'s number, or `-` for a stranger,', 0, 2**NODE_BITS - 1).hint(given, nodes)


def actor(given, nodes):
    """A node's number, and with a stroke a port of it."""
    node, stroke, port = given.partition('/')
    if stroke and re.fullmatch('0+', port):
        return f'port 0 is named by the node alone: {node}'
    return number('N', 'a node\'s number', 0, 2**NODE_BITS - 1).hint(node, nodes) or \
        (number('Q', 'a port\'s number', 1, 2**PORT_BITS - 1).hint(port, ()) if stroke else None)


def octets(given, _nodes):
    bad = re.search('[^0-9a-fA-F]', given)
    if given.lower().startswith('0x'):
        return 'hexadecimal has no 0x before it'
    if bad:
        return f'hexadecimal has the digits 0 to 9 and a to f, not `{bad[0]}`'
    if len(given) % 2:
        return f'an octet has two digits, and there are {len(given)}'
    return None if len(given) <= 600 else f'there are {len(given) // 2} octets, and at most 300 are taken'


AT = literal('at')
TIME = number('T', 'a time in microseconds', 0, schedule.FARTHEST)
NODE = number('N', 'a node\'s number', 0, 2**NODE_BITS - 1)
WALL = number('WALL', 'the wall clock in microseconds', -schedule.FARTHEST, schedule.FARTHEST)
EVENTS = {
    'boot': [AT, TIME, literal('boot'), NODE, number('WORD', 'the word of the boot', 0, 2**WORD_BITS - 1)],
    'turn': [AT, TIME, literal('turn'), NODE],
    'take': [AT, TIME, literal('take'), number('K', 'a datagram\'s number', 0, 2**WORD_BITS - 1)],
    'bytes': [AT, TIME, literal('bytes'), Field('N', 'a node\'s number, and behind a stroke its port', actor), Field('P', 'the sender: a peer\'s number, or `-`', peer),
              Field('HEX', 'octets in hexadecimal', octets)],
}
FIRST = [literal('tsp-schedule'), Field('VERSION', 'the version, 1 or 2', lambda given, _: None if given in ('1', '2') else '`1` belongs here, or `2` for strict elections')]
STRICT = [literal('strict')]
NO_STRICT = '`strict` stands behind `tsp-schedule 2`, where elections are strict'
NO_NODE = 'a node\'s line belongs here: node NAME RATE WALL FLAG'
DRIFT = [literal('drift'), number('P', 'the greatest drift in parts in a million', 0, schedule.MOST_DRIFT)]


def node_line(drift):
    """A node's line under this drift."""
    return [literal('node'), Field('NAME', 'the node\'s name', name_of_a_node),
            number('RATE', 'the clock\'s rate in parts in a million', -drift, drift), WALL,
            Field('FLAG', '`m` where the node may be master, or `s`', flag)]


def explain_net(line, nodes):
    """The field and the hint for a network's line that isn't one."""
    if blank_hint(line):
        return explain(line, [])
    count = max(line.count(b' '), 1)
    field, hint = explain(line, [literal('net')] + [NODE] * count, nodes)
    numbers = line.split(b' ')[1:]
    if field <= count + 1:
        return field, hint
    fall = next(place for place, (low, high) in enumerate(zip(numbers, numbers[1:]), start=3) if int(low) >= int(high))
    return fall, 'the nodes of a network ascend, and each stands once'


def full_net(net, nodes, nets):
    """The field and the hint for a network that the header doesn't take."""
    if len(nets) == schedule.MOST_NETS:
        return 1, f'there are {schedule.MOST_NETS} networks, and no more are taken'
    for field, node in enumerate(net, start=2):
        if node >= len(nodes):
            return field, f'there are {len(nodes)} nodes, numbered from 0'
        if len(schedule.ports_of(nets, node)) == schedule.MOST_PORTS:
            return field, f'node {node} is on {schedule.MOST_PORTS} networks already'
    raise AssertionError('the header takes this network')


def lonely(nodes, nets):
    """The hint where the header ends, and a node is on no network."""
    node = next(node for node in range(len(nodes)) if not schedule.ports_of(nets, node))
    return f'node {node}, {nodes[node].name}, is on no network, and others are'


def blank_hint(line):
    """What is wrong with the blanks of a line, or its other octets that no line has."""
    if line.startswith(b'\xef\xbb\xbf'):
        return 'the file begins with a byte order mark; it has to go'
    if line.endswith(b'\r'):
        return 'the line ends with CR LF; a line ends with a line feed alone'
    if not line:
        return 'the line is empty; a schedule has no empty lines'
    if line.startswith(b'#'):
        return 'a schedule has no comments'
    if len(line) > schedule.LONGEST_LINE:
        return f'the line has {len(line)} octets, and at most {schedule.LONGEST_LINE} are taken'
    if b'\t' in line:
        return 'words stand one space apart, and a tab is none'
    if line.endswith(b' '):
        return 'there is a space at the line\'s end'
    if line.startswith(b' '):
        return 'there is a space at the line\'s beginning'
    return 'there are two spaces side by side' if b'  ' in line else None


def field_of_blank(line):
    """The field behind which, or in which, the blank stands that blank_hint speaks of."""
    if line.startswith((b' ', b'\xef\xbb\xbf', b'#')) or not line:
        return 1
    if not line.endswith((b'\r', b' ')):
        for blank in (b'\t', b'  '):
            if blank in line:
                return line[:line.index(blank)].count(b' ') + 1
    return len(line.split())


def explain(line, shape, nodes=()):
    """The field and the hint for a line that isn't of this shape."""
    hint = blank_hint(line)
    if hint:
        return field_of_blank(line[:schedule.LONGEST_LINE + 1]), hint
    words = line.decode('ascii', 'backslashreplace').split(' ')
    for place, field in enumerate(shape, start=1):
        if place > len(words):
            return place, f'{field.name} is missing: {field.means}'
        hint = field.hint(words[place - 1], nodes)
        if hint:
            return place, hint
    return len(shape) + 1, f'nothing belongs behind {shape[-1].name}'


def explain_event(line, nodes):
    """The field and the hint for a line that is no event."""
    if blank_hint(line):
        return explain(line, [])
    words = line.decode('ascii', 'backslashreplace').split(' ')
    if words == ['net']:
        return 2, 'N is missing: a network names its nodes, and stands in the header'
    if words[0] in ('node', 'net'):
        return 1, f'a {"node" if words[0] == "node" else "network"} stands in the header, before the first event'
    if words[0] in ('drift', 'strict', 'tsp-schedule'):
        return 1, f'`{words[0]}` stands in the header'
    if words[0] != 'at':
        return 1, AT.hint(words[0], nodes) if words[0].lower() == 'at' else '`at` begins an event, and `end` ends a schedule'
    if len(words) > 2 and words[2] in EVENTS:
        return explain(line, EVENTS[words[2]], nodes)
    kinds = [AT, TIME, Field('the kind', '`boot`, `turn`, `take` or `bytes`',
                             lambda given, _: f'`boot`, `turn`, `take` or `bytes` belongs here, not `{given}`')]
    return explain(line, kinds, nodes)
