"""What the rules say of each start of a daemon: its acts follow from its ticks and from what it took, so each start is replayed by itself, as
the only node that acts, by a clock that counts its own ticks. One that a schedule has no room for runs once more as a daemon."""
import contextlib
import struct
import subprocess
from collections import namedtuple

from tsp_texts import grammar, library, schedule
from tsp_texts.tool import Fault
from tsp_witness import Unusable, again
from tsp_witness.datagram import octets_of
from tsp_witness.journal import QUIET, Entry, Turn

MILLION = 1_000_000
# What a replay has room for: the boot and so many turns, and a host with so many peers.
MOST_TURNS, MOST_PEERS = schedule.MOST_EVENTS - 1, schedule.MOST_NODES - 1


class Difference(namedtuple('Difference', 'turn did rule')):
    """The first act of a start that isn't as the rules say: its turn, the words of the act, and those of the rules; either may be missing."""
    __slots__ = ()


class Ruled(namedtuple('Ruled', 'alike difference judged')):
    """How many lines of a start are as the rules say, the first one that isn't, or None, and how many turns were compared."""
    __slots__ = ()


def run(program, command, text):
    """What the program writes for a text."""
    try:
        ran = subprocess.run([program, command], input=text.encode('ascii'), stdout=subprocess.PIPE, stderr=subprocess.DEVNULL, check=False)
    except OSError as fault:
        raise Unusable(f'{program}: {fault.strerror}') from fault
    if not ran.stdout:
        raise Unusable(f'{program} {command} says nothing, and ends with status {ran.returncode}')
    return ran.stdout.decode('ascii', 'replace').splitlines()


def boot(network, life):
    """The turn in which a daemon starts."""
    turn = Turn(life, 0, 0)
    for port in range(len(network.ports_of(life.node))):
        turn.acts += [Entry(port, ['boot'], False)] if port == 0 else []
        turn.acts += [Entry(port, ['become', 'starting'], False), Entry(port, ['arm', 'quiet', str(QUIET)], False)]
    return turn


class Replay:
    """The schedule of one start: the nodes are those of the daemon's networks, of which the others do nothing, and all that it took comes as octets.
    `before` of its turns are none of the trace's."""
    before = 1

    def __init__(self, network, life):
        self.network, self.life = network, life
        self.nets = [network.nets[net] for net in network.ports_of(life.node)]
        self.nodes = sorted({node for net in self.nets for node in net})
        self.number = {node: number for number, node in enumerate(self.nodes)}
        self.own, self.turns = self.number[life.node], [boot(network, life), *life.turns[:MOST_TURNS]]
        peers = network.peers[life.node]
        self.node_of = {str(number): str(self.number[peer.node]) for number, peer in peers.items()}
        self.word = life.base if life.base is not None else life.residue()[0]
        # (walls are at most 10^15, so the count begins later)
        self.origin = max(0, -(-(self.word - schedule.FARTHEST) // MILLION) * MILLION)
        if self.origin + self.turns[-1].tick > schedule.FARTHEST:
            raise Unusable('the wall clocks or ticks are later than a schedule can tell')

    def schedule(self):
        """The schedule's text."""
        names, flags = self.network.names, self.network.flags
        lines = ['tsp-schedule 2' if self.network.strict else 'tsp-schedule 1', 'drift 0'] + ['strict'] * self.network.strict
        lines += [f'node {names[node]} 0 {self.word - self.origin if node == self.life.node else 0} {flags[node]}' for node in self.nodes]
        if len(self.nets) > 1:
            lines += ['net ' + ' '.join(str(self.number[node]) for node in sorted(net)) for net in self.nets]
        lines += [f'at {self.origin + turn.tick} {self.event(turn)}' for turn in self.turns]
        return '\n'.join([*lines, 'end', ''])

    def event(self, turn):
        """The words of a turn's event behind its time."""
        took = turn.took()
        if turn.number == 0 and turn.acts[0].words == ['boot']:
            return f'boot {self.own} {self.word}'
        if took is None:
            return f'turn {self.own}'
        try:
            octets = octets_of(took.words[2:])
        except (ValueError, struct.error):
            raise Unusable(f'{turn.place}: "{" ".join(took.words[2:])}" is no datagram') from None
        place = f'{self.own}/{took.port}' if took.port else str(self.own)
        return f'bytes {place} {self.node_of.get(took.words[1], "-")} {octets.hex()}'

    def answers(self, program):
        """What the node does in each turn, as texts; or the refusal of the schedule."""
        ruled = by_event(run(program, 'replay', self.schedule()))
        for event, _ in enumerate(self.turns, 1):
            yield ruled.get(event) or ruled.get(None, [])

    def text(self, act, tick, posted):
        """An act as the replay has it behind the event's number, where so many datagrams were posted before."""
        words, place = act.words, grammar.place_of_peer(act.words)
        if place is not None or words[0] in ('arm', 'post'):
            words = list(words)
            if place is not None:
                words[place] = self.node_of[words[place]]
            if words[0] == 'arm':
                words[2] = str(self.origin + int(words[2]))
            elif words[0] == 'post':
                words[1] = str(posted)
        return f'{self.own} {act.port} {self.origin + tick} {" ".join(words)}'

    def entry(self, text):
        """A line of the replay as an act of the daemon, in the daemon's own numbers; one that is none of its acts stays as it is."""
        words = text.split(' ')
        if len(words) < 4 or words[0] != str(self.own) or not words[1].isdigit():
            return Entry(0, words, False)
        port, words = int(words[1]), words[3:]
        place = grammar.place_of_peer(words)
        if place is not None:
            words[place] = str(self.network.known_as[self.life.node].get((self.nodes[int(words[place])], port), 0))
        if words[0] == 'arm':
            words[2] = str(int(words[2]) - self.origin)
        return Entry(port, words, False)


def by_event(lines):
    """The texts of lines by their events; a refusal stands under no event."""
    found = {}
    for line in lines:
        number, _, text = line.partition(' ')
        found.setdefault(int(number) if number.isdigit() else None, []).append(text if number.isdigit() else line)
    return found


class Rules:
    """What says what the rules are: the program, as a replay, or where a schedule has no room as a daemon with a library, which is made in this folder
    where it is first needed. `lacks` says why there is none."""

    def __init__(self, program, network, folder):
        self.program, self.network, self.folder = program, network, folder
        self.path, self.lacks = None, None

    def library(self):
        """The library's path, or None."""
        if self.path is None and self.lacks is None:
            try:
                self.path = library.made(again.LIBRARY, self.folder, None)
            except Fault as fault:
                self.lacks = fault.text
        return self.path

    def can_judge(self, node):
        """Whether a host's acts can be compared."""
        return can_replay(self.network, node) or again.can_judge(self.network, node) and self.library() is not None

    def most_peers(self):
        """How many peers a host may have whose acts are compared."""
        return again.MOST_PEERS if self.library() else MOST_PEERS

    def way(self, life):
        """How a start's rules are asked for."""
        has_room = can_replay(self.network, life.node) and len(life.turns) <= MOST_TURNS
        return Replay(self.network, life) if has_room or self.library() is None else again.Again(self.network, life, self.library())

    def compare(self, life):
        """Compares a start's acts with those of the rules. Where the daemon was killed while it wrote the lines of its last turn, those that are
        missing are taken from the rules."""
        return compared(self.way(life), self.program)


def compared(way, program):
    """Compares the acts of a start with those of the rules, which are asked for in this way."""
    alike = posted = 0
    with contextlib.closing(way.answers(program)) as answers:
        for place, (turn, rules) in enumerate(zip(way.turns, answers)):
            texts = []
            for act in turn.acts:
                texts.append(way.text(act, turn.tick, posted))
                posted += act.words[0] == 'post'
            if texts != rules:
                missing = [way.entry(text) for text in rules[len(texts):]]
                if turn is not way.life.turns[-1] or not missing or rules[:len(texts)] != texts:
                    return Ruled(alike, difference(way, turn, texts, rules), place - way.before)
                turn.acts += missing
            alike += sum(act.written for act in turn.acts)
    return Ruled(alike, None, len(way.turns) - way.before)


def difference(way, turn, texts, rules):
    """The first act of a turn that isn't as the rules say."""
    place = next((place for place, pair in enumerate(zip(texts, rules)) if pair[0] != pair[1]), min(len(texts), len(rules)))
    did = turn.acts[place].words if place < len(texts) else None
    rule = way.entry(rules[place]).words if place < len(rules) else None
    if did and rule and did[0] == rule[0] == 'post':
        # (by what was left out of the trace the numbers may be others)
        rule[1] = did[1]
    return Difference(turn, did, rule)


def can_replay(network, node):
    """Whether a schedule has room for a host and its peers."""
    return len({other for net in network.ports_of(node) for other in network.nets[net]}) <= MOST_PEERS + 1


def explain(network, name, found):
    """The first act of a start that isn't as the rules say, with the datagram before it, in lines for a reader."""
    turn = found.turn
    did, rule = (' '.join(words) if words else 'nothing more' for words in (found.did, found.rule))
    yield f'{name}, turn {turn.number}, tick {turn.tick}: it did "{did}", and by the rules it is "{rule}"'
    before = turn.life.turns[:turn.life.turns.index(turn) + 1] if turn in turn.life.turns else []
    last = next((other for other in reversed(before) if other.took()), None)
    if last is None:
        yield 'it took no datagram before'
        return
    words = last.took().words
    whom = 'a stranger' if words[1] == '-' else network.names[network.peers[turn.life.node][int(words[1])].node]
    yield f'the datagram before it: "{" ".join(words[2:])}" of {whom}, taken in turn {last.number} at tick {last.tick}'
