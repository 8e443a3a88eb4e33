"""Journals: the lines that a host's daemon wrote, life by life, as files or a journal have them."""
import math
from sys import intern

from tsp_texts import told
from tsp_texts.grammar import LONGEST, place_of_peer
from tsp_witness import Unusable, lines

QUIET, ELECT_MIN, ELECT_SPREAD = 80_000_000, 300_000_000, 300_000_000
TICKETS = 32768
# Messages whose number is the ticket, or 32,768 more and the count of such sends so far.
NUMBERED = ('slaveup', 'election', 'conflict', 'quit', 'setdatereq')


# Numbers of fewer digits come often.
SHORT = 6

# What a journal has before a line, so many octets without a line of a trace, acts and starts of one host, and notes of it, at most.
BEFORE, MOST_OTHER, MOST_ACTS, MOST_STARTS, MOST_NOTES = 256, 16 * 2**20, 4_000_000, 1000, 100


class Lines:
    """The lines of a file, and None for each that is too long, of which no more is kept than of others. `octets` were read so far."""

    def __init__(self, file):
        self.file, self.octets = file, 0

    def part(self):
        """The next line, or as much of it as one may have."""
        line = self.file.readline(lines.LONGEST_START)
        self.octets += len(line)
        return line

    def __iter__(self):
        line = self.part()
        while line:
            rest = line
            while rest and not rest.endswith(b'\n') and self.octets <= 2 * MOST_OTHER:
                rest = self.part()
            yield line.decode('ascii', 'replace').rstrip('\r\n') if rest is line or not rest and len(line) < lines.LONGEST_START else None
            line = self.part()


def words_of(text):
    """The words of an act. Those that come often are kept once."""
    return [intern(word) if len(word) < SHORT or not word.isdigit() else word for word in text.split(' ')]


class Entry:
    """An act of a daemon in its journal: its port and words, and whether the daemon wrote it, or it follows from the rules. `number` is that
    of its datagram in the schedule, where it is a post; `unseen` is how many lines the supervisor left out, as it says before this one."""
    __slots__ = ('port', 'words', 'written', 'number', 'unseen')

    def __init__(self, port, words, written=True, unseen=0):
        self.port, self.words, self.written, self.number, self.unseen = port, words, written, None, unseen


class Turn:
    """A turn of a daemon that acted. `post` is the datagram that it took, where a traced daemon posted it; `at` the true time."""
    __slots__ = ('life', 'number', 'tick', 'acts', 'post', 'at', 'place')

    def __init__(self, life, number, tick, place=''):
        self.life, self.number, self.tick, self.place = life, number, tick, place
        self.acts, self.post, self.at = [], None, None

    def took(self):
        """The act by which it took a datagram, or None."""
        return next((act for act in self.acts if act.words[0] == 'took'), None)


class Life:
    """A daemon from its start to its end. `base` is its wall clock at its start, by which it counts; None where no line tells it. `rates` are by how many
    parts in 10^9 its counter is faster than that clock, each with the tick from which on it is."""

    def __init__(self, node, number, rate=0):
        self.node, self.number, self.rates, self.turns = node, number, [(0, rate)], []
        self.base, self.first_tick, self.first_post, self.gaps = None, 0, 0, []

    def mean_rate(self):
        """By how many parts in 10^9 its counter was faster than that clock, over all of its ticks."""
        last = self.turns[-1].tick
        ends = [min(tick, last) for tick, _ in self.rates[1:]] + [last]
        return sum(rate * (end - tick) for (tick, rate), end in zip(self.rates, ends)) / last if last else self.rates[0][1]

    def read_clock(self):
        """Finds the base: by the first reading, correction or word that the daemon tells."""
        moved, corrected = 0, False
        for turn in self.turns:
            for act in turn.acts:
                if act.words[0] == 'correct':
                    moved += int(act.words[1])
                self.base = lines.told_base(act.words, turn.tick, moved, corrected)
                if self.base is not None:
                    return
                corrected = corrected or act.words[0] == 'correct'

    def residue(self):
        """What is known of the base where no line tells it: its rest, and by what number it was divided. The delay of elections tells one, and the
        number of the first numbered send another, which begins with the ticket."""
        acts = [(turn, act.words) for turn in self.turns for act in turn.acts]
        delay = next((int(words[2]) - turn.tick - ELECT_MIN for turn, words in acts if words[:2] == ['arm', 'elect']), None)
        ticket = next((int(words[4]) % TICKETS for _, words in acts if words[0] == 'post' and words[3] in NUMBERED), None)
        if delay is None or ticket is None:
            return (0, 1) if delay is None and ticket is None else (delay, ELECT_SPREAD) if ticket is None else (ticket, TICKETS)
        spread = ELECT_SPREAD * TICKETS // math.gcd(ELECT_SPREAD, TICKETS)
        return next((rest for rest in range(delay, spread, ELECT_SPREAD) if rest % TICKETS == ticket), delay), spread

    def count_posts(self):
        """Finds when the trace began, how many datagrams were posted before that, and where numbers are missing."""
        wanted, unseen, self.first_tick = None, 0, self.turns[0].tick
        for turn in self.turns:
            for act in turn.acts:
                # (the supervisor leaves out the question and its answer, and says so before the lines that it heard with them; these may be cut
                # between the two)
                unseen += act.unseen
                if act.words[0] == 'post':
                    number = int(act.words[1])
                    if wanted is None:
                        self.first_post = number
                    elif not 0 <= number - wanted <= (unseen + 1) // 2:
                        self.gaps.append((turn, wanted, number))
                    else:
                        unseen -= 2 * (number - wanted)
                    wanted = number + 1


class Journal:
    """Reads the lines of one host's daemon into lives; `notes` say what couldn't be used."""

    def __init__(self, network, node):
        self.network, self.node, self.lives, self.begins, self.unseen = network, node, [], True, 0
        self.notes, self.untold, self.acts = [], 0, 0
        self.rate = 0

    def read(self, path):
        """Reads a file, which begins another life."""
        self.begins, before = True, self.acts
        with open(path, 'rb') as file:
            told = Lines(file)
            for number, line in enumerate(told, 1):
                place = f'{path}:{number}'
                if line is None:
                    self.note(f'{place}: this line is longer than any of a trace, and is passed over')
                else:
                    self.line(line, place)
                if self.acts == before and told.octets > MOST_OTHER:
                    raise Unusable(f'{path}: no line of a trace is in its first {MOST_OTHER >> 20} MiB')

    def note(self, text):
        """Notes what can't be used, if there isn't too much of that."""
        if len(self.notes) < MOST_NOTES:
            self.notes.append(text)
        else:
            self.untold += 1

    def line(self, line, place):
        """One line: an act, what the launcher says at a start, or something else that is passed over."""
        if len(line) > LONGEST + BEFORE:
            names = told.names_in(line)
            if names:
                self.check_peers(names, place)
                self.begins = True
            return
        found = lines.line_of(line)
        if (found or lines.ALMOST.search(line)) and lines.is_too_great(line):
            self.note(f'{place}: this line has a number beyond 64 bits, and is passed over')
        elif found:
            self.act(found.number, found.tick, Entry(found.port, words_of(found.text), unseen=self.unseen), place)
            self.unseen = 0
        elif lines.LEFT_OUT.search(line):
            self.unseen += int(lines.LEFT_OUT.search(line)[1])
        elif lines.ALMOST.search(line):
            self.note(f'{place}: this line is cut or changed, and is passed over')
        else:
            self.heard(line, place)

    def heard(self, line, place):
        """A line of the launcher, or of anybody else."""
        names, rate = told.names_in(line), told.rate_in(line)
        if names:
            self.check_peers(names, place)
            self.begins, self.rate = True, 0
        elif rate and not rate[1]:
            self.rate = rate[0]
        elif rate and not self.begins and rate[1] >= self.lives[-1].rates[-1][0]:
            self.lives[-1].rates.append(rate[::-1])

    def check_peers(self, names, place):
        """The launcher names the daemon's peers: they are those of the network."""
        peers = self.network.peers[self.node]
        wanted = ', '.join(f'{number} {self.network.names[peer.node]}' for number, peer in peers.items())
        said = ', '.join(f'{number} {name}' for number, name in enumerate(names))
        if said != wanted:
            raise Unusable(f'{place}: the daemon was started with the peers {said[:200]}; by the hosts file they are {wanted[:200]}')

    def act(self, number, tick, act, place):
        """An act of the last turn, of a new one, or of a new life."""
        last = None if self.begins else self.lives[-1].turns[-1]
        if last is None or number < last.number or tick < last.tick:
            if len(self.lives) == MOST_STARTS:
                raise Unusable(f'{place}: there are more than {MOST_STARTS} starts, or the lines stand in the order of `journalctl -r`')
            self.lives.append(Life(self.node, len(self.lives), self.rate))
            self.begins, last = False, None
        if last is None or number != last.number:
            last = Turn(self.lives[-1], number, tick, place)
            self.lives[-1].turns.append(last)
        self.check(act, last, tick, place)
        last.acts.append(act)
        self.acts += 1
        if self.acts > MOST_ACTS:
            raise Unusable(f'{place}: there are more than {MOST_ACTS} acts of one host')

    def check(self, act, turn, tick, place):
        """An act has its turn's tick, and a port and a peer that the daemon has."""
        name, peers = self.network.names[self.node], self.network.peers[self.node]
        if tick != turn.tick:
            raise Unusable(f'{place}: turn {turn.number} has two ticks, {turn.tick} and {tick}')
        if act.port >= len(self.network.ports_of(self.node)):
            raise Unusable(f'{place}: {name} has no port {act.port} by the hosts file')
        peer = place_of_peer(act.words)
        if peer is not None and int(act.words[peer]) not in peers:
            raise Unusable(f'{place}: {name} has no peer {act.words[peer]} by the hosts file, which gives it {len(peers) - 1}')
        if act.words[0] == 'took' and turn.took():
            raise Unusable(f'{place}: turn {turn.number} takes two datagrams')


def read(network, node, paths):
    """What one host's daemon wrote, from files in the order of time."""
    journal = Journal(network, node)
    for path in paths:
        journal.read(path)
    for life in journal.lives:
        life.read_clock()
        life.count_posts()
    return journal
