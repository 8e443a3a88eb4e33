"""Questions for a daemon's clock and for the master that it names, which the supervisor asks again and again: they bear a word by which all of them are
known in a trace."""
import re
import secrets
import socket
import struct
import time

from tsp_texts.grammar import KINDS
from tsp_witness.datagram import REPLY, VERSION, octets_of

NAME = 'tsp-look'
WORD = int.from_bytes(NAME.encode(), 'big')
ANSWER = struct.Struct('>BBHQQq')
ACK, NAME_AT = struct.Struct('>BBH8x'), 12
# The lines of these questions and of their answers, whoever asks and answers.
SIGNS = b' %d ' % WORD, b' ' + NAME.encode() + b'\n'
LINES = re.compile(rb'^([0-9]+) 0 [0-3] ([0-9]+) (?:took (?:-|[0-9]+) request|post [0-9]+ (?:-|[0-9]+) reply [0-9]+) %d [0-9]+.*\n'
                   rb'|^([0-9]+) 0 [0-3] ([0-9]+) took (?:-|[0-9]+) msite ([0-9]+) %s\n\3 0 [0-3] \4 post [0-9]+ (?:-|[0-9]+) ack \5 .*\n' % (WORD, NAME.encode()),
                   re.MULTILINE)
# How many seconds an answer is waited for.
PATIENCE = 1


class Stamps:
    """Asks one question after the other. `now` gives the nanoseconds before and after a question."""

    def __init__(self, loop, now=time.monotonic_ns):
        self.loop, self.now, self.asked = loop, now, {}
        self.link = socket.socket(socket.AF_INET, socket.SOCK_DGRAM)
        self.link.setblocking(False)
        loop.watch(self.link.fileno(), self.read)

    def ask(self, address, heard):
        """Asks a daemon for its clock, and calls with its reading and the nanoseconds before and after; with nothing where no answer comes."""
        counter = secrets.randbits(63)
        self.send(counter, ('request', WORD, counter), address, heard)

    def ask_master(self, address, heard):
        """Asks a daemon for its master, and calls with the name; with nothing where no answer comes."""
        number = secrets.randbits(15)
        self.send(('msite', number), ('msite', number, NAME), address, heard)

    def send(self, key, words, address, heard):
        """Sends a question, which is known by this key."""
        self.asked[key] = address, heard, self.now()
        try:
            self.link.sendto(octets_of(words), address)
        except OSError:
            pass
        self.loop.after(('stamp', key), PATIENCE, lambda: self.asked.pop(key)[1]())

    def read(self):
        """Reads answers."""
        while True:
            try:
                octets, sender = self.link.recvfrom(512)
            except OSError:
                return
            got = self.now()
            if len(octets) == ANSWER.size:
                kind, _, _, word, counter, reading = ANSWER.unpack(octets)
                if kind == REPLY and word == WORD:
                    self.answered(counter, sender, lambda sent, reading=reading: (reading, sent, got))
            elif len(octets) > NAME_AT:
                kind, version, number = ACK.unpack_from(octets)
                if kind == KINDS.index('ack') + 1 and version == VERSION:
                    self.answered(('msite', number), sender, lambda _: (octets[NAME_AT:].partition(b'\0')[0].decode('ascii', 'replace'),))

    def answered(self, key, sender, answer):
        """An answer came: it counts if it is that of whoever was asked."""
        if self.asked.get(key, [None])[0] == sender:
            _, heard, sent = self.asked.pop(key)
            self.loop.cancel(('stamp', key))
            heard(*answer(sent))

    def stop(self):
        """Asks no more."""
        for key in self.asked:
            self.loop.cancel(('stamp', key))
        self.asked.clear()


def left_out(lines):
    """These lines but those of such questions, and how many these are."""
    kept = LINES.sub(b'', lines)
    return kept, lines.count(b'\n') - kept.count(b'\n')
