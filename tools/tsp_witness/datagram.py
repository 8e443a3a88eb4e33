"""Octets that a trace doesn't show: those of a message line, and some that have the fault that it names."""
import struct

from tsp_texts.grammar import KINDS, TIMED

REQUEST, REPLY, VERSION = 128, 129, 1
MILLION = 1_000_000
LONGEST_SHORT_NAME = 63
FAULTY = {
    'short': b'\0',
    'long': bytes(269),
    'version': bytes([2, 2]) + bytes(74),
    'kind': bytes([0, VERSION]) + bytes(74),
    'stamp-length': bytes([REQUEST, VERSION]) + bytes(11),
    'no-end': bytes([2, VERSION]) + bytes(10) + b'x',
    'name-too-long': bytes([2, VERSION]) + bytes(10) + b'x' * 256,
    'reserved': bytes([REQUEST, VERSION, 0, 1]) + bytes(24),
    'time': bytes([1, VERSION]) + bytes(6) + struct.pack('>i', MILLION) + bytes(64),
}


def name_of(text):
    """The octets of a name text."""
    if text == '%':
        return b''
    parts = text.split('%')
    return parts[0].encode() + b''.join(bytes([int(part[:2], 16)]) + part[2:].encode() for part in parts[1:])


def octets_of(words):
    """The octets of a message line, or of `refused FAULT`, in the one spelling that is written."""
    kind = words[0]
    if kind == 'refused':
        return FAULTY[words[1]]
    numbers = [int(word) for word in words[1:-1]]
    if kind == 'request':
        return struct.pack('>BBHQQq', REQUEST, VERSION, 0, int(words[1]), int(words[2]), 0)
    if kind == 'reply':
        return struct.pack('>BBHQQq', REPLY, VERSION, *numbers, int(words[4]))
    body = struct.pack('>ii', *divmod(numbers[1], MILLION)) if kind in TIMED else bytes([numbers[1]] if kind == 'loop' else []).ljust(8, b'\0')
    name = name_of(words[-1])
    room = 64 if len(name) <= LONGEST_SHORT_NAME else 256
    return struct.pack('>BBH', KINDS.index(kind) + 1, VERSION, numbers[0]) + body + name.ljust(room, b'\0')
