"""Records of ICMP Timestamp exchanges: makes some at random, and says what `tsp icmp` must answer by the fields that tshark read.

usage: icmp_records.py make SEED COUNT
       icmp_records.py answers RECORDS FIELDS
"""
import random
import struct
import sys

DAY = 86_400_000


def checksum(octets):
    """The checksum of RFC 1071."""
    total = sum(struct.unpack(f'>{len(octets) // 2}H', octets))
    while total > 0xffff:
        total = (total & 0xffff) + (total >> 16)
    return total ^ 0xffff


def message(kind, code, ident, seq, stamps, spoil=0):
    """The 20 octets, whose checksum is the right one with these bits turned."""
    octets = struct.pack('>BBHHH3I', kind, code, 0, ident, seq, *stamps)
    return octets[:2] + struct.pack('>H', checksum(octets) ^ spoil) + octets[4:]


def plain(stamp):
    """A stamp that nobody takes for one of another order of octets, as tshark does where both orders give a time."""
    return stamp if struct.unpack('<I', struct.pack('>I', stamp))[0] >= DAY else plain(stamp + 1)


def make(seed, count):
    draw = random.Random(seed)
    for _ in range(count):
        ident, seq = draw.randrange(65536), draw.randrange(65536)
        sent, trip = draw.randrange(DAY - 100_000), draw.choice((draw.randrange(1000), draw.randrange(DAY // 2 - 5, DAY // 2 + 5)))
        originate, receive = plain(sent), plain(sent + draw.randrange(1000))
        request, reply = [13, 0, ident, seq, [originate, 0, 0]], [14, 0, ident, seq, [originate, receive, receive]]
        case, spoil = draw.randrange(12), [0, 0]
        one = draw.choice((0, 1))
        if case == 0:
            reply[draw.choice((2, 3))] ^= 1 << draw.randrange(16)
        elif case == 1:
            reply[4][0] = plain(originate + 256)
        elif case == 2:
            draw.choice((reply[4], request[4]))[0] = plain(0x80000000 + draw.randrange(DAY))
        elif case == 3:
            reply[4][1] = plain(draw.choice((0x80000000, 0)) + DAY + draw.randrange(DAY))
        elif case == 4:
            (request, reply)[one][0] = draw.choice((14, 13, 8))
        elif case == 5:
            (request, reply)[one][1] = 1 + draw.randrange(255)
        elif case == 6:
            spoil[one] = 1 << draw.randrange(16)
        name = draw.choice(('a', 'host-1', 'b.example'))
        octets = [message(*fields, spoil=bits).hex() for fields, bits in zip((request, reply), spoil)]
        print(name, *octets, (originate + trip) % DAY)


def fault(fields, kind):
    """Why a message isn't the one that it must be, if it isn't."""
    if fields[0] not in (13, 14):
        return 'kind'
    if fields[1] != 0:
        return 'code'
    if fields[2] != 1:
        return 'checksum'
    return None if fields[0] == kind else 'kind'


def answer(record, request, reply):
    """The first line that the program must write of a record."""
    name, arrival = record[0], int(record[3])
    for word, fields, kind in (('request', request, 13), ('reply', reply, 14)):
        if fault(fields, kind):
            return f'bad 1 {word} {fault(fields, kind)}'
    if request[3:6] != reply[3:6]:
        return f'{name} unlike'
    originate, receive = request[5], reply[6]
    if originate >= DAY or receive >= DAY:
        return f'{name} no-time'
    trip = (arrival - originate) % DAY
    if trip >= DAY // 2:
        return f'{name} late'
    shift = (receive - originate + DAY // 2) % DAY - DAY // 2
    return f'{name} {shift - trip // 2} {-(-trip // 2) + 1}'


def answers(records, shown):
    with open(records, encoding='ascii') as file:
        lines = [line.split(' ') for line in file]
    with open(shown, encoding='ascii') as file:
        fields = [[int(field or -1) for field in line.rstrip('\n').split(',')] for line in file]
    assert len(fields) == 2 * len(lines)
    for number, record in enumerate(lines):
        print(answer(record, *fields[2 * number:2 * number + 2]))


if sys.argv[1] == 'make':
    make(int(sys.argv[2]), int(sys.argv[3]))
else:
    answers(*sys.argv[2:])
