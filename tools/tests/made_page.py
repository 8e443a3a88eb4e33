"""Pages of the network's time as a daemon and a supervisor write them, for tests of their readers.

    made_page.py PATH STATUS AHEAD [REST [LIFE]]    changes or makes a page, whose clock is so many microseconds ahead of the wall clock

STATUS is 0 for a daemon that has ended, 1 for one that waits, 2 for one that leads, 3 for one that has lost its master, or LOW:HIGH for one that follows and
has looked at its master: that one's clock is LOW to HIGH microseconds ahead, so the interval is HIGH - LOW wide, and a few more. LIFE is for 1 and 2.
"""
import os
import re
import sys
import time

sys.dont_write_bytecode = True
sys.path.insert(0, os.path.dirname(os.path.dirname(os.path.realpath(__file__))))

import tsp_clock  # noqa: E402
from tsp_clock import DAEMON_AT, DAEMON_FIELDS, HEAD, LOOK_AT, LOOK_FIELDS, MAGIC, SEQUENCE, SIZE, VERSION, Daemon, Look, Page  # noqa: E402

# How far a daemon has counted, in microseconds.
COUNTED = 10 ** 10


def octets(page, sequence=2):
    """A whole page."""
    made = bytearray(SIZE)
    HEAD.pack_into(made, 0, MAGIC, VERSION, SIZE)
    for place, fields, half in ((DAEMON_AT, DAEMON_FIELDS, page.daemon), (LOOK_AT, LOOK_FIELDS, page.look)):
        SEQUENCE.pack_into(made, place, sequence)
        fields.pack_into(made, place + SEQUENCE.size, *half)
    return bytes(made)


def write(path, page):
    """Writes a page to a file, which is another one if there was one."""
    new = path + '.made'
    with open(new, 'wb') as file:
        file.write(octets(page))
    os.rename(new, path)


def change(path, daemon=None, look=None, piece=4096):
    """Changes a half, as whoever writes it does: its octets in pieces of so many, where that is to take longer."""
    place, fields, half = (DAEMON_AT, DAEMON_FIELDS, daemon) if daemon else (LOOK_AT, LOOK_FIELDS, look)
    file = os.open(path, os.O_RDWR)
    number, = SEQUENCE.unpack(os.pread(file, SEQUENCE.size, place))
    number += number % 2
    os.pwrite(file, SEQUENCE.pack(number + 1), place)
    made = fields.pack(*half)
    for begin in range(0, len(made), piece):
        os.pwrite(file, made[begin:begin + piece], place + SEQUENCE.size + begin)
    os.pwrite(file, SEQUENCE.pack(number + 2), place)
    os.close(file)


def counting(target, **more):
    """A daemon that has counted for a while, whose clock aims at this time now."""
    return Daemon(1, origin=time.clock_gettime_ns(tsp_clock.RAW), origin_tick=COUNTED, tick=COUNTED, target=target, alive=COUNTED, **more)


def leading(target):
    """The page of a host that leads, whose clock is this now."""
    return Page(counting(target, role=tsp_clock.LEADS), Look(1, looked=COUNTED, had=1, name=b'a'))


def following(target, master=1, rest=0, width=300):
    """The page of a host that follows a master, which it has just looked at."""
    return Page(counting(target, rest=rest, moved=7, steps=1, role=tsp_clock.FOLLOWS, master=master), Look(1, 7, COUNTED, -width, width, master, had=1, name=b'b'))


def end(path):
    """Writes that the daemon has ended."""
    with open(path, 'r+b') as file:
        os.pwrite(file.fileno(), SEQUENCE.pack(0), DAEMON_AT)


def main(path, status, ahead, rest=0, life=1):
    """Changes a page, or makes it."""
    if not os.path.exists(path):
        write(path, Page())
    target = time.time_ns() // 1000 + int(ahead)
    if status == '0':
        end(path)
    elif status == '1':
        change(path, daemon=counting(target, rest=int(rest))._replace(life=int(life)))
        change(path, look=Look())
    elif status == '2':
        change(path, daemon=leading(target).daemon._replace(rest=int(rest), life=int(life)))
    else:
        is_gone, page = status == '3', following(target, rest=int(rest))
        low, high = (page.look.low, page.look.high) if is_gone else map(int, status.split(':'))
        change(path, daemon=page.daemon._replace(role=tsp_clock.NOBODY) if is_gone else page.daemon)
        change(path, look=page.look._replace(low=low, high=high, drift=page.look.drift if is_gone else 0))


if __name__ == '__main__':
    words = sys.argv[1:]
    if not 3 <= len(words) <= 5 or not re.fullmatch('[0-3]|-?[0-9]+:-?[0-9]+', words[1]) or not all(re.fullmatch('-?[0-9]+', word) for word in words[2:]):
        print('usage: made_page.py PATH STATUS AHEAD [REST [LIFE]]: STATUS is 0, 1, 2, 3 or LOW:HIGH, the others are whole numbers', file=sys.stderr)
        sys.exit(2)
    main(*words)
