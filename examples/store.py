#!/usr/bin/env python3
"""A store of several hosts that don't talk to each other: each writes to a journal of its own, and of two writes under one master that came one after
the other, on any two hosts, all who read the journals find the later one. Writes before and after a change of masters, or a date that is set, aren't in order.

usage: store.py JOURNAL        writes each line `KEY VALUE` of standard input, and answers `done`, `unsure` or `refused`
       store.py --read FILE..  prints what all journals together hold

Each write is stamped with the latest time that it can be. It comes into the journal, and is answered, when each later stamp of any host is greater (commit
wait): nobody knows of it before. A round of the network's master moves clocks that agree by 40 ms at most, and hosts learn of that one after the other: so
much more is waited for. A write is `refused` if no master is known, or if the line has no value. It is `unsure` if the wait took too long, or if another
clock counts when it is over. Nothing is written then.
"""
import sys

import tsp_clock

# By how many microseconds a round moves a clock at most, and how many seconds a write waits.
ROUND, LONGEST = 40_000, 10


def clock_of(now):
    """What stays the same as long as the times are of one master's clock."""
    return now.status, now.master, now.life, now.steps


def write(clock, journal, line):
    """Writes a line, and says what came of it."""
    now = clock.now()
    if now.status != tsp_clock.SYNCHRONISED or ' ' not in line:
        return 'refused'
    if not tsp_clock.wait_after(clock, now.latest + ROUND, LONGEST) or clock_of(clock.now()) != clock_of(now):
        return 'unsure'
    journal.write(f'{now.latest} {line}\n')
    journal.flush()
    return 'done'


def read(paths):
    """The values by their keys, as the last writes of all journals have them."""
    lines = []
    for path in paths:
        with open(path, encoding='utf-8') as journal:
            lines += [line.rstrip('\n').split(' ', 2) for line in journal]
    return {key: value for _, key, value in sorted(lines, key=lambda words: int(words[0]))}


def main():
    words = sys.argv[1:]
    if not words or words[0] != '--read' and len(words) > 1:
        print('usage: store.py JOURNAL | --read FILE..', file=sys.stderr)
        sys.exit(2)
    if words[0] == '--read':
        for key, value in sorted(read(words[1:]).items()):
            print(key, value)
        return
    clock = tsp_clock.Clock()
    with open(words[0], 'a', encoding='utf-8') as journal:
        for line in sys.stdin:
            print(write(clock, journal, line.rstrip('\n')), flush=True)


try:
    main()
except OSError as fault:
    sys.exit(f'store.py: {fault.filename}: {fault.strerror}')
