#!/usr/bin/env python3
"""Copies lines from standard input to standard output, each behind the network's time, so that the logs of several hosts can be sorted together.

usage: logger.py NAME

A line is `SECONDS ERROR NAME LINE`: the time since 1970, and how far it may be from the master's clock, both in seconds. Of two lines of any hosts,
under one master, that were logged farther apart than both errors together, and 40 ms if a round came between, the later one sorts later: `sort -n host1.log
host2.log host3.log`. A line that has no time, `- -`, comes
first.
"""
import sys

import tsp_clock


def stamp(clock):
    """The network's time and its error, as words; without an error nobody knows how far it is from the master's clock."""
    now = clock.now()
    if now.earliest is None:
        return '- -'
    error = max(now.latest - now.shown, now.shown - now.earliest)
    return f'{now.shown / 1e6:.6f} {error / 1e6:.6f}'


def main():
    if len(sys.argv) != 2:
        print('usage: logger.py NAME', file=sys.stderr)
        sys.exit(2)
    name, clock = sys.argv[1], tsp_clock.Clock()
    for line in sys.stdin:
        print(stamp(clock), name, line.rstrip('\n'), flush=True)


try:
    main()
except OSError as fault:
    sys.exit(f'logger.py: {fault.filename}: {fault.strerror}')
