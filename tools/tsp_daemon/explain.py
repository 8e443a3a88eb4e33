#!/usr/bin/env python3
"""Explains a status of the program for ./tsp, in one line on standard error: `explain.py PROGRAM STATUS [WORD..]`, after the program ended.

Of words that are no command (1) the line has the first one that the grammar has no place for, or that TSP_RATE is no rate, and if the
network failed (5), which address it was and what the system says of it.
"""
import os
import subprocess
import sys

sys.dont_write_bytecode = True
sys.path.insert(0, os.path.dirname(os.path.dirname(os.path.realpath(__file__))))
from tsp_texts.tool import say  # noqa: E402

NO_WORDS, NO_NETWORK = 1, 5


def reason(program, words, status):
    """The line that explains a status, or None."""
    if status == NO_WORDS:
        from tsp_texts import words as grammar
        told = grammar.fault(words, subprocess.run([program, '--help'], stdout=subprocess.PIPE, check=False).stdout.decode())
        return told or 'TSP_RATE names no rate: a whole number from -1000000 to 1000000 belongs there'
    if status != NO_NETWORK or len(words) < 2:
        return None
    from tsp_daemon import sockets
    address = words[1]
    if words[0] != 'serve':
        why = sockets.why_not_reached(address)
        return f'nothing could be sent to {address}' + (f': {why}' if why else '')
    why = sockets.why_not_bound(address)
    return f'{address} can\'t be bound: {why}' if why else f'the socket failed while receiving on {address}, which can be bound'


def main():
    program, status, *words = sys.argv[1:]
    # (what it says is said by the one that started it)
    sys.argv[0] = 'tsp'
    told = reason(program, words, int(status)) if sys.stderr else None
    if told:
        say(told)


main()
