"""Spoils good commands at random, and wants tsp_texts.words to find a fault where the program writes `usage`, and nowhere else.

usage: explain_random.py PROGRAM
"""
import os
import random
import subprocess
import sys

sys.path.insert(0, os.path.join(os.path.dirname(os.path.realpath(__file__)), '..'))
from tsp_texts import words as grammar  # noqa: E402

COUNT, PATIENCE, USAGE = 300, 0.3, 1
# (no address is this machine's, so a daemon ends at once)
GOOD = [
    ['replay'], ['show'], ['audit'], ['storm', '5', '3', '20'], ['storm', '0', '1', '1'],
    ['serve', '192.0.2.1:525', 'a', 'm', '1'],
    ['serve', '192.0.2.1:525', 'alpha.b-c_d', 'x', '1000000000', '192.0.2.2:525', '+', '192.0.2.3:1', '192.0.2.3:65535'],
    ['serve', '192.0.2.255:1', '0', 's', '77', '+', '+', '0.0.0.0:1', '+', '255.255.255.255:9'],
    ['trace', '255.255.255.255:9', 'on'], ['date', '255.255.255.255:9', '-5'], ['election', '255.255.255.255:9'],
]
OTHERS = ['', '+', 'on', 'off', 'm', '0', '1', '00', '-1', '64', '65', '200000', '200001', '1000000001', '192.0.2.1:525', '192.0.2.2:525', '1.2.3.256:5',
          '1.2.3:5', '1.2.3.4:', ':5', '1.2.3.4:65535', '1.2.3.4:65536', 'x' * 255, 'x' * 256, '2147483647999999', '-2147483647999999', '9' * 30, '²', 'a b']


def spoiled(chance, words):
    """The words with up to two changes."""
    words = list(words)
    for _ in range(chance.randrange(3)):
        at = chance.randrange(len(words) + 1)
        kind = chance.randrange(4)
        if kind == 0:
            words.insert(at, chance.choice(OTHERS))
        elif kind == 1:
            words[at:at + 1] = [chance.choice(OTHERS)]
        elif kind == 2:
            del words[at:at + 1]
        else:
            words[at:at] = words[at - 1:at]
    return words


def is_usage(program, words):
    """Whether the program ends with the status of words that are no command; what goes on for a while has begun."""
    try:
        ended = subprocess.run([program, *words], stdin=subprocess.DEVNULL, stdout=subprocess.PIPE, stderr=subprocess.DEVNULL, timeout=PATIENCE, check=False)
    except subprocess.TimeoutExpired:
        return False
    return ended.returncode == USAGE and ended.stdout == b'usage\n'


def main():
    program, chance = sys.argv[1], random.Random(1)
    text = subprocess.run([program, '--help'], stdout=subprocess.PIPE, check=True).stdout.decode()
    refused = 0
    for words in GOOD + [spoiled(chance, chance.choice(GOOD)) for _ in range(COUNT)]:
        fault = grammar.fault(words, text)
        if words[:1] in (['--help'], ['--version']):
            continue
        if (fault is not None) != is_usage(program, words):
            sys.exit(f'{words}: {fault}')
        refused += fault is not None
    if not COUNT // 4 <= refused <= COUNT * 3 // 4 + len(GOOD):
        sys.exit(f'{refused} are no command, which is too few or too many')
    print(f'{COUNT + len(GOOD)} at random of which {refused} are no command')


main()
