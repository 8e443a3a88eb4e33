"""Spoils schedules at random, and compares what `replay` says of each with the verdict on its text.

usage: lint_random.py PROGRAM SEED COUNT
"""
import random
import subprocess
import sys

from tsp_texts import schedule, verdict

GOOD = ['tools/tests/lint.tsp', 'tools/tests/nets.tsp', 'examples/election.tsp', 'examples/correction.tsp', 'examples/hold.tsp']
OCTETS = b' 0123456789abmsz-+.%\n\r\t\x00\xff/N'
WORDS = b'at boot turn take bytes end node net drift 0 1 2 -1 00 18446744073709551616 4294967296 1000000000000001 m s 1/1 0/1'.split(b' ') + [b'']


def spoiled(text, draw):
    """The text with an octet, a line or a word put in, taken out or changed."""
    kind, place = draw.randrange(6), draw.randrange(len(text) + 1)
    if kind < 3:
        new = b'' if kind == 0 else bytes([draw.choice(OCTETS)])
        return text[:place] + new + text[place + (kind != 1):]
    lines = text.split(b'\n')
    place = draw.randrange(len(lines))
    if kind == 3:
        del lines[place]
    elif kind == 4:
        lines.insert(draw.randrange(len(lines) + 1), lines[place])
    else:
        words = lines[place].split(b' ')
        words[draw.randrange(len(words))] = draw.choice(WORDS)
        lines[place] = b' '.join(words)
    return b'\n'.join(lines)


def said(program, text):
    """The refusal of `replay`, or None."""
    run = subprocess.run([program, 'replay'], input=text, stdout=subprocess.PIPE, stderr=subprocess.DEVNULL, check=False)
    return run.stdout.decode().splitlines()[-1] if run.returncode else None


def only_a_run_tells(refusal, found, text):
    """Whether a refusal is of a take before the first fault of the text, which doesn't tell what datagrams there are."""
    _, line, cause, *_ = refusal.split()
    if found and found.line <= int(line):
        return False
    event = schedule.event_of(schedule.line_at(text, int(line)) or b'')
    return event is not None and event.kind == 'take' and cause in ('no-datagram', 'not-up')


def main():
    program, seed, count = sys.argv[1], int(sys.argv[2]), int(sys.argv[3])
    draw, refused = random.Random(seed), 0
    texts = []
    for path in GOOD:
        with open(path, 'rb') as file:
            texts.append(file.read())
    for _ in range(count):
        text = draw.choice(texts)
        for _ in range(draw.choice((1, 1, 2, 3))):
            text = spoiled(text, draw)
        found, refusal = next(verdict.faults_of(text), None), said(program, text)
        refused += refusal is not None
        if refusal != (found.verdict() if found else None) and not (refusal and only_a_run_tells(refusal, found, text)):
            sys.exit(f'{text!r}: replay says {refusal}, and the verdict on the text is {found}')
    if refused * 2 < count:
        sys.exit(f'only {refused} of {count} schedules were refused')
    print(refused)


main()
