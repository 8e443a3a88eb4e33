#!/usr/bin/env python3
"""Judges the histories of audit_clauses.cases by the program that is named, and says which verdict isn't the one that is wanted."""

import os
import subprocess
import sys

PREMISES = ('honest', 'life', 'words')


def read(path):
    """The blocks of lines by their names, and the cases: their clause, verdict, premises and lines."""
    blocks, cases, lines = {}, [], None
    with open(path, encoding='utf-8') as file:
        for line in file.read().splitlines():
            if not line or line.startswith('#'):
                continue
            if line.startswith('= '):
                lines = blocks.setdefault(line[2:], [])
            elif line.startswith('== '):
                clause, verdict, premises = (part.strip() for part in line[3:].split('|'))
                lines = []
                cases.append((clause, verdict, premises.split(), lines))
            else:
                lines.append(line)
    return blocks, cases


def expand(blocks, lines, sign):
    """The lines of a history: those of both, and those with this sign."""
    told = []
    for line in lines:
        if line.startswith('@ '):
            told += expand(blocks, blocks[line[2:]], sign)
        elif line[:2] == sign + ' ' or line[:2] == '  ':
            told.append(line[2:])
        elif line[:2] not in ('+ ', '- '):
            told.append(line)
    return told


def breaking(premise, count):
    """An event that breaks a premise behind so many events, and what is claimed of it."""
    at = 9_000_000_000
    if premise == 'life':
        return [f'at {at} take 0']
    if premise == 'words':
        return [f'at {at} boot 2 3', f'{count + 1} 2 0 {at} boot']
    return [f'at {at} bytes 2 0 00', f'{count + 1} 2 0 {at} took 0 refused short']


def judge(program, lines):
    """What the audit says of a schedule and the lines that are claimed of it."""
    schedule = [line for line in lines if not line[0].isdigit()]
    claimed = [line for line in lines if line[0].isdigit()]
    text = '\n'.join(schedule + ['end'] + claimed) + '\n'
    run = subprocess.run([program, 'audit'], input=text, stdout=subprocess.PIPE, text=True, check=False)
    return run.stdout.strip()


def main():
    """Judges all histories."""
    program = os.path.abspath(sys.argv[1])
    blocks, cases = read(os.path.join(os.path.dirname(os.path.abspath(__file__)), 'audit_clauses.cases'))
    wrong = judged = 0
    for clause, verdict, premises, lines in cases:
        if 'tsp-schedule 1' not in expand(blocks, lines, '+'):
            lines = ['@ three'] + lines
        broken = expand(blocks, lines, '+')
        fails = 'fails D' + verdict
        wanted = [('keeps it', expand(blocks, lines, '-'), 'holds'), ('breaks it', broken, fails)]
        count = sum(line.startswith('at ') for line in broken)
        for premise in PREMISES:
            answer = 'holds' if premise in premises else fails
            wanted.append((f'breaks it, and {premise} is broken', broken + breaking(premise, count), answer))
        for history, told, answer in wanted:
            said = judge(program, told)
            judged += 1
            if said != answer:
                print(f'{clause}: that which {history} has {said}, not {answer}', file=sys.stderr)
                wrong += 1
    print(f'{len(cases)} clauses, {judged} histories')
    return 1 if wrong else 0


sys.exit(main())
