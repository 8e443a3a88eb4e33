"""A daemon that runs once more by its trace does what a replay says, and judges starts that no schedule has room for: `witness_again.py PROGRAM`.

Both ways say the same of the traces in `witness/`, as they are and with one word or tick changed. Then daemons with 70 and with 300 peers are judged, one of
them over more than 200,000 turns; in each a changed act, changed octets of a datagram and a changed tick are found and named.
"""
import os
import random
import sys
import tempfile

import many
from stories import GIVEN, journals_of
from tsp_texts import grammar, library, schedule
from tsp_texts.tool import Fault
from tsp_witness import Unusable, again, journal, judge, network, rules

PROGRAM, NO_CC = sys.argv[1], 77
# How many changes are tried of each start, and how many of all are found at least.
CHANGES, FOUND = 12, 250
PLANS = (many.Plan('a', 70, 660, 0), many.Plan('b', 300, 660, 200_500))


def wanted(is_so, text):
    """Ends where something isn't so."""
    if not is_so:
        sys.exit(text)


def said(way):
    """What a comparison finds, or why there is none. (A daemon that isn't asked for its trace as its trace says writes nothing, and a replay does.)"""
    try:
        found = rules.compared(way, PROGRAM)
    except Unusable as fault:
        return str(fault)
    differs = found.difference
    took = differs and differs.turn.took()
    return found._replace(difference=differs.turn) if took and took.words[2] in ('traceon', 'traceoff') else found


class Changed:
    """A word of an act that is another one, or, where no act is named, a tick that is a microsecond later, until it is left."""

    def __init__(self, turn, act=None, place=None, word=None):
        self.turn, self.act, self.place, self.word = turn, act, place, word

    def swap(self, later):
        """Changes it, or changes it back."""
        if self.act:
            self.act.words[self.place], self.word = self.word, self.act.words[self.place]
        else:
            self.turn.tick += later

    def __enter__(self):
        self.swap(1)
        return self

    def __exit__(self, *_):
        self.swap(-1)


def random_change(chance, net, life):
    """A change of a start, by chance."""
    turn = chance.choice(life.turns)
    act = chance.choice([*turn.acts, None])
    if act is None:
        return Changed(turn)
    place = chance.randrange(1, len(act.words))
    word = act.words[place]
    if place == grammar.PEER_AT.get(act.words[0]):
        return Changed(turn, act, place, str(chance.choice(list(net.peers[life.node]))))
    return Changed(turn, act, place, str(int(word) + chance.choice((1, -1, 1000))) if word.lstrip('-').isdigit() else chance.choice((word + 'x', 'loose')))


def ways_agree(path):
    """Both ways say the same of each start, whatever is changed; says how many changes were found."""
    chance, found = random.Random(74), 0
    for name in sorted(os.listdir(GIVEN)):
        if not os.path.isdir(os.path.join(GIVEN, name)):
            continue
        net, journals = journals_of(name)
        for life in (life for each in journals.values() for life in each.lives):
            wanted(said(again.Again(net, life, path)) == said(rules.Replay(net, life)), f'{name}: the start {life.node} {life.number} is judged in two ways')
            for _ in range(CHANGES):
                with random_change(chance, net, life) as change:
                    one, other = said(again.Again(net, life, path)), said(rules.Replay(net, life))
                    wanted(one == other, f'{name}: {change.act and change.act.words} in turn {change.turn.number}: {one}, and by a replay {other}')
                    found += isinstance(one, str) or one.difference is not None
            # (a trace whose beginning is lost)
            life.turns = life.turns[1:]
            wanted(said(again.Again(net, life, path)) == said(rules.Replay(net, life)), f'{name}: the start {life.node} {life.number} is judged in two ways, cut')
    return found


def picked(life, text, behind=0):
    """The first act behind a turn that begins like a text, with its turn."""
    return next((turn, act) for turn in life.turns[behind:] for act in turn.acts if ' '.join(act.words).startswith(text))


def is_found(ruled, life, change, did, rule):
    """A change is found and named."""
    with change:
        found = ruled.compare(life).difference
        wanted(found and (found.turn, found.did, found.rule) == (change.turn, did and did(), rule()), f'{change.turn.number}, {change.turn.tick}: {found}')


def finds(ruled, life, behind):
    """An act, octets of a datagram and a tick that are changed are found and named."""
    turn, act = picked(life, 'arm round', behind)
    due = act.words[2]
    is_found(ruled, life, Changed(turn, act, 2, due + '1'), lambda: ['arm', 'round', due + '1'], lambda: ['arm', 'round', due])
    turn, act = picked(life, 'took 65 reply', behind)
    sample = picked(turn.life, 'sample 65', life.turns.index(turn))[1].words
    by_rule = [*sample[:3], str(int(sample[3]) + 2), *sample[4:]]
    is_found(ruled, life, Changed(turn, act, 6, str(int(act.words[6]) + 2)), lambda: sample, lambda: by_rule)
    # (the alarms that the turn arms are a microsecond later then)
    turn, act = picked(life, 'arm close', behind)
    first = next(other for other in turn.acts if other.words[0] == 'arm')
    is_found(ruled, life, Changed(turn), lambda: first.words, lambda: [*first.words[:2], str(int(first.words[2]) + 1)])


def judges(folder, plan, path):
    """The daemon of a plan is judged, and what is changed is found."""
    net = network.read(os.path.join(folder, f'{plan.name}.hosts'))
    told = journal.read(net, 0, [os.path.join(folder, f'{plan.name}.trace')])
    acts = sum(len(turn.acts) for turn in told.lives[0].turns)
    text = judge.Judgement(PROGRAM, net, {0: told}, 1000).text()
    wanted(text == f'{acts} acts alike, holds' and not told.notes, f'{plan.name}: {text} {told.notes}')
    behind = min(plan.questions, schedule.MOST_EVENTS)
    wanted(len(told.lives[0].turns) > behind, f'{plan.name}: only {len(told.lives[0].turns)} turns')
    # (what comes behind so many turns isn't seen by a replay)
    late = next((place for place, turn in enumerate(told.lives[0].turns) if place > behind and turn.acts[-1].words[:2] == ['arm', 'close']), 0)
    ruled = rules.Rules(PROGRAM, net, os.path.dirname(path))
    finds(ruled, told.lives[0], late)
    return acts


def main():
    with tempfile.TemporaryDirectory() as folder:
        try:
            path, fast = (library.made(name, folder, NO_CC) for name in (again.LIBRARY, 'tsp_fast'))
        except Fault as fault:
            print(fault.text, file=sys.stderr)
            sys.exit(fault.status)
        found = ways_agree(path)
        wanted(found >= FOUND, f'only {found} changes are found')
        many.run(PROGRAM, fast, folder, PLANS)
        acts = [judges(folder, plan, path) for plan in PLANS]
        print(f'{found} changes are found in two ways, and {" and ".join(map(str, acts))} acts of daemons with many peers are judged')


main()
