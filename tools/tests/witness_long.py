"""What is said of a history that is longer than an audit or a replay has room for, tried with less room: `witness_long.py PROGRAM`."""
import sys
from shutil import which

from stories import journals_of
from tsp_texts import library
from tsp_texts.tool import Fault
from tsp_witness import Unusable, audit, journal, judge, rules
from tsp_witness.story import Story

NO_CC = 'there is no cc'
# How many events an audit and a replay have room for, whether one act is changed, whether there is a cc, and the end of what is said.
ROWS = (
    (20_000, 200_000, False, True, ' acts alike, holds; the audit holds'),
    (100, 200_000, False, False, ' acts alike, holds; the audit holds, so far as its first 100 events go'),
    (100, 30, False, True, ' acts alike, holds; the audit holds, so far as its first 100 events go'),
    (100, 30, False, False, ' acts alike, holds so far; not compared: a (start 1) from turn 597 on, as a replay has room for 30 turns; '
     'a (start 2) from turn 75 on, as a replay has room for 30 turns; b from turn 952 on, as a replay has room for 30 turns; '
     'c from turn 1108 on, as a replay has room for 30 turns; there is no cc; the audit holds, so far as its first 100 events go'),
    (20_000, 200_000, True, True, ' acts alike, and then one that differs; by the audit it is broken at event 31 that only masters correct'),
)


def refused(*_):
    """A library that can't be made."""
    raise Fault(NO_CC)


def main():
    made = library.made
    for audited, ruled, is_changed, is_made, wanted in ROWS:
        if is_made and ruled == 30 and not which('cc'):
            continue
        audit.AUDITED_EVENTS, rules.MOST_TURNS, library.made = audited, ruled, made if is_made else refused
        network, journals = journals_of('three')
        if is_changed:
            act = next(act for turn in journals[0].lives[0].turns for act in turn.acts if act.words == ['become', 'master'])
            act.words[1] = 'loose'
        said = judge.Judgement(sys.argv[1], network, journals, 100).text()
        said = f'{said}; {audit.audit(sys.argv[1], Story(network, journals, 100))[1]}'
        if said.lstrip('0123456789') != wanted:
            sys.exit(f'with room for {audited} and {ruled} events it says "{said}", and not "..{wanted}"')
    journal.MOST_ACTS = 90
    try:
        journals_of('three')
        sys.exit('more acts of a host are read than there is room for')
    except Unusable as fault:
        if not str(fault).endswith('there are more than 90 acts of one host'):
            sys.exit(f'of too many acts of a host it says "{fault}"')


main()
