"""What tsp-watch and tsp-witness say of the premises of progress, beside numbers that were worked out by hand: `progress_worked.py PROGRAM`.

Two hosts whose clocks are true time, in microseconds since both booted, live through EVENTS. Each datagram takes a millisecond, but the SLAVEUP takes 2.6 s; each
look comes some hundredths of a second late at most, but the first one at the Elect of a comes 1.25 s late, so that it is armed anew. The delay of both is 300 s.
"""
import os
import subprocess
import sys
import tempfile

from tsp_texts import grammar
from tsp_witness.datagram import octets_of

HERE = os.path.dirname(os.path.realpath(__file__))
TOOLS, GIVEN = os.path.dirname(HERE), os.path.join(HERE, 'witness')
WORD = 900_000_000_000_000
HEAD = f'tsp-schedule 1\ndrift 0\nnode a 0 {WORD} m\nnode b 0 {WORD} s\nat 0 boot 0 {WORD}\nat 0 boot 1 {WORD}\n'
# Datagrams are numbered in the order of their posts: 0 and 1 are the answers to the questions for a trace.
EVENTS = (
    (1_000_000, 'bytes 0 - {trace}'), (1_000_000, 'bytes 1 - {trace}'),
    (80_000_200, 'turn 1'),     # Quiet of b, 200 us late: MASTERREQ 2, and Search is armed for 85,000,200
    (80_000_500, 'turn 0'),     # Quiet of a, 500 us late: MASTERREQ 3, and Search is armed for 85,000,500
    (80_001_200, 'take 2'), (80_001_500, 'take 3'),
    (85_000_200, 'turn 1'),     # Search of b: Elect is armed for 385,000,200
    (85_010_500, 'turn 0'),     # Search of a, 10 ms late: Elect is armed for 385,010,500
    (385_000_200, 'turn 1'),    # Elect of b, which may not be master: MASTERREQ 4, and Search is armed for 390,000,200
    (385_001_200, 'take 4'),
    (386_260_500, 'turn 0'),    # Elect of a, 1.25 s late: it is armed for 686,260,500
    (390_000_200, 'turn 1'),    # Search of b: Elect is armed for 690,000,200
    (686_260_500, 'turn 0'),    # Elect of a: ELECTION 5, and Window is armed for 691,260,500
    (686_261_500, 'take 5'),    # Elect of b is armed anew, and ACCEPT 6
    (686_262_500, 'take 6'),
    (691_270_500, 'turn 0'),    # Window of a, 10 ms late: it leads, MASTERUP 7
    (691_271_500, 'take 7'),    # b follows it: SLAVEUP 8
    (693_871_500, 'take 8'),    # it joins, 2.6 s later: SETTIME 9
    (693_872_500, 'take 9'), (693_873_500, 'take 10'),
)
OF_A = """\
looks more than 1.000000 s late, where what is proved for less doesn't hold: 1, the last one 1.250000 s late: for the alarm elect in turn 13 at 386.260500 s; \
since then they came at most 0.010000 s late
looks at alarms and sends came at most 1.250000 s late: for the alarm elect in turn 13 at 386.260500 s
2 of 2 questions and numbered sends were answered, within at most 0.002000 s
quiet times: 1, which ended after at most 80.000500 s; by the law at most 81.250000 s
searches for a master: 1, which ended after at most 5.010000 s; by the law at most 6.250000 s
waits for an election, or for word of a master: 2, which ended after at most 301.250000 s; by the law at most 601.250000 s
candidatures: 1, which ended after at most 5.010000 s; by the law at most 6.250000 s
numbered sends: 2, which ended after at most 0.002000 s; by the law at most 4.250000 s
"""
OF_B = """\
looks at alarms and sends came at most 0.000200 s late: for the alarm quiet in turn 5 at 80.000200 s
quiet times: 1, which ended after at most 80.000200 s; by the law at most 80.000200 s
searches for a master: 2, which ended after at most 5.000000 s; by the law at most 5.000200 s
waits for an election, or for word of a master: 4, which ended after at most 300.000000 s; by the law at most 600.000200 s
"""
# (the SLAVEUP is bounded by those beside it, which take a millisecond: by the MASTERUP from above, and by the ACK from below)
OF_BOTH = """\
{lines} acts alike, holds
looks more than 1.000000 s late, where what is proved for less doesn't hold: 1, the last one 1.250000 s late: for the alarm elect of a in turn 13 at \
386.260500 s; since then they came at most 0.010000 s late
looks at alarms and sends came at most 1.250000 s late: for the alarm elect of a in turn 13 at 386.260500 s
9 of 9 datagrams that these hosts posted to each other were taken
they took at most 2.601000 s, and at least 2.599000 s in one case: the longest was "slaveup {ticket} b", posted by b in turn 19 at 691.271500 s
lost, or 2.500000 s or more on their way, where what is proved of deliveries in time doesn't hold: 0 and 1; the last one was "slaveup {ticket} b", \
posted by b in turn 19 at 691.271500 s; since then they took at most 0.002000 s
2 of 2 questions and numbered sends were answered, within at most 0.002000 s; by the law at most 5.202000 s
quiet times: 2, which ended after at most 80.000500 s; by the law at most 81.250000 s
searches for a master: 3, which ended after at most 5.010000 s; by the law at most 6.250000 s
waits for an election, or for word of a master: 6, which ended after at most 301.250000 s; by the law at most 601.250000 s
candidatures: 1, which ended after at most 5.010000 s; by the law at most 6.250000 s
numbered sends: 2, which ended after at most 0.002000 s; by the law at most 4.250000 s
"""
# The worked traces in `witness/hand`. Those of b lose the MASTERREQ of a, and a is 2 s ahead of it.
OF_HAND = """\
48 acts alike, holds
looks at alarms and sends came at most 0.000200 s late: for the alarm quiet of b in turn 60 at 80.000200 s
7 of 8 datagrams that these hosts posted to each other were taken
they took at most 0.002500 s, and at least 0.000600 s in one case: the longest was "election 32768 a", posted by a in turn 900 at 385.000300 s
lost, or 2.500000 s or more on their way, where what is proved of deliveries in time doesn't hold: 1 and 0; the last one was "masterreq 0 a", \
posted by a in turn 50 at 80.000100 s; since then they took at most 0.002500 s
2 of 2 questions and numbered sends were answered, within at most 0.002700 s; by the law at most 0.005000 s
quiet times: 2, which ended after at most 80.000200 s; by the law at most 80.000200 s
searches for a master: 2, which ended after at most 5.000100 s; by the law at most 5.000200 s
waits for an election, or for word of a master: 4, which ended after at most 300.000100 s; by the law at most 600.000200 s
candidatures: 1, which ended after at most 5.000100 s; by the law at most 5.000200 s
numbered sends: 2, which ended after at most 0.002700 s; by the law at most 3.000200 s
"""


def schedule():
    """The schedule that both live through."""
    trace = octets_of(['traceon', '1', 'asker']).hex()
    return HEAD + ''.join(f'at {at} {words.format(trace=trace)}\n' for at, words in EVENTS) + 'end\n'


def traces(program):
    """The trace of each host, as its daemon would write it: the number of an event is that of the turn."""
    ran = subprocess.run([program, 'replay'], input=schedule().encode(), stdout=subprocess.PIPE, stderr=subprocess.DEVNULL, check=True)
    told, posts = ['', ''], [0, 0]
    for line in map(grammar.line_of, ran.stdout.decode().splitlines()):
        if line.number <= 2:
            continue
        words, place = line.text.split(' '), grammar.place_of_peer(line.text.split(' '))
        if place is not None:
            words[place] = '0' if int(words[place]) == line.node else '1'
        if words[0] == 'post':
            words[1], posts[line.node] = str(posts[line.node]), posts[line.node] + 1
        told[line.node] += f'{line.number} 0 0 {line.tick} {" ".join(words)}\n'
    return told


def says(wanted, *words):
    """Wants this output of a tool."""
    ran = subprocess.run([sys.executable, *words], stdout=subprocess.PIPE, stderr=subprocess.PIPE, check=False)
    if ran.stdout.decode() != wanted or ran.returncode or ran.stderr:
        sys.exit(f'{words[1:]}: status {ran.returncode}, {ran.stderr.decode()}\n{ran.stdout.decode()}and not\n{wanted}')


def main():
    watch, witness = (os.path.join(TOOLS, tool) for tool in ('tsp-watch', 'tsp-witness'))
    judge = [witness, '--progress', '--drift', '0', '--program', sys.argv[1]]
    with tempfile.TemporaryDirectory() as folder:
        paths, told = [os.path.join(folder, name) for name in ('a', 'b', 'both')], traces(sys.argv[1])
        for path, text in zip(paths, [*told, ''.join(told)]):
            with open(path, 'w', encoding='ascii') as file:
                file.write(text)
        says(OF_A, watch, '--progress', paths[0])
        says(OF_B, watch, '--progress', paths[1])
        of_starts = [f'start {number}: {line}' for number, text in ((1, OF_A), (2, OF_B)) for line in text.splitlines()]
        says('\n'.join([*of_starts, '']), watch, '--progress', paths[2])
        both = OF_BOTH.format(lines=sum(text.count('\n') for text in told), ticket=WORD % 32_768)
        says(both, *judge, '--file', os.path.join(GIVEN, 'hand.hosts'), f'a={paths[0]}', f'b={paths[1]}')
    says(OF_HAND, *judge, '--file', os.path.join(GIVEN, 'hand.hosts'), *(f'{name[0]}={os.path.join(GIVEN, "hand", name)}' for name in ('a-1.trace', 'b-2.trace')))


main()
