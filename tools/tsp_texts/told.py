"""What tsp-launch says in a journal beside the lines of its daemon."""
import calendar
import re
import time

# Who the peers of a trace are, and by which rate the daemon counts.
PEERS, NAME = 'in the trace peer 0 is ', re.compile('[!-+.-~-]+')
RATE = re.compile(r'the daemon counts (-?[0-9]{1,7}) parts in 10\^9 faster than the machine$')
# From when on, if that isn't its start, and how long that is at most.
SINCE, LONGEST = re.compile('from tick ([0-9]{1,19}) on $'), 40
# What time it is, in UTC.
TIME = re.compile(r'\.\.\. it is ([0-9-]{10}T[0-9:]{8})Z$')


def names_in(line):
    """The names of all peers in the order of their numbers, if this line tells them. (what is before them is looked at once, however long it is)"""
    _, told, rest = line.rpartition(PEERS)
    words = [word.split(' ') for word in f'0 {rest}'.split(', ')] if told else []
    if not all(len(word) == 2 and word[0] == str(number) and NAME.fullmatch(word[1]) for number, word in enumerate(words)):
        return None
    return [word[1] for word in words] or None


def rate_in(line):
    """By how many parts in 10^9 the daemon counts faster than its machine, and from which tick on, if this line tells it, or None. A tick of 0 is its
    start."""
    found = RATE.search(line)
    since = SINCE.search(line[max(found.start() - LONGEST, 0):found.start()]) if found else None
    return (int(found[1]), int(since[1]) if since else 0) if found else None


def time_in(line):
    """What time it is, in seconds since 1970, if this line tells it, or None."""
    found = TIME.search(line)
    try:
        return calendar.timegm(time.strptime(found[1], '%Y-%m-%dT%H:%M:%S')) if found else None
    except ValueError:
        return None
