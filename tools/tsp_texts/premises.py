"""The premises of the promises, as far as a reader sees them in a schedule and in what its run posts."""
from collections import namedtuple

from tsp_texts import trace

LIFE = 30 * trace.MILLION
FEW = 32_768


class Premise(namedtuple('Premise', 'name line why', defaults=(None, ''))):
    """A premise: its name, and where it doesn't hold the first line that breaks it, counted from 1, and why."""
    __slots__ = ()


def first_node(schedule):
    """The line of a schedule's first node."""
    return 4 if schedule.strict else 3


def event_line(schedule, place):
    """The line of the event at a place."""
    return first_node(schedule) + len(schedule.nodes) + len(schedule.nets) + place


def sealed(schedule, _posts):
    """No octets come in from outside in a peer's name."""
    for place, event in enumerate(schedule.events):
        if event.peer is not None:
            return event_line(schedule, place), f'octets come in from outside in the name of peer {event.peer}'
    return None


def prompt(schedule, posts):
    """Each datagram is taken at most LIFE after it was posted."""
    events = schedule.events
    for place, event in enumerate(events):
        if event.datagram is not None:
            passed = event.at - events[posts[event.datagram] - 1].at
            if passed > LIFE:
                return event_line(schedule, place), \
                    f'datagram {event.datagram} is taken {passed} microseconds after it was posted, and at most {LIFE} is prompt'
    return None


def apart(schedule, _posts):
    """No two boots have the same word."""
    seen = {}
    for place, event in enumerate(schedule.events):
        if event.word is not None and seen.setdefault(event.word, place) != place:
            return event_line(schedule, place), f'this boot has the word of the one on line {event_line(schedule, seen[event.word])}'
    return None


def short(schedule, posts):
    """Fewer than FEW datagrams are posted."""
    if len(posts) < FEW:
        return None
    return event_line(schedule, posts[FEW - 1] - 1), f'by this event {FEW} datagrams are posted, and fewer are few'


def names_differ(schedule, _posts):
    """No two nodes have the same name."""
    seen = {}
    for line, node in enumerate(schedule.nodes, first_node(schedule)):
        if seen.setdefault(node.name, line) != line:
            return line, f'this node has the name of the one on line {seen[node.name]}'
    return None


ALL = {'Sealed': sealed, 'Prompt': prompt, 'Apart': apart, 'Short': short, 'NamesDiffer': names_differ}


def can_be(schedule, posts):
    """Whether a run of this schedule can have posted at these events: each take is of a datagram posted before it."""
    is_there = not posts or 1 <= min(posts) and max(posts) <= len(schedule.events)
    return is_there and all(event.datagram < len(posts) and posts[event.datagram] < number
                            for number, event in enumerate(schedule.events, start=1) if event.datagram is not None)


def of(schedule, posts):
    """Each premise of a schedule that `replay` accepts; `posts` are the numbers of the events of the posted datagrams."""
    return [Premise(name, *(look(schedule, posts) or ())) for name, look in ALL.items()]
