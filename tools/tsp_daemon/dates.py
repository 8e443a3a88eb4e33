"""Sets the date of a network, at the host that leads it."""
import time

from tsp_daemon import leaders, metrics, times, usage
from tsp_daemon.questions import Asker
from tsp_texts.tool import Fault

# Farther from the date a clock hasn't taken it, in microseconds.
NEAR = 1_000_000
# How many seconds apart a date is tried at least: for one second after a correction no master takes it.
APART = 1.1


def date_of(text, begun):
    """What gives the date that a text means, at the moment of the call: it was that date when the tool began."""
    ahead = 0 if text == 'now' else times.read(text) - begun
    return lambda: times.machine_time() + ahead, ahead


def set_date(asker, leader, text, begun):
    """Sets the date, and gives a line that says how near the leader's clock came. Each try has the date of its moment."""
    date, ahead = date_of(text, begun)
    once = Asker(asker.program, asker.seconds / asker.tries, 1)
    is_set = False
    for number in range(max(asker.tries, 2)):
        tried = time.monotonic()
        is_set = once.date(leader.address, date()) is not None
        if is_set:
            break
        if number == 0:
            time.sleep(max(0, APART - (time.monotonic() - tried)))
    reading = asker.best_clock(leader.address)
    if reading is None:
        raise Fault(f'{leader.name} leads, and doesn\'t answer any more', usage.NOT_WELL)
    away = reading.offset - ahead
    text = f'{metrics.seconds(abs(away))} s {"behind" if away < 0 else "ahead of"} that date, give or take {metrics.seconds(reading.error)}'
    if abs(away) > NEAR + reading.error:
        raise Fault(why_not(leader.name, is_set, text), usage.NOT_WELL)
    if not is_set:
        return f'{leader.name}, which leads, doesn\'t say that it set the date; its clock is {text}'
    return f'date set at {leader.name}, which leads: its clock is {text}'


def why_not(name, is_set, text):
    """Why the clock of the host that leads isn't the date."""
    if is_set:
        return f'the date isn\'t set: {name}\'s clock is {text}'
    return (f'the date isn\'t set: {name} leads, and takes none now, since a correction that it sent in the last 70 s isn\'t acknowledged; '
            'no master takes a date then. Try again in 70 s')
