"""At which tick a daemon is now, by what tsp-watch finds beside a trace that was quiet when it was begun: `placed.py FOLDER`."""
import os
import sys
import time

sys.dont_write_bytecode = True
sys.path.insert(0, os.path.dirname(os.path.realpath(__file__)))
sys.path.insert(0, os.path.dirname(os.path.dirname(os.path.realpath(__file__))))

import made_page  # noqa: E402
from tsp_daemon import hosts, placed, state, views  # noqa: E402

MILLION = 1_000_000
START, ROLE = 'tsp-launch: in the trace peer 0 is a, 1 b', '9 0 0 86000000 become loose'


def told(ago):
    """The line that tells the time of so many seconds ago."""
    return time.strftime('... it is %Y-%m-%dT%H:%M:%SZ', time.gmtime(time.time() - ago))


def daemon_of(*lines):
    """The daemon of a trace."""
    daemon = state.Daemon()
    for line in lines:
        daemon.take(line)
    return daemon


def near(tick, seconds, where):
    """Wants this tick, to two seconds."""
    assert tick is not None and abs(tick - seconds * MILLION) <= 2 * MILLION, f'{where}: {tick}, and not {seconds} s'


def says_next(folder):
    """What a host does next goes by what the hosts file lets it be, and by whether it follows; and what its counter has may not be kept yet."""
    file = os.path.join(folder, 'hosts')
    with open(file, 'w', encoding='ascii') as made:
        made.write('# a host\nb 192.0.2.2 master\na 192.0.2.1:525 slave # sleeps\n+\nb 192.0.2.2 master\n')
    assert [hosts.may_be_of(name, file) for name in 'abc'] == ['slave', 'master', None] and hosts.may_be_of('a', file + '.none') is None
    lines = START, '9 0 0 86000000 become follow 1', '9 0 0 86000000 arm elect 640000000'
    for may_be, does in (('slave', 'searches for a master'), ('strict', 'stands for election'), (None, 'stands, or searches for a master,')):
        for last, silent in ((), ' if b is silent'), (('10 0 0 86000000 become loose', '10 0 0 86000000 arm elect 640000000'), ''):
            said = views.screen(daemon_of(*lines, *last), None, may_be)[2]
            assert said == f'next         {does} in 9:14{silent}', said
    rounds = [f'10 0 0 {tick * MILLION} {act}' for tick in (440, 688) for act in ('took 1 adjtime 10 12400 b', 'correct 12400 slew 1795803775398554')]
    said = views.screen(daemon_of(*lines, *rounds), None)[-1]
    assert said == 'rate         -50.0 parts in a million, by its corrections of the last 4:08', said
    counts = daemon_of(START, 'tsp-launch: the daemon counts 383 parts in 10^9 faster than the machine', ROLE)
    said = views.screen(counts, None)[-1]
    assert said == 'counter      has +0.383 parts in a million, and nothing is kept for the next start yet', said


def main(folder):
    """Tries each way in turn."""
    says_next(folder)
    file, page = os.path.join(folder, 'quiet'), os.path.join(folder, 'its-page')
    quiet = daemon_of(START, ROLE)
    assert placed.Place().now(quiet) is None, 'nothing tells the time, and there is one'
    assert views.screen(quiet, None)[0] == 'a, 1:26 after its start, at its last line', views.screen(quiet, None)[0]

    # The file was written 284 s ago; a time that the supervisor told stands behind a line of this start, or says nothing.
    with open(file, 'w', encoding='ascii') as made:
        made.write(f'{START}\n{ROLE}\n')
    os.utime(file, (time.time() - 284,) * 2)
    near(placed.Place(file=file).now(quiet), 86 + 284, 'by the file')
    near(placed.Place().now(daemon_of(START, ROLE, told(100))), 86 + 100, 'by a time in the trace')
    near(placed.Place(file=file).now(daemon_of(START, ROLE, told(100))), 86 + 284, 'by both')
    assert placed.Place().now(daemon_of(told(100), START, ROLE)) is None, 'a time before the start counts'
    assert placed.Place().now(daemon_of(START, ROLE, told(100), START)) is None, 'a time of another start counts'
    assert placed.Place().now(daemon_of(START, ROLE, '... it is 2026-13-01T00:00:00Z')) is None, 'a time that is none counts'
    near(placed.Place().now(daemon_of(START, ROLE, told(-3600))), 86, 'by a time to come')

    # The page is the best of all, if it is the same daemon's; one that nobody writes says that nobody counts on.
    made_page.write(page, made_page.leading(time.time_ns() // 1000))
    near(placed.Place(page, file).now(quiet), made_page.COUNTED / MILLION, 'by the page')
    assert placed.Place(page, file).now(daemon_of(f'9 0 0 {made_page.COUNTED * 2} become loose')) is None, 'the page of another start counts'
    made_page.end(page)
    assert placed.Place(page, file).now(quiet) is None, 'a page that nobody writes counts'
    near(placed.Place(page + '.none', file).now(quiet), 86 + 284, 'without a page')

    # Lines that were there say nothing; one that comes does, before all else, and the one that was held up least counts.
    place = placed.Place()
    place.took(quiet)
    place.waits()
    place.took(quiet)
    assert place.now(quiet) is None, 'a line that was there counts'
    for tick in (300, 310, 311, 20):
        quiet.take(f'10 0 0 {tick * MILLION} become loose')
        place.took(quiet)
        near(place.now(quiet), tick, f'a line of {tick} s')
    print('by lines, pages, files and times')


main(sys.argv[1])
