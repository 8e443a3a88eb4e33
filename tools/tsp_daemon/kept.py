"""Where this machine's trace is kept, as TSP_TRACE says, and its lines from there."""
from __future__ import annotations

import datetime
import gzip
import os
import re
import select
import subprocess
import time

from tsp_supervise import trail
from tsp_texts.tool import Fault, reason, say

# The unit's variables; the last line of one counts.
VARIABLES = '/etc/default/tsp'
# (without -q journalctl says that it can't be read)
JOURNAL = ['journalctl', '-u', 'tsp', '-o', 'cat', '--no-pager']
LAST_LINE = [*JOURNAL, '-q', '-n', '1']
# What journalctl writes if the journal has nothing.
NO_LINES = (b'', b'-- No entries --')
START, TIME = b'in the trace peer 0 is ', re.compile(rb'^\.\.\. it is ([0-9-]{10}T[0-9:]{8})Z$')
# What others that rotate files put behind a name: the newer one has the less number.
ROTATED = re.compile(r'\.([0-9]{1,5})(?:\.gz)?')
FORMS = ('%Y-%m-%d', '%Y-%m-%d %H:%M', '%Y-%m-%d %H:%M:%S', '%Y-%m-%dT%H:%M', '%Y-%m-%dT%H:%M:%S')
CHUNK, PAUSE, SECOND = 1 << 16, 0.25, 1.0


def of_unit(name):
    """A variable as the unit's file has it, None where it doesn't."""
    form = re.compile(rf'^[ \t]*{name}[ \t]*=[ \t]*(["\']?)([A-Za-z0-9._/-]*)\1[ \t]*$', re.MULTILINE)
    try:
        with open(VARIABLES, encoding='utf-8', errors='replace') as file:
            found = form.findall(file.read())
    except OSError:
        return None
    return found[-1][1] if found else None


def variable(name):
    """A variable: the caller's, or the unit's; the empty text where neither has it."""
    return os.environ.get(name) or of_unit(name) or ''


def place():
    """Where the trace is kept: the path of its file, or the empty text for the journal."""
    asked = variable('TSP_TRACE') or trail.PATH
    if asked == 'off':
        raise Fault('this machine keeps no trace: TSP_TRACE is off', 3)
    path = variable('TSP_OUTPUT') or (asked if asked.startswith('/') else '')
    # (a package of another version kept it in the journal)
    return path if path != trail.PATH or os.path.lexists(os.path.dirname(path)) else ''


def files(path):
    """The files of a trace in the order of time, those first that were put aside."""
    folder, name = os.path.split(path)
    try:
        there = os.listdir(folder or '.')
        older = [(-int(ROTATED.fullmatch(each[len(name):])[1]), os.path.join(folder, each))
                 for each in there if each.startswith(name) and ROTATED.fullmatch(each[len(name):])]
        found = [each for _, each in sorted(older) + trail.aside(path)] + [path] * (name in there)
    except OSError as fault:
        raise Fault(reason(path, fault), 3) from fault
    if not found:
        raise Fault(f'{path}: there is no trace', 3)
    return found


def opened(path):
    """A file of a trace, for reading; one that is compressed as what it was."""
    return gzip.open(path, 'rb') if path.endswith('.gz') else open(path, 'rb')


def lines_of(paths):
    """The lines of files. One that was compressed or removed meanwhile is looked for under its other name, or passed over."""
    for path in paths:
        for name in (path, path + '.gz'):
            try:
                with opened(name) as file:
                    yield from file
                break
            except FileNotFoundError:
                continue
            except OSError as fault:
                raise Fault(reason(name, fault), 3) from fault


def moment(text):
    """Seconds since 1970 of a time in words: today, yesterday, a date, or a date and a time, all of this machine's time zone."""
    day = datetime.date.today()
    if text in ('today', 'yesterday'):
        day -= datetime.timedelta(text == 'yesterday')
        return datetime.datetime(day.year, day.month, day.day).timestamp()
    for form in FORMS:
        try:
            return datetime.datetime.strptime(text, form).timestamp()
        except ValueError:
            continue
    raise ValueError(text)


def told_time(line):
    """The time that a line of the supervisor tells, or None."""
    found = TIME.match(line)
    if not found:
        return None
    try:
        return datetime.datetime.strptime(found[1].decode('ascii'), '%Y-%m-%dT%H:%M:%S').replace(tzinfo=datetime.timezone.utc).timestamp()
    except ValueError:
        return None


def first_wanted(paths, since):
    """The number of the line with which a trace is to begin: the last start of a daemon before this time, or the first line where no start is before."""
    begin, last = 0, 0
    for number, line in enumerate(lines_of(paths)):
        if START in line:
            last = number
        elif line.startswith(b'... it is ') and (told_time(line) or 0) <= since:
            begin = last
        elif line.startswith(b'... it is '):
            break
    return begin


def of_files(path, since):
    """The lines of a trace in files, from the last start before a time on; all of them where there is no such time."""
    paths = files(path)
    begin = 0 if since is None else first_wanted(paths, since)
    for number, line in enumerate(lines_of(paths)):
        if number >= begin:
            yield line if line.endswith(b'\n') else line + b'\n'


def journal_start(since):
    """When the last start before a time was, as the journal has it; that time where it has none."""
    words = [*JOURNAL[:3], '-o', 'short-unix', '--no-pager', '-q', '-n', '1', '-g', START.decode('ascii'), '--until', f'@{since:.0f}']
    ran = subprocess.run(words, stdin=subprocess.DEVNULL, stdout=subprocess.PIPE, stderr=subprocess.DEVNULL, check=False)
    found = re.match(rb'([0-9]+)\.', ran.stdout)
    return int(found[1]) if found else int(since)


def of_journal(since):
    """The octets of the journal's lines from the last start before a time on."""
    words = JOURNAL if since is None else [*JOURNAL, '--since', f'@{journal_start(since)}']
    yield from of_command(words)


def of_command(words, patience=None):
    """The octets that a command writes, as they come; none where nothing came for so many seconds."""
    try:
        process = subprocess.Popen(words, stdin=subprocess.DEVNULL, stdout=subprocess.PIPE)
    except OSError as fault:
        raise Fault(f'{words[0]}: {fault.strerror}', 3) from fault
    with process:
        while True:
            is_ready = patience is None or select.select([process.stdout], [], [], patience)[0]
            octets = os.read(process.stdout.fileno(), CHUNK) if is_ready else b''
            if is_ready and not octets:
                return
            yield octets


def kept(since=None):
    """This machine's trace, in pieces, from the last start before a time on."""
    path = place()
    return of_files(path, since) if path else there(of_journal(since))


def there(pieces):
    """The journal's lines; none at all are a fault."""
    is_there = False
    for octets in pieces:
        is_there = is_there or octets.strip() not in NO_LINES
        yield octets
    if not is_there:
        raise Fault('the journal has no line of the unit tsp' if is_in_journal() else f'there is no trace at {trail.PATH}', 3)


def is_in_journal():
    """Whether the trace is asked to be in the journal."""
    return variable('TSP_TRACE') == 'journal'


def followed():
    """This machine's trace as it comes, from the newest file on, in pieces; none where nothing came for a while."""
    path = place()
    if not path and not is_in_journal() and all(octets.strip() in NO_LINES for octets in of_command(LAST_LINE)):
        path = awaited(trail.PATH)
    yield from (follow(path) if path else of_command([*JOURNAL, '-n', '20000', '-f'], SECOND))


def awaited(path):
    """The path, once there is a file."""
    say(f'waits for {path}, which isn\'t there yet')
    while not os.path.exists(path):
        time.sleep(PAUSE)
    return path


def follow(path):
    """The octets of a file as they come, and of the one that takes its place when it is put aside."""
    try:
        file = open(path, 'rb')
    except OSError as fault:
        raise Fault(reason(path, fault), 3) from fault
    while True:
        octets = file.read(CHUNK)
        yield octets
        if octets:
            continue
        try:
            is_other = not os.path.samestat(os.fstat(file.fileno()), os.stat(path))
        except OSError:
            is_other = False
        rest = file.read(CHUNK) if is_other else b''
        if rest:
            yield rest
        elif is_other:
            file.close()
            file = open(path, 'rb')
        else:
            time.sleep(PAUSE)


def last_octets(most):
    """The end of this machine's trace in files, of its two newest ones at most; None where it is in the journal."""
    path = place()
    if not path:
        return None
    octets = b''.join(lines_of(files(path)[-2:]))
    return octets[octets.find(b'\n', len(octets) - most) + 1:] if len(octets) > most else octets
