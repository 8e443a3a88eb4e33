"""chronyd on this machine: the sources that it has, and the socket by which it takes samples."""
import os
import socket
import stat
import subprocess
from collections import namedtuple

from tsp_texts.tool import Fault

SOCKET, REFID = '/run/chrony.tsp.sock', 'TSP'
# How chronyd calls its own clock, 127.127.1.1, where it goes by that.
LOCAL = b'7F7F0101,'
# Why there is no feed: another source, nobody who takes samples, a counter that chronyd slews.
ANOTHER, NOBODY, SLEWED = 5, 6, 7
# chronyc is waited for so many seconds.
PATIENCE = 10


class Source(namedtuple('Source', 'kind state name reach')):
    """A source of chronyd: `#` for a reference clock, how chronyd takes it, its name, and by which of the last polls something was heard."""
    __slots__ = ()

    @property
    def is_own(self):
        """Whether it is the one that is fed."""
        return self.kind == '#' and self.name == REFID

    @property
    def is_used(self):
        """Whether chronyd follows it, or could."""
        return self.state in '*+' or self.reach != 0


def sources_of(text):
    """The sources by what `chronyc -n -c sources` writes."""
    found = []
    for line in text.splitlines():
        cells = line.split(',')
        if len(cells) < 6 or not cells[5].isdigit():
            raise Fault(f'chronyc says of its sources what isn\'t known here: \'{line}\'', NOBODY)
        found.append(Source(cells[0], cells[1], cells[2], int(cells[5], 8)))
    return found


def asked(address, what):
    """A call of chronyc that asks for something, once it has ended."""
    words = ['chronyc', *(('-h', address) if address else ()), '-n', '-c', what]
    return subprocess.run(words, stdin=subprocess.DEVNULL, stdout=subprocess.PIPE, stderr=subprocess.STDOUT, timeout=PATIENCE, check=False)


def is_local(address=None):
    """Whether chronyd goes by its own clock, as `local` in its file has it while it has no source. (while it follows one that isn't to be seen)"""
    try:
        ran = asked(address, 'tracking')
    except (OSError, subprocess.TimeoutExpired):
        return False
    return not ran.returncode and ran.stdout.startswith(LOCAL)


def sources(address=None):
    """The sources of chronyd. It is a fault that nobody answers."""
    try:
        ran = asked(address, 'sources')
    except subprocess.TimeoutExpired as fault:
        raise Fault('chronyd doesn\'t answer', NOBODY) from fault
    except OSError as fault:
        raise Fault(f'chronyc can\'t be run, which belongs to chronyd: {fault.strerror}', NOBODY) from fault
    if ran.returncode:
        # (chronyc has more than one line where it tried more than one way)
        said = ran.stdout.decode('ascii', 'replace').strip().splitlines()
        raise Fault(f'chronyd doesn\'t run, or says nothing: {said[-1] if said else "chronyc has status " + str(ran.returncode)}', NOBODY)
    return sources_of(ran.stdout.decode('ascii', 'replace'))


def check_sources(found, is_by_itself=False):
    """That chronyd has a clock to feed and follows nothing else, nor itself."""
    others = [source.name for source in found if not source.is_own and source.is_used]
    if others:
        raise Fault(f'chronyd has another source, {others[0]}: one clock doesn\'t follow two', ANOTHER)
    if is_by_itself:
        raise Fault('chronyd goes by its own clock, as a line `local` of its file says: take that out', ANOTHER)
    if not any(source.is_own for source in found):
        raise Fault(f'chronyd has no reference clock {REFID}: examples/chrony.conf of the package has its line', NOBODY)


def check_socket(path):
    """That chronyd's socket is there."""
    try:
        is_there = stat.S_ISSOCK(os.stat(path).st_mode)
    except OSError as fault:
        raise Fault(f'{path}: {fault.strerror}; chronyd makes it by its line `refclock SOCK`', NOBODY) from fault
    if not is_there:
        raise Fault(f'{path}: it is no socket', NOBODY)


class Link:
    """Sends samples to a socket by its path, since chronyd makes a new one at each start."""

    def __init__(self, path, say):
        self.path, self.say, self.is_faulty = path, say, False
        self.socket = socket.socket(socket.AF_UNIX, socket.SOCK_DGRAM)
        self.socket.setblocking(False)

    def send(self, octets):
        """Sends a sample, and says whether that went well. That it doesn't is said once, and that it does again."""
        try:
            self.socket.sendto(octets, self.path)
        except OSError as fault:
            if not self.is_faulty:
                self.say(f'{self.path}: {fault.strerror}; no sample is taken, and each next one is tried')
            self.is_faulty = True
            return False
        if self.is_faulty:
            self.say(f'{self.path}: samples are taken again')
        self.is_faulty = False
        return True
