"""A daemon that runs: its process, what it writes, and what its own lines tell."""
import fcntl
import os
import re
import signal
import socket
import subprocess

from tsp_daemon import child, hosts, state
from tsp_supervise import stamps
from tsp_texts.grammar import OF_DAEMON
from tsp_witness.datagram import octets_of

# As much as the system lets a user's pipe hold: what comes in a tenth of a second at 100,000 datagrams a second.
ROOM, SET_PIPE_SIZE = 1 << 20, 1031
# Where more than this came at once, the next octets are let gather for so many seconds: each wait costs as much as a hundred lines.
MUCH, GATHERING = 8192, 0.003
# A line of a trace has less; more without a line feed is no line.
LONGEST = 4096
TELLING = (b' become ', b' close ', b' correct ', b' settime ', b' trace ')
TOLD = re.compile(f'^{OF_DAEMON}(?:become|close|correct|trace|took [0-9]+ settime) .*$'.encode(), re.MULTILINE)
TRACE_ON = octets_of(('traceon', '1', 'tsp-launch'))
# How many seconds a daemon that starts is given for an answer before it is asked again, and how long one whose trace was switched off stays so.
ASKING, AGAIN = 0.1, 1
PATIENCE = 0.3


class Serving:
    """A start of the daemon. `listener` is told its whole lines, how many were left out of them, and what they changed in its state."""

    def __init__(self, loop, words, names, listener):
        self.loop, self.listener, self.rest = loop, listener, b''
        self.is_traced, self.asked_at, self.started = False, -AGAIN, loop.now()
        self.state = state.Daemon(listener.learning)
        self.state.names = dict(enumerate(names))
        self.state.ports = {number: state.Port('starting') for number in range(1 + words.count('+'))}
        self.address = hosts.pair_of(hosts.asked_at(words[2]))
        self.link = socket.socket(socket.AF_INET, socket.SOCK_DGRAM)
        self.link.setblocking(False)
        self.output, into = os.pipe()
        try:
            fcntl.fcntl(into, SET_PIPE_SIZE, ROOM)
        except OSError:
            pass
        try:
            self.process = child.begin(words, stdin=subprocess.DEVNULL, stdout=into)
        except OSError:
            os.close(self.output)
            raise
        finally:
            os.close(into)
        os.set_blocking(self.output, False)
        loop.watch(self.output, self.read)
        self.ask_to_trace()

    def ask_to_trace(self):
        """Asks the daemon to trace until it does. Whoever switches its trace off, it is asked again once a second at most."""
        if self.is_traced:
            return
        self.asked_at = self.loop.now()
        try:
            self.link.sendto(TRACE_ON, self.address)
        except OSError:
            pass
        starts = self.asked_at - self.started < AGAIN
        self.loop.after('trace', ASKING if starts else AGAIN, self.ask_to_trace)

    def read(self):
        """Reads what the daemon wrote, and says whether there was something."""
        try:
            octets = os.read(self.output, ROOM)
        except BlockingIOError:
            return False
        if not octets:
            self.loop.unwatch(self.output)
        elif len(octets) > MUCH:
            self.loop.rest(self.output, GATHERING)
        whole, feed, self.rest = (self.rest + octets).rpartition(b'\n')
        if len(self.rest) > LONGEST:
            self.rest = b''
        if whole:
            self.take(whole + feed)
        return bool(octets)

    def take(self, lines):
        """Takes whole lines: few of them change the state."""
        count = 0
        if any(sign in lines for sign in stamps.SIGNS):
            lines, count = stamps.left_out(lines)
        self.listener.hear(lines, count)
        if any(word in lines for word in TELLING):
            for line in TOLD.findall(lines):
                for change in self.state.take(line.decode('ascii', 'replace')):
                    self.change(change)

    def change(self, change):
        """Something of its state changed."""
        if change.kind == 'trace':
            self.is_traced = change.values['trace'] == 'on'
            if not self.is_traced:
                self.loop.at('trace', max(self.loop.now(), self.asked_at + AGAIN), self.ask_to_trace)
        self.listener.changed(change)

    def status(self):
        """How it ended, or None: its status, or 128 and the number of the signal that ended it."""
        status = self.process.poll()
        return 128 - status if status is not None and status < 0 else status

    def end(self):
        """Ends it, if it runs, and reads the rest of what it wrote. (a child of it may still write)"""
        if self.process.poll() is None:
            child.end(self.process, PATIENCE)
        until = self.loop.now() + PATIENCE
        while self.loop.now() < until and self.read():
            pass
        self.loop.unwatch(self.output)
        self.loop.cancel('trace')
        self.link.close()
        os.close(self.output)
