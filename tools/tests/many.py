"""Daemons on the loopback whose time runs fast. The peers of each, up to hundreds, are played here: they back it, follow it, answer its questions and
acknowledge. `run(PROGRAM, LIBRARY, FOLDER, PLANS)` leaves their traces and hosts files in the folder.
"""
import os
import select
import socket
import struct
import subprocess
import time
from collections import namedtuple

from tsp_texts import library as libraries
from tsp_witness.datagram import REPLY, REQUEST, octets_of

START, MILLION, TICKETS = 1_800_000_005_000_000, 10**6, 32_768
ELECTION, MASTERUP, ADJTIME, SETTIME = 8, 6, 1, 5
# So many questions of a stranger are on their way at a time, and one is lost if no answer came for so many seconds.
AT_ONCE, LONGEST, LOST = 60, 512, 0.2


class Plan(namedtuple('Plan', 'name peers seconds questions rate', defaults=(60,))):
    """The daemon's name, how many peers it has, for how many seconds of its time it runs, how many questions a stranger asks it, and how fast time runs."""
    __slots__ = ()


def socket_of():
    """A socket of the loopback, and its address."""
    made = socket.socket(socket.AF_INET, socket.SOCK_DGRAM)
    made.setsockopt(socket.SOL_SOCKET, socket.SO_RCVBUF, 2**22)
    made.bind(('127.0.0.1', 0))
    return made


class Peer:
    """A peer that is played."""

    def __init__(self, number, net):
        self.name, self.net, self.ticket, self.socket = f'p{number:03}', net, number, socket_of()

    def take(self):
        """Takes a datagram, and answers it."""
        octets, whence = self.socket.recvfrom(LONGEST)
        for words in self.answers(octets):
            self.socket.sendto(octets_of([str(word) for word in words]), whence)

    def answers(self, octets):
        """The answers to a datagram."""
        kind, _, number = struct.unpack_from('>BBH', octets)
        if kind == REQUEST:
            word, counter = struct.unpack_from('>QQ', octets, 4)
            yield 'reply', self.ticket, word, counter, START + self.net.passed() + 1000 * (self.ticket % 7)
        elif kind == ELECTION:
            yield 'accept', number, self.name
        elif kind == MASTERUP:
            yield 'slaveup', self.ticket, self.name
        elif kind in (ADJTIME, SETTIME):
            self.ticket = (number + 1) % TICKETS
            yield 'ack', number, self.name


class Net:
    """The daemon, its peers, and a stranger that asks it."""

    def __init__(self, program, library, folder, plan):
        self.program, self.library, self.folder, self.plan = program, library, folder, plan
        self.begun, self.peers = time.monotonic_ns(), [Peer(number, self) for number in range(plan.peers)]
        self.sockets, self.daemon, self.ready = {peer.socket.fileno(): peer for peer in self.peers}, None, None
        self.stranger, self.asked, self.answered, self.heard = socket_of(), 0, 0, 0.0
        with socket_of() as own:
            self.port = own.getsockname()[1]

    def passed(self):
        """The microseconds of fast time so far."""
        return (time.monotonic_ns() - self.begun) * self.plan.rate // 1000

    def start(self):
        """Starts the daemon, and has it trace."""
        words = ['serve', f'127.0.0.1:{self.port}', self.plan.name, 'm', '1000000000', *(f'127.0.0.1:{peer.socket.getsockname()[1]}' for peer in self.peers)]
        environment = libraries.fast(self.library, self.begun, self.plan.rate, START, hold=1)
        with open(os.path.join(self.folder, f'{self.plan.name}.trace'), 'wb') as trace:
            self.daemon = subprocess.Popen([self.program, *words], stdout=trace, stderr=subprocess.DEVNULL, env=environment)
        self.stranger.settimeout(0.05)
        while True:
            self.stranger.sendto(octets_of(['traceon', '1', 'asker']), ('127.0.0.1', self.port))
            try:
                self.stranger.recv(LONGEST)
                break
            except OSError:
                pass
        self.stranger.setblocking(False)
        self.ready = select.poll()
        for number in [*self.sockets, self.stranger.fileno()]:
            self.ready.register(number, select.POLLIN)

    def ask(self):
        """A stranger's questions, and the answers that are there. What was lost is asked once more."""
        now = time.monotonic()
        if now > self.heard + LOST:
            self.asked, self.heard = self.answered, now
        while self.asked < min(self.plan.questions, self.answered + AT_ONCE):
            self.asked += 1
            self.stranger.sendto(octets_of(['request', '1', str(self.asked)]), ('127.0.0.1', self.port))
        try:
            while self.stranger.recv(LONGEST)[0] == REPLY:
                self.answered, self.heard = self.answered + 1, now
        except BlockingIOError:
            pass

    def goes_on(self):
        """Whether there is more to come."""
        return self.passed() < self.plan.seconds * MILLION or self.answered < self.plan.questions

    def step(self):
        """Takes what has come."""
        self.ask()
        for number, _ in self.ready.poll(1):
            if number in self.sockets:
                self.sockets[number].take()

    def end(self):
        """Ends what was begun."""
        if self.daemon:
            self.daemon.kill()
            self.daemon.wait()
        for one in [self.stranger, *(peer.socket for peer in self.peers)]:
            one.close()

    def write_hosts(self):
        """Writes the hosts file."""
        with open(os.path.join(self.folder, f'{self.plan.name}.hosts'), 'w', encoding='ascii') as file:
            file.write(f'{self.plan.name} 192.0.2.1 master\n')
            file.writelines(f'{peer.name} 192.0.{2 + (number >> 8)}.{number & 255} slave\n' for number, peer in enumerate(self.peers, 2))


def run(program, library, folder, plans):
    """Runs the daemons of all plans, and leaves their traces and hosts files in the folder."""
    nets = [Net(program, library, folder, plan) for plan in plans]
    try:
        for net in nets:
            net.write_hosts()
            net.start()
        while any(net.goes_on() for net in nets):
            for net in nets:
                net.step()
    finally:
        for net in nets:
            net.end()
