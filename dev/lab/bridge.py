#!/usr/bin/env python3
"""Carries frames between interfaces, as cables and switches do: late, some twice, some changed, and some not at all.

usage: bridge.py CAPTURE SEED NETWORK/INTERFACE..

    CAPTURE            the file to which what is carried is written, as tshark reads it; `-` for none
    SEED               what the chances of loss and the like begin with
    NETWORK/INTERFACE  an interface, and the network that it is on: frames stay in their network

Lines of its standard input say what it does from then on:

    loss SHARE         this share of the IPv4 frames is lost, from 0 to 1
    late LEAST MOST    a frame is so late, in microseconds
    twice SHARE        this share of those that are carried comes twice
    spoil SHARE        this share of them has an octet of its datagram changed
    cut INTERFACE..    nothing is carried from or to these; without one all is carried again

It ends at SIGTERM, and then says how many frames it carried, lost, carried twice and changed. What isn't IPv4 or ARP isn't
carried, and ARP is never lost.
"""
import heapq
import os
import random
import select
import signal
import socket
import struct
import sys
import time

IPV4, ARP, UDP = b'\x08\x00', b'\x08\x06', 17
CAPTURE_HEAD = struct.pack('=IHHiIII', 0xA1B23C4D, 2, 4, 0, 0, 65535, 1)


def folded_sum(octets):
    """The one's complement sum of 16-bit words."""
    if len(octets) % 2:
        octets += b'\0'
    total = sum(struct.unpack(f'>{len(octets) // 2}H', octets))
    while total > 0xFFFF:
        total = (total & 0xFFFF) + (total >> 16)
    return total


def datagram_place(frame):
    """Where the UDP header of a frame begins, or None."""
    begin = 14 + (frame[14] & 15) * 4
    return begin if frame[12:14] == IPV4 and frame[23] == UDP and len(frame) >= begin + 8 else None


def summed(frame):
    """A frame whose UDP checksum is right: the kernel leaves it to the card, and there is none."""
    begin = datagram_place(frame)
    if begin is None:
        return frame
    length = struct.unpack_from('>H', frame, begin + 4)[0]
    datagram = frame[begin:begin + 6] + b'\0\0' + frame[begin + 8:begin + length]
    pseudo = frame[26:34] + struct.pack('>BBH', 0, UDP, length)
    check = ~folded_sum(pseudo + datagram) & 0xFFFF
    return frame[:begin + 6] + struct.pack('>H', check or 0xFFFF) + frame[begin + 8:]


class End:
    """An end of a cable: its socket, interface and network."""

    def __init__(self, word):
        self.network, self.name = word.split('/')
        self.socket = socket.socket(socket.AF_PACKET, socket.SOCK_RAW, socket.htons(3))
        self.socket.bind((self.name, 0))

    def fileno(self):
        return self.socket.fileno()


class Bridge:
    """Its ends, the frames on their way, and the capture."""

    def __init__(self, capture, seed, names):
        self.ends = [End(name) for name in names]
        self.loss = self.twice = self.spoil = 0.0
        self.late, self.cut = (0.0, 0.0), set()
        self.way, self.count = [], 0
        self.carried = self.lost = self.doubled = self.spoiled = 0
        self.chance, self.heard = random.Random(seed), b''
        self.capture = None if capture == '-' else open(capture, 'wb')
        if self.capture:
            self.capture.write(CAPTURE_HEAD)

    def hear(self):
        """Reads what there is of its standard input; says whether it goes on."""
        octets = os.read(0, 4096)
        *lines, self.heard = (self.heard + octets).split(b'\n')
        for line in lines:
            self.obey(line.decode('ascii'))
        return bool(octets)

    def obey(self, line):
        """Does from now on what a line says."""
        word, *rest = line.split()
        if word == 'late':
            self.late = int(rest[0]) / 1e6, int(rest[1]) / 1e6
        elif word == 'cut':
            self.cut = set(rest)
        else:
            setattr(self, word, float(rest[0]))

    def take(self, end):
        """Takes a frame that came in at an end."""
        frame, whence = end.socket.recvfrom(65535)
        if whence[2] == socket.PACKET_OUTGOING or frame[12:14] not in (IPV4, ARP):
            return
        is_sure = frame[12:14] == ARP
        if not is_sure and (end.name in self.cut or self.chance.random() < self.loss):
            self.lost += 1
            return
        self.carried += 1
        if not is_sure and self.chance.random() < self.spoil:
            frame = self.changed(frame)
        twice = not is_sure and self.chance.random() < self.twice
        self.doubled += twice
        for _ in range(1 + twice):
            self.count += 1
            heapq.heappush(self.way, (time.monotonic() + self.chance.uniform(*self.late), self.count, end, summed(frame)))

    def changed(self, frame):
        """A frame with an octet of its datagram changed."""
        begin = datagram_place(frame)
        if begin is None or len(frame) == begin + 8:
            return frame
        self.spoiled += 1
        place = self.chance.randrange(begin + 8, len(frame))
        return frame[:place] + bytes([frame[place] ^ 1 << self.chance.randrange(8)]) + frame[place + 1:]

    def deliver(self):
        """Hands a frame to all other ends of its network."""
        _, _, came, frame = heapq.heappop(self.way)
        if self.capture:
            now = time.time_ns()
            self.capture.write(struct.pack('=IIII', now // 10**9, now % 10**9, len(frame), len(frame)) + frame)
        for end in self.ends:
            if end is not came and end.network == came.network and (end.name not in self.cut or frame[12:14] == ARP):
                end.socket.send(frame)

    def run(self):
        """Carries frames until the end."""
        sources = [*self.ends, 0]
        while True:
            wait = max(self.way[0][0] - time.monotonic(), 0) if self.way else None
            for ready in select.select(sources, [], [], wait)[0]:
                if ready != 0:
                    self.take(ready)
                elif not self.hear():
                    sources.remove(0)
            while self.way and self.way[0][0] <= time.monotonic():
                self.deliver()


def main():
    capture, seed, *names = sys.argv[1:]
    bridge = Bridge(capture, int(seed), names)
    signal.signal(signal.SIGTERM, lambda *_: sys.exit())
    print('ready', flush=True)
    try:
        bridge.run()
    finally:
        if bridge.capture:
            bridge.capture.close()
        print(bridge.carried, bridge.lost, bridge.doubled, bridge.spoiled, flush=True)


if __name__ == '__main__':
    main()
