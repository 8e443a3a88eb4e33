#!/usr/bin/env python3
"""A daemon whose one link takes nothing any more answers on its others.

usage: stalled.py PROGRAM

It needs root, of this machine or of a user namespace of its own (`unshare -rn`). The daemon is in a network namespace with a link whose
queue sends 8 kbit in a second, and then with one whose queue sends nothing (8 bit in a second, so that a datagram takes a minute). A
stranger at the far end of that link asks it who leads: 2,000 times, which is more than its socket and the slow queue hold, and 400 times,
which is more than a socket holds that didn't ask for room. Meanwhile a program on the daemon's own machine asks it twenty times by the
loopback, each time for half a second at most. It writes how often that was answered beside each of the two links.
"""
import contextlib
import os
import socket
import subprocess
import sys
import time

PORT = 5251
# How fast a link is, and how often the stranger asks.
LINKS = (("8kbit", 2000), ("8bit", 400))
ASKED = 20
WAIT = 0.5
MSITE = 19
NEAR, FAR = "02:00:00:00:00:01", "02:00:00:00:00:02"


def call(*words):
    subprocess.run(words, check=True)


def msite(number):
    """The octets of a question who leads."""
    return bytes([MSITE, 1]) + number.to_bytes(2, "big") + bytes(8) + b"timedc\0"


@contextlib.contextmanager
def namespace():
    """A process in a network namespace of its own, in which it does nothing."""
    process = subprocess.Popen(["unshare", "-n", "sh", "-c", "echo; exec sleep 60"], stdout=subprocess.PIPE)
    try:
        process.stdout.readline()
        yield process.pid
    finally:
        process.kill()
        process.wait()


def link(far, rate):
    """A link to the namespace of the process `far`, whose near end sends at this rate."""
    inside = ("nsenter", "-t", str(far), "-n")
    call("ip", "link", "set", "lo", "up")
    call("ip", "link", "add", "near", "address", NEAR, "type", "veth", "peer", "name", "far", "address", FAR)
    call("ip", "link", "set", "far", "netns", str(far))
    call("ip", "address", "add", "10.9.0.1/24", "dev", "near")
    call("ip", "link", "set", "near", "up")
    call(*inside, "ip", "address", "add", "10.9.0.2/24", "dev", "far")
    call(*inside, "ip", "link", "set", "far", "up")
    # (so that no question for an address has to pass the queue)
    call("ip", "neighbour", "replace", "10.9.0.2", "lladdr", FAR, "dev", "near")
    call(*inside, "ip", "neighbour", "replace", "10.9.0.1", "lladdr", NEAR, "dev", "far")
    call("tc", "qdisc", "add", "dev", "near", "root", "tbf", "rate", rate, "burst", "2000", "limit", "2000000")


def flood(far, times):
    """Asks so often from the far end, as fast as that can."""
    text = (
        "import socket, sys, time\n"
        "link = socket.socket(socket.AF_INET, socket.SOCK_DGRAM)\n"
        f"question = bytes.fromhex('{msite(1).hex()}')\n"
        f"for _ in range({times}):\n"
        f"    link.sendto(question, ('10.9.0.1', {PORT}))\n"
        "    time.sleep(0.0005)\n"
    )
    call("nsenter", "-t", str(far), "-n", sys.executable, "-c", text)


def answered(times):
    """How many questions by the loopback are answered."""
    count = 0
    for number in range(times):
        with socket.socket(socket.AF_INET, socket.SOCK_DGRAM) as asker:
            asker.settimeout(WAIT)
            asker.sendto(msite(1000 + number), ("127.0.0.1", PORT))
            with contextlib.suppress(socket.timeout):
                count += asker.recv(512)[2:4] == (1000 + number).to_bytes(2, "big")
    return count


def beside(rate, times):
    """How many questions by the loopback are answered beside a link of this rate, after so many questions by that link."""
    with namespace() as far:
        link(far, rate)
        daemon = subprocess.Popen([sys.argv[1], "serve", f"0.0.0.0:{PORT}", "a", "m", "1000000000"])
        try:
            until = time.monotonic() + 5
            while not answered(1):
                if time.monotonic() > until:
                    sys.exit("stalled: the daemon doesn't answer")
            flood(far, times)
            return answered(ASKED)
        finally:
            daemon.kill()
            daemon.wait()
            # (so that the next link has its name)
            call("ip", "link", "del", "near")


def main():
    print(*(beside(rate, times) for rate, times in LINKS))


if __name__ == "__main__":
    os.environ["LC_ALL"] = "C"
    main()
