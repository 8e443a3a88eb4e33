#!/usr/bin/env python3
"""Hands octets of every sort to a node in each role, as from a stranger, from itself and from a forged peer, and compares the acts
with a table that was worked out by hand from the rules.

usage: hostile.py PROGRAM

Octets that spell no datagram, and whatever comes from the node itself, are noted and do nothing more.
"""
import struct
import subprocess
import sys

KINDS = (
    "adjtime ack masterreq masterack settime masterup slaveup election accept refuse conflict resolve quit date datereq dateack "
    "traceon traceoff msite msitereq test setdate setdatereq loop"
).split()
NUMBER = 7  # also the node's word, so that its first correction has this number

# What brings node 0 into a role, and the time of the octets that come then.
BOOT = "at 0 boot 0 7"
LOOSE = [BOOT, "at 80000000 turn 0"]
CANDIDATE = LOOSE + ["at 85000000 turn 0", "at 385000007 turn 0"]
ROLES = {
    "starting": ([BOOT], 1000),
    "loose": (LOOSE, 80000001),
    "follow 1": (LOOSE + ["at 80000001 bytes 0 1 0601000000000000000000006200"], 80000002),
    "candidate": (CANDIDATE, 385000008),
    "master": (CANDIDATE + ["at 390000007 turn 0"], 390000008),
}
SCHEDULE = "tsp-schedule 1\ndrift 0\nnode a 0 0 m\nnode b 0 0 m\nnode c 0 0 m\n"

# The acts after the Took, a word each, of a datagram from a stranger; then those that a peer's has besides or in their place.
ANYBODY = {
    "starting": {"msite": "post", "traceon": "trace post", "traceoff": "trace post", "request": "post"},
    "loose": {"msite": "post", "traceon": "trace post", "traceoff": "trace post", "request": "post", "test": "post"},
}
ANYBODY["candidate"] = ANYBODY["loose"]
ANYBODY["follow 1"] = {**ANYBODY["loose"], "date": "post post", "setdate": "post post"}
ANYBODY["master"] = {
    **ANYBODY["loose"], "msitereq": "post", "date": "correct post post post", "setdate": "correct post post post"
}
FOLLOW = "become arm post"
QUIT = "quit post " + FOLLOW
PEERS = {
    "starting": {},
    "loose": {"masterup": FOLLOW, "masterack": FOLLOW, "election": "back arm post", "quit": QUIT},
    "follow 1": {
        "masterup": "arm post", "election": "back arm post", "adjtime": "correct arm post", "settime": "correct arm post",
        "quit": "quit post",
    },
    "candidate": {"masterup": FOLLOW, "masterack": FOLLOW, "election": "post", "quit": QUIT},
    "master": {
        "masterreq": "post", "resolve": "post", "slaveup": "join post", "election": "post", "masterup": "arm post post",
        "conflict": "post arm post post", "quit": QUIT, "datereq": "correct post post post", "setdatereq": "correct post post post",
    },
}


def message(kind, name=b"x\0", body=bytes(8), version=1):
    return struct.pack(">BBH", kind, version, NUMBER) + body + name


def stamp(first, ticket=0, reading=0, more=b""):
    return bytes([first, 1]) + struct.pack(">HQQq", ticket, 1, 2, reading) + more


GOOD = {word: message(number + 1) for number, word in enumerate(KINDS)}
GOOD["request"] = stamp(0x80)
GOOD["reply"] = stamp(0x81)
FAULTS = {
    "short": bytes([1, 1]),
    "long": message(1, b"x" + bytes(256)),
    "version": message(1, version=2),
    "kind": message(25),
    "stamp-length": stamp(0x80, more=b"\0"),
    "no-end": message(1, b"x"),
    "name-too-long": message(1, b"x" * 256),
    "reserved": stamp(0x80, ticket=1),
    "time": message(1, body=struct.pack(">ii", 0, 1000000)),
}


def acts(program, role, octets, sender):
    """The acts of node 0 in a role that is handed octets as from a sender."""
    before, at = ROLES[role]
    events = before + [f"at {at} bytes 0 {sender} {octets.hex()}"]
    schedule = SCHEDULE + "\n".join(events) + "\nend\n"
    run = subprocess.run([program, "replay"], input=schedule.encode(), stdout=subprocess.PIPE, check=False)
    if run.returncode != 0:
        sys.exit(f"hostile: {octets.hex()} from {sender} at {role} ends with status {run.returncode}")
    lines = [line.split(" ", 4) for line in run.stdout.decode().splitlines()]
    became = [line[4] for line in lines if line[4].startswith("become ") and line[0] != str(len(events))]
    if became[-1] != f"become {role}":
        sys.exit(f"hostile: the node is to be {role} and has {became[-1]}")
    return [line[4] for line in lines if line[0] == str(len(events))]


def check(program, role, word, octets, sender, wanted):
    """Compares the acts with a Took that begins so, and the words of what follows it."""
    found = acts(program, role, octets, sender)
    first = f"took {sender} {word}"
    words = " ".join(act.split()[0] for act in found[1:])
    if not (found and found[0].startswith(first) and words == wanted):
        sys.exit(f"hostile: {word} from {sender} at {role} gives '{'; '.join(found)}', not {first} .. and '{wanted}'")


def main():
    program = sys.argv[1]
    count = 0
    for role in ROLES:
        for sender in "-", "0", "1":
            for word, octets in FAULTS.items():
                check(program, role, f"refused {word}", octets, sender, "")
                count += 1
            for word, octets in GOOD.items():
                wanted = "" if sender == "0" else ANYBODY[role].get(word, "")
                if sender == "1":
                    wanted = PEERS[role].get(word, wanted)
                check(program, role, word, octets, sender, wanted)
                count += 1
    print(f"hostile: {count} datagrams, as from a stranger, from itself and from a forged peer, in {len(ROLES)} roles")


if __name__ == "__main__":
    main()
