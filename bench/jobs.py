"""What the benchmarks in Python have in common: datagrams, and the programs that are measured."""

import pathlib
import random
import struct
import subprocess
import sys

HERE = pathlib.Path(__file__).resolve().parent
LIMIT = 2**31 * 10**6
TIMED = {1, 5, 14, 15, 22, 23}
LETTERS = b"abcdefghijklmnopqrstuvwxyz-.% "


def datagram(number: int, longest: int, chance: random.Random) -> bytes:
    """The octets of a datagram whose type goes by the line's number, with no more fill than it needs."""
    kind = number % 26 + 1
    if kind == 25:
        return b"\x80\x01" + struct.pack(">HQQQ", 0, chance.getrandbits(64), number, 0)
    if kind == 26:
        reading = chance.randrange(1 - LIMIT, LIMIT)
        return b"\x81\x01" + struct.pack(">HQQq", chance.randrange(32768), number, number, reading)
    body = bytes(8)
    if kind in TIMED:
        body = struct.pack(">ii", chance.randrange(-(2**31), 2**31), chance.randrange(10**6))
    if kind == 24:
        body = bytes([chance.randrange(11)]) + bytes(7)
    name = bytes(chance.choice(LETTERS) for _ in range(chance.randrange(longest + 1)))
    return struct.pack(">BBH", kind, 1, number % 65536) + body + name + b"\0"


def program_of(words: list) -> str:
    """The program that the words name, else the one that the launcher builds."""
    if words:
        return words[0]
    ran = subprocess.run([HERE.parent / "tsp", "--path"], stdout=subprocess.PIPE, text=True)
    return ran.stdout.strip() if ran.returncode == 0 else sys.exit(ran.returncode)


def build(name: str, folder: pathlib.Path) -> str:
    """Builds the plain program whose root is this file of `plain/`."""
    subprocess.run(["rustc", "-O", "--edition", "2024", "-o", folder / name, HERE / "plain" / f"{name}.rs"], check=True)
    return str(folder / name)
