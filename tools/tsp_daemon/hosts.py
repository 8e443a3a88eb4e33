"""The hosts of a network, as tsp-launch reads them off the hosts file."""
from __future__ import annotations

import os
import subprocess
from collections import namedtuple

from tsp_daemon.usage import BAD_FILE, NO_PROGRAM
from tsp_texts.tool import Fault

LAUNCH = os.path.join(os.path.dirname(os.path.dirname(os.path.realpath(__file__))), 'tsp-launch')


class Host(namedtuple('Host', 'network name address may_be')):
    """A line of the hosts file: `may_be` is `master`, `slave` or `strict`."""
    __slots__ = ()


def launched(file, *words) -> str:
    """What tsp-launch prints for these words. Its line on standard error, where the file is faulty, becomes a fault."""
    command = [LAUNCH, *words] + ([] if file is None else ['--file', file])
    try:
        ran = subprocess.run(command, stdout=subprocess.PIPE, stderr=subprocess.PIPE, check=False)
    except OSError as fault:
        raise Fault(f'{LAUNCH}: {fault.strerror}', NO_PROGRAM) from fault
    if ran.returncode:
        told = ran.stderr.decode('ascii', 'replace').strip().splitlines() or [f'it ends with status {ran.returncode}']
        # (other tools have no --self)
        text = told[-1].replace('by --self or TSP_SELF', 'by TSP_SELF')
        raise Fault(text[len('tsp-launch: '):] if text.startswith('tsp-launch: ') else f'tsp-launch: {text}', BAD_FILE)
    return ran.stdout.decode('ascii')


def listed(file) -> list[Host]:
    """The lines of the hosts file; a gateway has one in each of its networks."""
    hosts = []
    for line in launched(file, '--list').splitlines():
        network, name, address, may_be = line.split(' ')
        hosts.append(Host(int(network), name, address, may_be))
    return hosts


def may_be_of(name, file) -> str | None:
    """What a host may be by the first line of a hosts file that has its name; None where nothing says that. No address is looked up for it."""
    try:
        with open(file, encoding='ascii', errors='replace') as text:
            lines = [line.partition('#')[0].split() for line in text]
    except OSError:
        return None
    return next((words[2] for words in lines if len(words) == 3 and words[0] == name), None)


def asked_at(local) -> str:
    """Where this machine asks a daemon that listens at an address: over the loopback, where that is all addresses."""
    host, port = local.split(':')
    return f'127.0.0.1:{port}' if host == '0.0.0.0' else local


def pair_of(address):
    """An address A.B.C.D:PORT as Python has it."""
    host, port = address.split(':')
    return host, int(port)


def own(file) -> tuple[str, str]:
    """The name of this machine's own daemon, and the address at which it is asked."""
    words = launched(file, '--print').split()
    return words[2], asked_at(words[1])
