"""What the trace of the daemon that leads tells of the hosts: their rates and their last corrections."""
from __future__ import annotations

import os
import subprocess
from collections import namedtuple

from tsp_daemon import kept, state, trace
from tsp_daemon.rates import Rate
from tsp_daemon.usage import NO_PROGRAM
from tsp_texts import tool
from tsp_texts.tool import Fault

# The journal's last lines, or as many octets of files: some hours of a master's.
JOURNAL, LAST = [*kept.JOURNAL, '-n', '20000'], 2**20
# How many seconds the journal is waited for, and how many octets of a trace are read.
PATIENCE, MOST = 5, 64 * 2**20


class Traced(namedtuple('Traced', 'rate amount way')):
    """A host's rate against the master, and its last correction in microseconds; `way` is `slew` or `step`."""
    __slots__ = ()


def daemon_of_file(path) -> state.Daemon:
    """The daemon whose trace a file has, or standard input where it is `-`."""
    octets = tool.read(path, MOST, NO_PROGRAM)
    if len(octets) > MOST:
        raise Fault(f'{path}: it has more than {MOST >> 20} MiB', NO_PROGRAM)
    daemon = daemon_of_octets(octets)
    if daemon is None:
        raise Fault(f'{path}: it isn\'t a daemon\'s trace', NO_PROGRAM)
    return daemon


def daemon_of_unit(own, say=None) -> state.Daemon | None:
    """The daemon of this machine's unit by its trace, if it has this name; None if there is none to be read, and `say` is told why if that is known."""
    try:
        octets = kept.last_octets(LAST)
        octets, why = octets_of_journal() if octets is None else (octets, '')
    except Fault as fault:
        octets, why = b'', fault.text
    daemon = daemon_of_octets(octets)
    if say and why and daemon is None:
        say(f'no rates are shown: {why}')
    return daemon if daemon and daemon.own_name == own else None


def octets_of_journal():
    """The last lines of the journal, and what journalctl says of them."""
    try:
        ran = subprocess.run(JOURNAL, stdin=subprocess.DEVNULL, stdout=subprocess.PIPE, stderr=subprocess.PIPE, timeout=PATIENCE, check=False)
    except (OSError, subprocess.TimeoutExpired):
        return b'', ''
    told = ran.stderr.decode('utf-8', 'replace').splitlines()
    return ran.stdout, f'journalctl gives no trace: {told[0]}' if told else ''


def daemon_of_octets(octets) -> state.Daemon | None:
    """The daemon whose trace this is; None where it is none."""
    daemon, lines = state.Daemon(), trace.Lines()
    try:
        for line in [*lines.cut(octets), *lines.last()]:
            daemon.take(line)
    except state.NoDaemon:
        return None
    return daemon if daemon.counts.lines else None


def told_by(daemon) -> dict[str, Traced]:
    """What a daemon's trace told, by the names of hosts: of its slaves where it leads, and of itself. Nothing, where there is no daemon."""
    found = {}
    if daemon is None:
        return found
    for number, peer in daemon.peers.items():
        if peer.told or peer.finder.rate:
            told = peer.told
            found[daemon.name(number)] = Traced(peer.finder.rate, told.amount if told and told.way == 'slew' else None, told.way if told else '')
    if daemon.correction:
        found[daemon.own_name] = Traced(daemon.finder.rate, daemon.correction.amount, daemon.correction.way)
    return found


def is_leaders(daemon, leaders):
    """Whether a trace is that of one of these hosts, or of a gateway, which leads another network by it."""
    leads = [number for number, port in daemon.ports.items() if port.role == 'master']
    return any(leads) or (daemon.own_name in leaders if daemon.own_name else bool(leads))


def own_of(names):
    """Which of these names is this machine's, as tsp-launch finds it under the unit; None where none is."""
    own = kept.variable('TSP_SELF') or os.uname().nodename
    return next((name for name in (own, own.partition('.')[0]) if name in names), None)
