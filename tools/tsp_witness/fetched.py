"""Traces that are fetched: this machine's own from where it is kept, and those of other hosts over ssh, by `tsp-watch --lines` there."""
import os
import shlex
import subprocess
from concurrent.futures import ThreadPoolExecutor

from tsp_daemon import kept, traced
from tsp_texts import tool
from tsp_witness import Unusable

# How another host is reached, where nobody says that, and how many at one time.
SSH, AT_ONCE = 'ssh -o BatchMode=yes', 16


def own_lines(since, path):
    """Writes this machine's trace into a file."""
    with open(path, 'wb') as file:
        for piece in kept.kept(kept.moment(since)):
            file.write(piece)


def others_lines(name, since, path, ssh):
    """Writes another host's trace into a file."""
    words = [*shlex.split(ssh), name, 'tsp-watch', '--lines', '--since', shlex.quote(since)]
    try:
        with open(path, 'wb') as file:
            ran = subprocess.run(words, stdin=subprocess.DEVNULL, stdout=file, stderr=subprocess.PIPE, check=False)
    except OSError as fault:
        raise Unusable(f'{words[0]}: {fault.strerror}') from fault
    if ran.returncode:
        told = ran.stderr.decode('utf-8', 'replace').strip().splitlines()
        raise Unusable(f'{name}: its trace can\'t be fetched: {told[-1] if told else f"{words[0]} ends with status {ran.returncode}"}')


def fetch(names, since, folder, ssh):
    """Fetches traces of hosts into a folder: their paths by name. Unusable is raised, with a line for each host whose trace can't be had."""
    own, faults, found = traced.own_of(names), [], {name: os.path.join(folder, name) for name in names}

    def one(name):
        try:
            if name == own:
                own_lines(since, found[name])
            else:
                others_lines(name, since, found[name], ssh)
        except (Unusable, tool.Fault) as fault:
            faults.append(fault.text if isinstance(fault, tool.Fault) else str(fault))
    with ThreadPoolExecutor(AT_ONCE) as pool:
        list(pool.map(one, names))
    if faults:
        raise Unusable('; '.join(sorted(faults)))
    return found
