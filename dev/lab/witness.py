"""A lab's traces, judged by tools/tsp-witness."""
import os
import subprocess
import sys

WITNESS = os.path.join(os.path.dirname(os.path.dirname(os.path.dirname(os.path.realpath(__file__)))), 'tools', 'tsp-witness')


def witness(lab, *options):
    """What tsp-witness says of a lab's traces: its status, its lines, and what it says besides."""
    traces = [f'{daemon.name}={path}' for daemon in lab.daemons for path in daemon.trace]
    words = [sys.executable, WITNESS, '--check', '--file', lab.write_hosts(), '--program', lab.program, *options, *traces]
    ran = subprocess.run(words, stdout=subprocess.PIPE, stderr=subprocess.PIPE, check=False)
    said, besides = (text.decode(errors='replace').splitlines() for text in (ran.stdout, ran.stderr))
    return ran.returncode, said, besides
