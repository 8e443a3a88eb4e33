"""Libraries that are loaded before a program's own: as they are installed, or as a clone makes them of their sources."""
import os
import subprocess

from tsp_texts.tool import Fault

INSTALLED, SOURCES = '/usr/lib/tsp', os.path.dirname(os.path.dirname(os.path.realpath(__file__)))


def made(name, folder, status):
    """The path of a library, which is made in this folder if it isn't installed; a tool without a cc for that ends with this status."""
    source = os.path.join(SOURCES, f'{name}.c')
    if not os.path.exists(source):
        return os.path.join(INSTALLED, f'{name}.so')
    path = os.path.join(folder, f'{name}.so')
    try:
        subprocess.run(['cc', '-O2', '-shared', '-fPIC', '-I', SOURCES, '-o', path, source], check=True)
    except (OSError, subprocess.CalledProcessError) as fault:
        raise Fault(f'there is no cc that works, by which a clone makes {name}.so', status) from fault
    return path


def fast(library, begun, rate, wall, **more):
    """The environment of a program with fast time, which began at this reading of the monotonic clock, in nanoseconds, and runs at this
    rate; the wall clock showed `wall` then, in microseconds since 1970. `more` are other settings of tsp_fast.c, by their names."""
    settings = {f'FAST_{name.upper()}': str(value) for name, value in more.items() if value is not None}
    return {**os.environ, 'LD_PRELOAD': library, 'FAST_FROM': str(begun), 'FAST_RATE': str(rate), 'FAST_WALL': str(wall * 1000), **settings}
