"""The commands of tools/prove."""
import fcntl
import os
import shutil
import signal
import subprocess
import sys
import time

from tsp_build import attempt, crates
from tsp_build.forecast import Forecast
from tsp_build.progress import Progress, be_silent, in_words, put, say
from tsp_build.proofs import Runs
from tsp_build.stamp import Stamp

HERE = os.path.dirname(os.path.dirname(os.path.dirname(os.path.realpath(__file__))))
NOT_BUILT, NO_RT = 126, 127
ENDING = (signal.SIGINT, signal.SIGTERM, signal.SIGHUP)
SEEN = 'from nothing the proof took 12 to 43 minutes on the machines that were seen, 36 to 75 of one processor, and up to 58 beside other work'


class Stopped(BaseException):
    """A signal ends the build."""

    def __init__(self, number):
        super().__init__()
        self.number = number


def stop(number, _):
    """Ends the build. (a further signal doesn't keep it from ending what it began)"""
    for each in ENDING:
        signal.signal(each, signal.SIG_IGN)
    raise Stopped(number)


def need_rt():
    if shutil.which('rt'):
        return True
    say('there is no `rt` among the programs of PATH')
    say('rt is the command of the Rattle kit, which proves and builds this program.')
    say("README.md, under 'Run it', says which kit; add its folder bin to PATH.")
    return False


def prove(name, below, stamp):
    """Proves and builds a program, and says whether that went well."""
    sources, listing = stamp.sources(), stamp.listing()
    seconds = crates.seconds(HERE, below)
    # `rt` proves a crate by several processors only if no other crate is ready, so the dearest of the lowest is proved by a call of its own
    first, *beside = sorted((each for each in below if not below[each]), key=lambda each: -seconds[each])
    progress = Progress(Forecast(seconds, below, len(os.sched_getaffinity(0)), first), len(below))
    say(f'{SEEN}; `./tsp --try ARGUMENTS` runs in 1 to 7 minutes, unproved')
    say(f'proving and building {len(below)} crates, which is done once; what was proved on this machine already is kept')
    say(f'this machine, idle, should take about {int(progress.forecast.expected() // 60) + 1} min')
    runs = Runs(HERE)
    try:
        for step in ([('first', [first])] + [('beside', beside)] * bool(beside), [('whole', list(below))]):
            for tree, names in step:
                runs.begin(tree, names)
            while runs.ended() is None:
                progress.look(runs)
                time.sleep(0.5)
            if not runs.ended():
                progress.clear()
                put(runs.complaints())
                say(f"{name} isn't proved and built")
                return False
        put_program(runs, name, stamp)
        stamp.put(sources, listing)
    finally:
        runs.stop()
        progress.clear()
    say(f'proved and built in {in_words(progress.spent())}')
    return True


def put_program(runs, name, stamp):
    made = os.path.join(runs.work, 'whole', 'crates', name, 'out', name)
    os.makedirs(os.path.dirname(stamp.program), exist_ok=True)
    shutil.copy2(made, stamp.program + '.new')
    os.replace(stamp.program + '.new', stamp.program)


def make_fresh(name, below):
    """Proves and builds the program if it isn't that of the sources: one call at a time."""
    stamp = Stamp(HERE, name, below)
    if stamp.is_fresh():
        return 0
    if not need_rt():
        return NO_RT
    os.makedirs(os.path.join(HERE, 'out'), exist_ok=True)
    with open(os.path.join(HERE, 'out', 'tsp.lock'), 'w', encoding='utf-8') as lock:
        try:
            fcntl.flock(lock, fcntl.LOCK_EX | fcntl.LOCK_NB)
        except BlockingIOError:
            say('another call is building; waiting for it')
            fcntl.flock(lock, fcntl.LOCK_EX)
        return 0 if stamp.is_fresh() or prove(name, below, stamp) else NOT_BUILT


def take_built(stamp):
    """Takes the program that lies there for one of these sources."""
    if not os.access(stamp.program, os.X_OK):
        say(f'there is no program at {stamp.program}')
        return NOT_BUILT
    stamp.put(stamp.sources(), stamp.listing())
    return 0


def try_out(words, stamp):
    """Runs the program unproved; or as `./tsp` does, if it is proved and built."""
    if words != ['--path'] and stamp.is_fresh():
        say('this run is proved: the program is built from these sources already, so --try changes nothing')
        os.execv(os.path.join(HERE, 'tsp'), [os.path.join(HERE, 'tsp'), *words])
    return attempt.run(HERE, words) if need_rt() else NO_RT


def act(words):
    name = words[1] if words[:1] == ['--path'] and len(words) == 2 else 'tsp_cli'
    below = crates.below(crates.read(HERE), name)
    if words[:1] == ['--try']:
        return try_out(words[1:], Stamp(HERE, name, below))
    if not below or not crates.is_program(HERE, name):
        say(f'crates.txt has no program {name}')
        return NOT_BUILT
    if words == ['--built']:
        return take_built(Stamp(HERE, name, below))
    status = make_fresh(name, below)
    if status == 0 and words[:1] == ['--then']:
        os.environ['TSP_PROVED'] = str(os.getpid())
        os.execvp(words[1], words[1:])
    if status == 0 and words:
        print(crates.program_of(HERE, name))
    return status


def reason(fault):
    """What failed, and with which file. (a folder that can't be copied has a list of files, each with its names and what failed)"""
    if isinstance(fault, shutil.Error) and isinstance(fault.args[0], list):
        return fault.args[0][0][2]
    return f'{fault.strerror}: {fault.filename}' if fault.filename else fault.strerror


def main(words):
    if sys.stderr is None:
        be_silent()
    for number in ENDING:
        # (a signal that is ignored stays ignored, as under nohup)
        if signal.getsignal(number) is not signal.SIG_IGN:
            signal.signal(number, stop)
    try:
        return act(words)
    except Stopped as stopped:
        return 128 + stopped.number
    except OSError as fault:
        say(f"the program can't be built: {reason(fault)}")
        return NOT_BUILT
    except subprocess.CalledProcessError as fault:
        say(f"the program can't be built: {fault.cmd[0]} ends with status {fault.returncode}")
        return NOT_BUILT
