#!/usr/bin/env python3
"""Tries the forecast of ./tsp on runs that are made up: machines that are slower or faster than docs/GATE.md says, and proofs that take longer or shorter.

Behind the first quarter of a run, what is foretold of the whole is off by less than 0.3 of it in nine of ten runs, and by less than half of it in
all; and percentages never fall.
"""
import os
import random
import sys

sys.dont_write_bytecode = True
ROOT = os.path.dirname(os.path.dirname(os.path.dirname(os.path.realpath(__file__))))
sys.path.insert(0, os.path.join(ROOT, 'tools'))
from tsp_build import crates, forecast  # noqa: E402

RUNS, STEP = 30, 10.0


def faster(chance, jobs):
    """How many times as fast a proof is by so many jobs."""
    return 1.0 if jobs == 1 else jobs * chance.uniform(0.55, 0.9)


def start(chance, takes, lowest, processors):
    """When each of the lowest crates ends: the dearest gets up to four jobs, and the others are proved beside it."""
    first, *others = sorted(lowest, key=lambda name: -takes[name])
    jobs = min(4, processors)
    both = takes[first] / faster(chance, jobs) + sum(takes[name] for name in others) / processors
    return {first: both, **{name: both * chance.uniform(0.4, 1) for name in others}}


def happen(chance, work, below, processors, slower):
    """When each crate begins and ends in a run that takes ready crates mostly in their order, by several jobs if processors are left, and when the
    program is built."""
    takes = {name: work[name] * slower * chance.lognormvariate(0, 0.2) for name in work}
    end = start(chance, takes, [name for name in work if not below[name]], processors)
    begin, now, idle, jobs = dict.fromkeys(end, 0.0), max(end.values()), processors, {}
    while len(end) < len(work) or jobs:
        ready = [name for name in work if name not in end and all(each in end and end[each] <= now for each in below[name])]
        if ready and idle:
            name = ready[0] if chance.random() < 0.7 else chance.choice(ready)
            jobs[name] = max(1, min(4, idle // len(ready)))
            idle -= jobs[name]
            begin[name], end[name] = now, now + takes[name] / faster(chance, jobs[name])
        else:
            soonest = min(jobs, key=end.get)
            now, idle = end[soonest], idle + jobs.pop(soonest)
    return begin, end, max(end.values()) + slower * chance.uniform(15, 40)


def attempt(seed, work, below):
    """The errors behind the first quarter of a run, as parts of the whole; a percentage that falls ends the check."""
    chance = random.Random(seed)
    processors, slower = chance.choice([2, 4, 8]), chance.choice([0.5, 0.8, 1.0, 1.5, 2.5, 4.0])
    begin, end, total = happen(chance, work, below, processors, slower)
    first = max((name for name in work if not below[name]), key=work.get)
    told, errors, last, moment = forecast.Forecast(work, below, processors, first), [], 0, 0.0
    while moment < total:
        told.end([name for name in end if end[name] <= moment], moment, begin)
        percent, left = told.reckon({name: begin[name] for name in begin if begin[name] <= moment < end[name]}, moment)
        if percent < last or percent > 99:
            sys.exit(f'run {seed}: {percent} % after {last} %')
        last = percent
        if moment >= total / 4:
            errors.append(abs(moment + left - total) / total)
        moment += STEP
    return errors


def main():
    below = crates.below(crates.read(ROOT), 'tsp_cli')
    work = crates.seconds(ROOT, below)
    worst = sorted(max(attempt(seed, work, below)) for seed in range(RUNS))
    if worst[RUNS * 9 // 10 - 1] >= 0.3 or worst[-1] >= 0.5:
        sys.exit(f'what is foretold is off by {worst[RUNS * 9 // 10 - 1]:.2f} in nine of ten runs, and by {worst[-1]:.2f} in one')
    print(f'{RUNS} runs: off by {worst[RUNS // 2]:.2f} in the middle, {worst[-1]:.2f} at the most')


main()
