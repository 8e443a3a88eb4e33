"""Tries what tsp-now tells of a page beside what is reckoned here of the page's numbers: `tracking.py PATH COUNT`, for so many random pages.

Time passes between the page and the tool, so each value is reckoned before and after it, and has to lie between the two.
"""
import json
import os
import random
import re
import subprocess
import sys
import time

HERE = os.path.dirname(os.path.realpath(__file__))
sys.dont_write_bytecode = True
sys.path[:0] = os.path.dirname(HERE), HERE
import made_page  # noqa: E402
from tsp_clock import FOLLOWS, LEADS, MONOTONIC, NEVER, NOBODY, RAW, Daemon, Look, Page  # noqa: E402

DRAW = random.Random(7)
# The wall clock may be slewed meanwhile, and is read at another moment than the counter: by so many microseconds.
SLACK = 3000


def wanted(is_so, text):
    """Ends where something isn't so."""
    if not is_so:
        sys.exit(f'tracking: {text}')


def page(role, has_look, is_old, looked_at=3):
    """A random page of a daemon that runs, and may follow peer 3; `looked_at` is the number of the host that was looked at."""
    counter = DRAW.choice([RAW, MONOTONIC])
    tick = DRAW.randint(10 ** 9, 10 ** 12)
    corrected = tick - DRAW.randint(0, 10 ** 8)
    wall = time.time_ns() // 1000
    daemon = Daemon(DRAW.getrandbits(64), counter, time.clock_gettime_ns(counter), tick, DRAW.randint(-10 ** 5, 10 ** 5), corrected,
                    wall - (tick - corrected) + DRAW.randint(-10 ** 9, 10 ** 9), DRAW.randint(-10 ** 6, 10 ** 6), NEVER, DRAW.randint(-10 ** 7, 10 ** 7),
                    DRAW.randint(0, 9), role, 3 if role == FOLLOWS else 0, tick)
    low = DRAW.randint(-10 ** 4, 10 ** 4)
    age = DRAW.randint(0, 5 * 10 ** 7) + is_old * 10 ** 8
    look = Look(daemon.life, daemon.moved - DRAW.randint(-500, 500), tick - age, low, low + DRAW.randint(0, 10 ** 4), looked_at,
                DRAW.randint(0, 500), 1, DRAW.randint(-10 ** 5, 10 ** 5), b'alpha')
    return Page(daemon, look if has_look else Look())


def rounded_up(drift, passed):
    """By how much a counter may be wrong."""
    return -(-drift * passed // 10 ** 6) + 1


def reckoned(daemon, look):
    """What is so of a page now, by its numbers alone."""
    passed = (time.clock_gettime_ns(daemon.counter) - daemon.origin) // 1000
    tick = daemon.origin_tick + passed + passed * daemon.rate // 10 ** 9
    target = daemon.target + tick - daemon.tick
    left = max(abs(daemon.rest) - (tick - daemon.tick) // 200, 0) * (1 if daemon.rest > 0 else -1)
    found = {'life_us': tick, 'shown_us': target - left, 'to_slew_us': left, 'correction_age_us': tick - daemon.tick,
             'own_offset_us': time.time_ns() // 1000 - (target - left)}
    low = high = None
    if daemon.role == LEADS:
        found['look_age_us'], low, high = 0, left, left
    elif look.had:
        age = tick - look.looked
        own = rounded_up(look.drift, age)
        apart = 2 * rounded_up(look.drift, age + (2 * own if age > 10 ** 8 else own))
        back = daemon.moved - look.moved
        found['look_age_us'], low, high = age, look.low - back - apart + left, look.high - back + apart + left
    if low is not None:
        found.update(width_us=high - low, master_offset_us=low + (high - low) // 2, master_error_us=high - low - (high - low) // 2, error_us=max(high, -low))
    return found


def ran(*words):
    """What tsp-now says, and its status."""
    done = subprocess.run([os.path.join(HERE, '..', 'tsp-now'), *words], stdout=subprocess.PIPE, stderr=subprocess.PIPE, check=False)
    wanted(not done.stderr, f'{words} tells {done.stderr}')
    return done.stdout.decode('ascii'), done.returncode


def beside(name, value, before, after):
    """Compares a value in microseconds with what was reckoned before and after it."""
    if name not in before:
        wanted(value is None, f'{name} is {value}, and nothing is known of it')
        return
    slack = SLACK if name == 'own_offset_us' else 0
    low, high = sorted((before[name], after[name]))
    wanted(value is not None and low - slack <= value <= high + slack, f'{name} is {value}, and by the page from {low} to {high}')


def exact(made):
    """What doesn't change while a page is read."""
    daemon, look = made
    is_followed = daemon.role == FOLLOWS and look.had and look.master == daemon.master
    is_young = daemon.origin_tick - look.looked < 64_000_000
    status = 'synchronised' if daemon.role == LEADS or is_followed and is_young else 'holding' if look.had else 'waiting'
    is_own = daemon.role == LEADS and look.had and look.master == 0
    return {'status': status, 'master': 'alpha' if is_followed or is_own else None, 'steps': daemon.steps,
            'role': {NOBODY: 'nobody', FOLLOWS: 'follows', LEADS: 'leads'}[daemon.role], 'moved_us': daemon.moved,
            'rate_ppb': daemon.rate, 'learned_ppb': look.learned if look.had else None, 'drift_ppm': look.drift if look.had else None,
            'life': f'{daemon.life:016x}', 'counter': 'raw' if daemon.counter == RAW else 'monotonic'}


TIMES = ['life_us', 'shown_us', 'to_slew_us', 'correction_age_us', 'own_offset_us', 'look_age_us', 'width_us', 'master_offset_us', 'master_error_us']
# The names of values in words, and the words in them that aren't numbers.
WORDS = {'Life': 'life_us', 'Still to slew': 'to_slew_us', 'Last correction': 'correction_age_us', 'Own clock': 'own_offset_us', 'Last look': 'look_age_us',
         'Interval': 'width_us', 'Master\'s clock': 'master_offset_us'}


def number(text):
    """The first number of a text of seconds, in microseconds, less than nothing where something is behind; None where there is none."""
    found = re.search(r'([+-]?)(\d+)\.(\d{6})', text)
    if not found:
        return None
    value = int(found[2] + found[3])
    return -value if found[1] == '-' or ' behind ' in text else value


def try_words(made, before):
    """The lines of --tracking."""
    text, status = ran('--tracking', '-u')
    after = reckoned(*made)
    rows = dict(line.split(': ', 1) for line in text.splitlines())
    wanted({len(line.partition(':')[0]) for line in text.splitlines()} == {16}, f'the lines aren\'t aligned: {text}')
    rows = {name.rstrip(): value for name, value in rows.items()}
    for name, key in WORDS.items():
        known = {} if key == 'look_age_us' and made.daemon.role == LEADS else before
        beside(key, number(rows[name]), known, after)
    wanted(status == (0 if 'width_us' in before else 5), f'status {status} with {text}')
    daemon, look = made
    wanted(rows['Status'] == exact(made)['status'], f'the status is {rows["Status"]}')
    wanted(rows['Rate'].startswith(f'{daemon.rate / 1000:+.3f} parts in a million'), f'the rate is {rows["Rate"]}')
    learned = f'{look.learned / 1000:+.3f} parts in a million' if look.had else 'none yet'
    wanted(rows['Learned rate'] == learned, f'the learned rate is {rows["Learned rate"]}')
    wanted(rows['Steps'] == f'{daemon.steps} in this life', f'the steps are {rows["Steps"]}')
    leads = {LEADS: 'this host', FOLLOWS: 'peer 3, whose clock isn\'t looked at yet', NOBODY: 'nobody; alpha was the last one' if look.had else 'nobody'}
    if exact(made)['master']:
        leads = {LEADS: 'this host, alpha', FOLLOWS: 'alpha'}
    wanted(rows['Who leads'] == leads[daemon.role], f'{rows["Who leads"]} leads')
    wanted(rows['Counter'].startswith('CLOCK_MONOTONIC_RAW,' if daemon.counter == RAW else 'CLOCK_MONOTONIC,'), f'the counter is {rows["Counter"]}')


def try_json(made, before):
    """The object of JSON."""
    text, _ = ran('--tracking', '--json')
    after = reckoned(*made)
    told = json.loads(text)
    for name in TIMES:
        beside(name, told[name], before, after)
    for name, value in exact(made).items():
        wanted(told[name] == value, f'{name} is {told[name]}, and not {value}')
    if told['width_us'] is not None:
        middle, error = told['shown_us'] + told['master_offset_us'], told['master_error_us']
        wanted(told['latest_us'] - told['earliest_us'] == told['width_us'], 'the width isn\'t that of the interval')
        wanted(middle - error <= told['earliest_us'] <= middle - error + 1 and told['latest_us'] == middle + error, 'the interval isn\'t around its middle')


def try_metrics(made, before):
    """The metrics."""
    text, status = ran('--prometheus')
    after = reckoned(*made)
    wanted(status == 0, f'the metrics end with status {status}')
    found = dict(line.rsplit(' ', 1) for line in text.splitlines() if not line.startswith('#'))
    if 'width_us' not in before:
        # (nothing is known of the network's time, so nothing is off it)
        del before['own_offset_us']
    for name, key in (('life', 'life_us'), ('to_slew', 'to_slew_us'), ('correction_age', 'correction_age_us'), ('own_offset', 'own_offset_us'),
                      ('look_age', 'look_age_us'), ('width', 'width_us'), ('master_offset', 'master_offset_us'), ('error', 'error_us')):
        beside(key, number(found.get(f'tsp_clock_{name}_seconds', '')), before, after)
    known = exact(made)
    for label, values in (('status', ['stale', 'waiting', 'synchronised', 'holding']), ('role', ['nobody', 'follows', 'leads'])):
        for value in values:
            wanted(found[f'tsp_clock_{label}{{{label}="{value}"}}'] == str(int(known[label] == value)), f'{label} {value} is wrong')
    wanted(found['tsp_clock_rate_ppm'] == f'{made.daemon.rate / 1000:.3f}', f'the rate is {found["tsp_clock_rate_ppm"]}')
    wanted(found.get('tsp_clock_learned_rate_ppm') == (f'{made.look.learned / 1000:.3f}' if made.look.had else None), 'the learned rate is wrong')
    wanted(found['tsp_clock_steps_total'] == str(made.daemon.steps), 'the steps are wrong')
    wanted(found['tsp_clock_raw'] == str(int(made.daemon.counter == RAW)), 'the counter is wrong')


def try_offset(made, before):
    """The offset alone, which has the other sign."""
    text, status = ran('--offset')
    beside('own_offset_us', -number(text), before, reckoned(*made))
    is_known = 'width_us' in before
    wanted(status == (0 if is_known else 5) and text.endswith(' unsynchronised\n') != is_known, f'status {status} with {text}')


def main(path, count):
    """Tries pages of each role, with a look and without, of now and of long ago."""
    os.environ['TSP_CLOCK'] = path
    cases = [(role, has_look, is_old) for role in (NOBODY, FOLLOWS, LEADS) for has_look in (True, False) for is_old in (False, True)]
    cases += [(FOLLOWS, True, False, 4), (LEADS, True, False, 0)]
    for place in range(int(count)):
        made = page(*cases[place % len(cases)])
        made_page.write(path, made)
        for tried in (try_words, try_json, try_metrics, try_offset):
            tried(made, reckoned(*made))
    print(f'tracking: {count} pages')


main(*sys.argv[1:])
