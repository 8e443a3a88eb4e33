"""The part of docs/ACCURACY.md that dev/accuracy writes: a table of what was measured, and a picture."""
import math
import os
import textwrap

WIDTH, LEFT, TOP, STEP, FOOT = 760, 170, 84, 22, 52
MEASURED, INTERVALS = '## Distances, beside what is promised of them\n', '## The interval that programs read\n'
MARKS, LOWEST, HIGHEST = (0.1, 1, 10, 100), 0.05, 200
# How wide a line of the page is, and how small numbers are written.
COLUMNS = 160
NUMBERS = 'no one two three four five six seven eight nine ten eleven twelve'.split()
TEXT = MEASURED + '''
How far apart corrected clocks were when measured, beside what is promised of them. This command wrote this part and its picture:

```
dev/accuracy --minutes {minutes} --rate {rate} --seed {seed} --jobs {jobs}
```

Each case is a network of daemons in namespaces of one machine, without faults, {time}; {jobs} networks ran side by side. Two hosts of each may be
master. Wall clocks are up to half a second off at first. Each counter is too fast or too slow by up to the drift, in parts in a million, and each datagram is
late by up to the jitter. On top come the time through the kernel and the bridge, and what a daemon waits for a processor of the busy machine: the least error
of a measurement shows both.

All daemons' clocks are made from one clock of the machine, by rates and wall clocks that are known here. Each run was also judged by
{judged}

- **error**: the least error of a measurement, which is half of the shortest round trip.
- **apart**: the greatest distance of two clocks that one round of their master corrected, the master's among them, while nothing else moved them. A
  clock's time here is its target, which questions are told.
- **promised**: how far these two may be apart at that moment, by the promise: the errors of their measurements, and twice the drift since these.
- **most**: the greatest share of the promised distance that any two clocks reached, at any moment.

**learned** are the same networks once more, for as long, whose daemons count with the rates that their traces of the first run gave, as after a restart.
Rates are drawn anew in each case, so rows don't compare: the same drift may be two counters that are far from each other, or two that are close.
**rates** is the greatest difference of two counters, in parts in a million, and **simulated** how far apart nodes' clocks are whose rates are -1, 0 or 1.
`tsp-witness` asks of counters only that they stay within the drift, so it judges the runs with learned rates as it does the others.

The simulations are runs of `tsp-sim` with as many nodes and as much drift. In them a datagram takes the daemons' least error, and up to the jitter besides.
Jitter, errors and distances are milliseconds.

| hosts | drift | jitter | daemons: error | apart | promised | most | learned: error | apart | rates | simulated | simulated: error | apart | promised | most |
|---|---|---|---|---|---|---|---|---|---|---|---|---|---|---|
{rows}

![What was measured and what was promised](accuracy.svg)

{sums}

Without drift, distances come only from how long datagrams take, and from what daemons on a busy machine wait for a processor; simulated nodes don't wait.
With drift, clocks also part from one round to the next; with a drift of 100 this is most of the distance.
'''


def milliseconds(micros):
    return f'{micros / 1000:.3f}' if micros < 10_000 else f'{micros / 1000:.1f}'


def name_of(case):
    """What a case is called."""
    return f'{case["hosts"]} hosts, {case["drift"]} ppm, {case["jitter"] / 1000:g} ms'


def row(case):
    """A case as a line of the table."""
    cells = [str(case['hosts']), str(case['drift']), f'{case["jitter"] / 1000:g}']
    for kind in 'daemons', 'learned', 'simulated':
        told = case[kind]
        if kind == 'learned':
            cells += [milliseconds(told['error']), milliseconds(told['apart']), f'{told["rates"]:.2f}', milliseconds(told['simulated'])] if told else ['-'] * 4
        else:
            cells += [milliseconds(told['error']), milliseconds(told['apart']), milliseconds(told['promised']), f'{told["part"]:.0%}']
    return '| ' + ' | '.join(cells) + ' |'


def ratios(cases):
    """How the distances of daemons compare with those of simulated nodes, drift by drift."""
    for drift in sorted({case['drift'] for case in cases}):
        found = sorted(case['daemons']['apart'] / case['simulated']['apart'] for case in cases if case['drift'] == drift)
        yield f'{found[0]:.1f} to {found[-1]:.1f} with a drift of {drift}'


def sums(cases):
    """What is to be said of all cases together."""
    corrections = {kind: sum(case[kind]['corrections'] for case in cases) for kind in ('daemons', 'simulated')}
    worst = {kind: max(case[kind]['part'] for case in cases) for kind in ('daemons', 'simulated')}
    return (f'In all {len(cases)} cases rounds moved followers {corrections["daemons"]} times among daemons, and {corrections["simulated"]} times in simulations. '
            f'Two\nclocks reached at most {worst["daemons"]:.0%} of the promised distance among daemons, and {worst["simulated"]:.0%} in simulations. '
            f'The distances of daemons, divided\nby those of simulated nodes, are {", ".join(ratios(cases))}.')


def judged(cases):
    """What the witness said of all runs."""
    alike = sum(case['alike'] for case in cases)
    faulty = [name_of(case) for case in cases if case['faults']]
    told = f'{alike} acts are those of the rules'
    if not faulty:
        return f'{told}, and each history holds'
    count = NUMBERS[len(faulty)] if len(faulty) < len(NUMBERS) else len(faulty)
    return f'{told}; in {"this case" if len(faulty) == 1 else f"these {count} cases"} it named a fault: {"; ".join(faulty)}'


def place(millis):
    """Where a number of milliseconds stands, by its logarithm."""
    low, high = math.log10(LOWEST), math.log10(HIGHEST)
    return LEFT + (WIDTH - LEFT - 20) * (math.log10(min(max(millis, LOWEST), HIGHEST)) - low) / (high - low)


def learned_of(case):
    """How far clocks were apart with learned rates; without drift there is nothing to learn."""
    return (case['learned'] or case['daemons'])['apart'] / 1000


def title(cases):
    """What the picture shows, as a sentence."""
    with_rates, without = ([apart(case) for case in cases if case['drift']] for apart in (learned_of, lambda case: case['daemons']['apart'] / 1000))
    return (f'With rates that were learned, the farthest two clocks were {min(with_rates):.1f} to {max(with_rates):.0f} ms apart, '
            f'and without {min(without):.1f} to {max(without):.0f} ms')


def signs():
    """The legend."""
    y = 58
    return [f'<circle cx="18" cy="{y}" r="4" fill="#1b6ca8"/>', f'<text x="28" y="{y + 4}">with learned rates, as daemons count</text>',
            f'<circle cx="264" cy="{y}" r="4.5" fill="none" stroke="#b03060" stroke-width="1.5"/>', f'<text x="276" y="{y + 4}">without them</text>',
            f'<line x1="366" y1="{y}" x2="386" y2="{y}" stroke="#cfe0f2" stroke-width="10"/>', f'<text x="392" y="{y + 4}">promised without them</text>']


def picture(cases):
    """A line for each case: what was promised as a bar, and the distances as a dot and a ring."""
    height = TOP + STEP * len(cases) + FOOT
    out = [f'<svg xmlns="http://www.w3.org/2000/svg" viewBox="0 0 {WIDTH} {height}" font-family="sans-serif" font-size="11">',
           f'<rect width="{WIDTH}" height="{height}" fill="white"/>',
           f'<text x="12" y="22" font-size="13">{title(cases)}</text>',
           '<text x="12" y="40" fill="#555">of each network of daemons, by how far counters drift (in parts in a million) and how late datagrams may be</text>', *signs()]
    for number, case in enumerate(cases):
        y = TOP + STEP * number + 6
        if case['drift'] == 0 and case['jitter'] == cases[0]['jitter'] and number:
            out.append(f'<line x1="12" y1="{y - STEP / 2}" x2="{WIDTH - 20}" y2="{y - STEP / 2}" stroke="#ccc"/>')
        out.append(f'<text x="12" y="{y + 4}">{name_of(case)}</text>')
        out.append(f'<line x1="{LEFT}" y1="{y}" x2="{place(case["daemons"]["promised"] / 1000):.1f}" y2="{y}" stroke="#cfe0f2" stroke-width="10"/>')
    for mark in MARKS:
        out.append(f'<line x1="{place(mark):.1f}" y1="{TOP - 8}" x2="{place(mark):.1f}" y2="{height - FOOT}" stroke="#bbb"/>')
        out.append(f'<text x="{place(mark):.1f}" y="{height - FOOT + 16}" text-anchor="middle">{mark:g} ms</text>')
    for number, case in enumerate(cases):
        y = TOP + STEP * number + 6
        out.append(f'<circle cx="{place(case["daemons"]["apart"] / 1000):.1f}" cy="{y}" r="4.5" fill="none" stroke="#b03060" stroke-width="1.5"/>')
        out.append(f'<circle cx="{place(learned_of(case)):.1f}" cy="{y}" r="4" fill="#1b6ca8"/>')
    out.append(f'<text x="{LEFT}" y="{height - FOOT + 36}" fill="#555">milliseconds on a logarithmic scale: each line is ten times as much as the one left of it</text>')
    return '\n'.join([*out, '</svg>', ''])


def cases_of(path):
    """The cases of a page's table, as far as a picture needs them."""
    with open(path, encoding='utf-8') as file:
        rows = [line.strip('| \n').split(' | ') for line in file if line.count('|') == 16 and line[2].isdigit()]
    cases = []
    for hosts, drift, jitter, _, apart, promised, _, _, learned, *_ in rows:
        case = {'hosts': int(hosts), 'drift': int(drift), 'jitter': float(jitter) * 1000, 'learned': None if learned == '-' else {'apart': float(learned) * 1000}}
        cases.append({**case, 'daemons': {'apart': float(apart) * 1000, 'promised': float(promised) * 1000}})
    return cases


def time_of(given):
    """How long each network ran, and how fast."""
    return f'for {given.minutes} minutes' if given.rate == 1 else f'for {given.minutes} minutes of its own time, which runs {given.rate} times as fast'


def around(path):
    """What stands above and below this part in the page; other measurements wrote it."""
    try:
        with open(path, encoding='utf-8') as file:
            text = file.read()
    except FileNotFoundError:
        text = ''
    above, found, rest = text.partition(MEASURED)
    _, heading, below = rest.partition(INTERVALS)
    return above if found else '# How well it keeps time\n\n', '\n' + heading + below if heading else ''


def draw(folder, cases):
    """Writes the picture."""
    with open(os.path.join(folder, 'accuracy.svg'), 'w', encoding='utf-8') as file:
        file.write(picture(cases))


def write(folder, cases, given):
    """Writes this part of the page, and the picture. What stands around it stays."""
    path = os.path.join(folder, 'ACCURACY.md')
    above, below = around(path)
    known = textwrap.fill(f'`tsp-witness`, which knows neither: {judged(cases)}.', COLUMNS)
    told = {'rows': '\n'.join(map(row, cases)), 'sums': sums(cases), 'judged': known, 'time': time_of(given)}
    with open(path, 'w', encoding='utf-8') as file:
        file.write(above + TEXT.format(minutes=given.minutes, rate=given.rate, seed=given.seed, jobs=given.jobs, **told) + below)
    draw(folder, cases)
