"""The parts of a picture that show values: clocks less true time, and followers' clocks less their masters'."""
from tsp_texts import premises
from tsp_texts.history import Tree
from tsp_texts.svg import wide

MILLION = 1_000_000
# Clocks that are all farther from true time, in microseconds, have that in common.
FAR = 1_000_000_000
# So many clocks that don't move are told with their values.
SOME = 8
# The premises that Agreed and Chained ask, as a schedule's text has them.
NEEDED = ('Sealed', 'Prompt')
NODES = ['#1b6ca8', '#b03060', '#2e7d32', '#8e44ad', '#c77700', '#00796b', '#5d4037', '#455a64']


def colour_of(node):
    return NODES[node % len(NODES)]


def common_of(values):
    """What clocks have in common less true time, where that is so much that what they differ by couldn't be seen; else 0."""
    if not values or min(values) * max(values) <= 0 or min(map(abs, values)) < FAR:
        return 0
    return sorted(values)[len(values) // 2]


class Panel:
    """A part between two heights, whose values are drawn over the picture's times."""

    def __init__(self, frame, values, top, bottom):
        self.frame, self.history, self.x, self.drawing = frame, frame.history, frame.x, frame.drawing
        self.y, self.top, self.bottom = frame.scales.values(values, top, bottom), top, bottom

    def axis(self, name):
        """Lines at some values, and what the values are."""
        self.drawing.text(self.frame.left, self.top - 8, name, ' fill="#555"')
        for value in self.y.marks():
            self.drawing.line(self.frame.left, self.y(value), self.frame.right, self.y(value), '#bbb' if value == 0 else '#eee')
            self.drawing.text(self.frame.left - 6, self.y(value) + 4, self.y.label(value), ' text-anchor="end"')

    def points(self, span, value):
        """The points of a value over a span; what lasts goes on as it is at the run's end."""
        found = [(self.x(at), self.y(value(at))) for at in self.x.between(span.begin, span.end)]
        return found + [(self.frame.end(span), found[-1][1])]


class Clocks(Panel):
    """All clocks less true time; dotted what they show while they slew."""

    def __init__(self, frame, top, bottom):
        spans = [span for spans in frame.history.clocks for span in spans]
        values = [span.value.offset(at) for span in spans for at in (span.begin, span.end)] + [span.value.shown(span.begin) for span in spans]
        self.common = common_of(values)
        super().__init__(frame, [value - self.common for value in values], top, bottom)
        # (where no clock moves, a panel would have level lines alone)
        self.moves = any(len({value for span in spans for value in (span.value.offset(span.begin), span.value.offset(span.end), span.value.shown(span.begin))}) > 1
                         for spans in frame.history.clocks)

    def still(self):
        """Clocks that don't move, in words, if they are few."""
        clocks = [(self.history.schedule.nodes[node].name, spans[0].value.offset(spans[0].begin) - self.common) for node, spans in enumerate(self.history.clocks) if spans]
        return ': ' + ', '.join(f'{name} {value:+,} µs' if value else f'{name} 0' for name, value in clocks) if len(clocks) <= SOME else ''

    def draw(self):
        less = f' and less {self.common / MILLION:,.6f} s, which all have in common' if self.common else ''
        if not self.moves:
            self.drawing.text(self.frame.left, self.top - 8, f'clock less true time{less}, the same throughout{self.still()}', ' fill="#555"')
            return
        self.axis(f'clock less true time{less}{self.frame.scales.of_values}')
        for node, spans in enumerate(self.history.clocks):
            points = [point for span in spans for point in self.points(span, lambda at, span=span: span.value.offset(at) - self.common)]
            self.drawing.path(points, f' stroke="{colour_of(node)}" stroke-width="1.6"')
            for span in spans:
                end = min(span.value.met_at(), span.end)
                if span.value.rest and end > span.begin:
                    times = [span.begin + (end - span.begin) * part // 24 for part in range(25)]
                    self.drawing.path([(self.x(at), self.y(span.value.shown(at) - self.common)) for at in times],
                                      f' stroke="{colour_of(node)}" stroke-width="1.2" stroke-dasharray="2 2"')


class Followers(Panel):
    """Followers' clocks less their masters', with what the rounds measured and promise."""

    def __init__(self, frame, top, bottom):
        history = frame.history
        self.lines = {port: history.beside(port) for port in sorted(history.roles)}
        values = [span.value.offset(at) for spans in self.lines.values() for span in spans for at in (span.begin, span.end)]
        values += [value for sample in history.samples for value in self.measured(history, sample)]
        values += [value - group.own for group in history.groups for value in (group.low, group.high)]
        values += [side * bound.width_at(at) for bound in history.bounds for at in (bound.begin, bound.end) for side in (1, -1)]
        super().__init__(frame, values, top, bottom)

    @staticmethod
    def measured(history, sample):
        """What a measured clock was by a sample at its reading, from and to, less the master's clock then."""
        own = history.clock(sample.master, sample.reading_at).offset(sample.reading_at)
        return sample.low - own, sample.high - own

    def draw(self):
        self.axis(f'follower\'s clock less its master\'s{self.frame.scales.of_values}')
        for node in sorted({node for node, _ in self.lines}):
            self.promised(self.y, node)
            self.measurements(self.y, node)
        for port in self.lines:
            self.follower(self.y, port)
        for group in self.history.groups:
            self.group(self.y, group)

    def promised(self, y, node):
        """What each round promises of a follower's clock, as a band about its master's."""
        for bound in self.history.bounds:
            if bound.follower == node:
                times = self.x.between(bound.begin, bound.end)
                upper = [(self.x(at), y(bound.width_at(at))) for at in times]
                upper.append((self.frame.end(bound), upper[-1][1]))
                points = upper + [(x, 2 * y(0) - high) for x, high in reversed(upper)]
                self.drawing.polygon(points, f' fill="{colour_of(node)}" opacity=".13"', f'{self.frame.name(node)}: promised within '
                                     f'{bound.width_at(bound.begin)} to {bound.width_at(bound.end)} µs of its master')

    def follower(self, y, port):
        """A follower's clock; a new line begins where it follows anew."""
        points, last = [], None
        for span in self.lines.get(port, ()):
            if last != span.begin:
                self.drawing.path(points, f' stroke="{colour_of(port[0])}" stroke-width="1.4"')
                points = []
            points += [(self.x(at), y(span.value.offset(at))) for at in self.x.between(span.begin, span.end)]
            points.append((self.frame.end(span), points[-1][1]))
            last = span.end
        self.drawing.path(points, f' stroke="{colour_of(port[0])}" stroke-width="1.4"')

    def measurements(self, y, node):
        """The measurements of a node's clock, each where its reading was."""
        for sample in self.history.samples:
            if sample.peer == node:
                x, (low, high) = self.x(sample.reading_at), (y(value) for value in self.measured(self.history, sample))
                self.drawing.line(x, low, x, high, colour_of(node), ' stroke-width="2" opacity=".7"',
                                  f'{self.frame.name(node)} measured by {self.frame.name(sample.master)}: '
                                  f'{sum(self.measured(self.history, sample)) // 2} give or take {sample.err} µs of its clock')
                for height in (low, high):
                    self.drawing.line(x - 3, height, x + 3, height, colour_of(node))

    def group(self, y, group):
        x, low, high, mean = self.x(group.at), y(group.low - group.own), y(group.high - group.own), y(group.mean - group.own)
        self.drawing.rect(x - 6, high - 2, 8, low - high + 4, ' fill="none" stroke="#000"',
                          f'the group of {self.frame.name(group.master)}: {group.low - group.own} to {group.high - group.own}, mean {group.mean - group.own} µs of its clock')
        self.drawing.line(x - 10, mean, x + 6, mean, '#000')

    def lane(self, port, top, bottom):
        """A port's part alone, in a lane of its own."""
        y = self.y.moved(top, bottom)
        self.drawing.line(self.frame.left, y(0), self.frame.right, y(0), '#ccc')
        self.promised(y, port[0])
        self.follower(y, port)
        self.measurements(y, port[0])
        for group in self.history.groups:
            if group.master == port[0] and group.port == port[1]:
                self.group(y, group)


class Trees(Panel):
    """Clocks less the one at the top of their tree, with what Agreed and Chained promise of that."""

    def __init__(self, frame, top, bottom):
        self.chains = Tree(frame.history.bounds).chains
        values = [side * chain.width_at(at) for chain in self.chains for at in (chain.begin, chain.end) for side in (1, -1)]
        values += [self.beside(frame.history, chain, at) for chain in self.chains for at in (chain.begin, chain.end)]
        super().__init__(frame, values, top, bottom)

    @staticmethod
    def beside(history, chain, at):
        """A chain's last clock less the one at its top."""
        return history.clock(chain.follower, chain.begin).offset(at) - chain.bounds[0].clock.offset(at)

    def broken(self):
        """What of the schedule breaks a premise of these promises, in words."""
        posts = [act.event for act in self.history.acts if act.text.startswith('post ')]
        found = [each for each in premises.of(self.history.schedule, posts) if each.name in NEEDED and each.line]
        return '; nothing is promised: ' + ' and '.join(f'{each.name} fails on line {each.line}' for each in found) if found else ''

    def draw(self):
        if not self.chains:
            self.drawing.text(self.frame.left, self.top - 8, 'no round has corrected a follower, so Agreed and Chained bound no clock', ' fill="#555"')
            return
        self.axis(f'clock less that at the top of its tree, within what Agreed and Chained promise by a drift of {self.history.drift}{self.broken()}')
        for chain in self.chains:
            self.band(chain)
        for chain in self.chains:
            points = [(self.x(at), self.y(self.beside(self.history, chain, at))) for at in self.x.between(chain.begin, chain.end)]
            self.drawing.path(points + [(self.frame.end(chain), points[-1][1])], f' stroke="{colour_of(chain.follower)}" stroke-width="1.4"')

    def band(self, chain):
        """What is promised of a chain's last clock, with its edges."""
        points = [(self.x(at), chain.width_at(at)) for at in self.x.between(chain.begin, chain.end)]
        points.append((self.frame.end(chain), points[-1][1]))
        upper, lower = ([(x, self.y(side * width)) for x, width in points] for side in (1, -1))
        name = 'Chained' if len(chain.bounds) > 1 else 'Agreed'
        self.drawing.polygon(upper + lower[::-1], f' fill="{colour_of(chain.follower)}" opacity=".1"',
                             f'{self.frame.name(chain.follower)}: by {name} within {chain.width_at(chain.begin)} to {chain.width_at(chain.end)} µs '
                             f'of {self.frame.name(chain.bounds[0].master)}')
        for edge in (upper, lower):
            self.drawing.path(edge, f' stroke="{colour_of(chain.follower)}" stroke-width=".7" stroke-dasharray="4 3"')


class Legend:
    """Signs with their meanings, one beside the other."""

    def __init__(self, drawing, left, right, top):
        self.drawing, self.left, self.right, self.x, self.y = drawing, left, right, left, top

    def entry(self, sign, meaning):
        """A sign, drawn at a place, and what it means."""
        if self.x > self.left and self.x + 22 + wide(meaning) > self.right:
            self.x, self.y = self.left, self.y + 17
        sign(self.x, self.y)
        self.drawing.text(self.x + 18, self.y + 4, meaning)
        self.x += 36 + wide(meaning)
