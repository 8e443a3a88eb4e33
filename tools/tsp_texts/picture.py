"""A run as a picture in SVG: the clocks above, and below them a lane for each port with its role and its datagrams."""
from bisect import bisect_left
from datetime import datetime, timedelta, timezone

from tsp_texts.panels import Clocks, Followers, Legend, Trees, colour_of
from tsp_texts.scale import Logarithmic
from tsp_texts.svg import Drawing, wide

ROLES = {'starting': '#c4c4c4', 'loose': '#f2d16b', 'follow': '#6ba6f2', 'candidate': '#f29b4b', 'master': '#d9534f'}
WIDTH, LEFT, RIGHT, TOP, GAP = 1200, 124, 20, 62, 44
CLOCKS, FOLLOWERS, TREES = 190, 190, 190
# Lanes are high where there are few. Where there are more than so many, each has its follower's clock in it.
FEW, HIGH_LANE, LOW_LANE, STRIP = 8, 54, 46, 9
# What lasts beyond the run is drawn so much further than its last event.
BEYOND = 24
LOST = '#c00'
# In a picture of more lines than that, what lies on one pixel is drawn once.
CROWDED = 10_000
EPOCH = datetime(1970, 1, 1, tzinfo=timezone.utc)


def amount_of(micros):
    """By how much a clock was corrected, with its unit."""
    return f'{micros / 1000:+,.1f} ms' if abs(micros) >= 1000 else f'{micros:+} µs'


class Picture:
    """The picture of a history. With `bounds` it has a part for what the promises bound."""

    def __init__(self, history, title, bounds=False, strangers=True, scales=Logarithmic):
        self.scales, self.history, self.title, self.is_crowded = scales, history, title, len(history.acts) > CROWDED
        self.drawing = Drawing(self.is_crowded)
        self.events = [event for event in history.schedule.events if strangers or event.kind != 'bytes' or event.peer is not None]
        self.left, self.right, self.is_linear = LEFT, WIDTH - RIGHT, scales is not Logarithmic
        self.ports = sorted(history.roles) or [(node, 0) for node in range(len(history.schedule.nodes))]
        self.place = {port: place for place, port in enumerate(self.ports)}
        self.has_few = len(self.ports) <= FEW
        self.lane_height = HIGH_LANE if self.has_few else LOW_LANE
        slews = [span.value.met_at() for spans in history.clocks for span in spans if span.value.rest]
        times = [event.at for event in self.events] + [at for at in slews if at < history.last]
        self.x = scales.times(times, LEFT, WIDTH - RIGHT - BEYOND)
        self.clocks = Clocks(self, TOP, TOP + CLOCKS)
        # (a witnessed network's true time begins anywhere: times are told from its first second on)
        self.origin = times[0] // 1_000_000 * 1_000_000 if times and self.clocks.common else 0
        below = TOP + (CLOCKS + GAP if self.clocks.moves else GAP / 2)
        self.followers = Followers(self, below, below + FOLLOWERS)
        self.follows = any(self.followers.lines.values())
        below += FOLLOWERS + GAP if self.follows and self.has_few else 0
        self.trees = Trees(self, below, below + TREES) if bounds else None
        self.legend_top = below - 12 + (0 if self.trees is None else TREES + GAP if self.trees.chains else GAP / 2)

    def name(self, node):
        return f'{node} {self.history.schedule.nodes[node].name}'

    def end(self, span):
        """Where something ends."""
        return self.x(span.end) + (BEYOND if span.lasts else 0)

    def lane(self, node, port=0):
        """The middle of a port's role."""
        place = self.place.get((node, port), self.place.get((node, 0), 0))
        return self.lanes + self.lane_height * place + (HIGH_LANE / 2 if self.has_few else STRIP / 2)

    def there(self, post):
        """The lane of the port that a post goes to."""
        schedule = self.history.schedule
        net = schedule.ports(post.act.node)[post.act.port]
        return self.lane(post.to, schedule.port_on(post.to, net) or 0)

    def has_lane(self, node):
        return (node, 0) in self.place

    def times(self):
        """Times, as many as there is room for, and what they are."""
        bottom = self.height - 40
        free = LEFT - 40.0
        for at, label in self.marks():
            x = self.x(at)
            half = wide(label) / 2 + 4
            if free <= x - half and x + half <= WIDTH:
                free = x + half
                self.behind.line(x, TOP, x, bottom, '#eee')
                self.drawing.text(x, bottom + 14, label, ' text-anchor="middle"')
        told = (f'true time, in {self.x.name}{self.since()}' if self.is_linear else
                f'true time of events, in seconds{self.since()}; a gap between two is drawn as long as its logarithm, so time isn\'t even')
        self.drawing.text(LEFT, bottom + 30, told, ' fill="#555"')

    def marks(self):
        """The times that may be marked, each with its label: rounded ones on a linear scale, and else those of events."""
        if self.is_linear:
            yield from self.x.marks()
            return
        events = [event.at for event in self.events]
        # (of events that stand nearer than a tenth of a pixel, the first is looked at)
        for at in self.x.between(events[0], events[-1], .1) if events else ():
            if events[bisect_left(events, at)] == at:
                yield at, f'{(at - self.origin) / 1e6:.6f}'.rstrip('0').rstrip('.')

    def since(self):
        """When the time 0 of the picture was by the clocks, where they are all far from true time."""
        if not self.clocks.common:
            return ''
        try:
            return f' since {EPOCH + timedelta(microseconds=self.clocks.common + self.origin):%Y-%m-%d %H:%M:%S} UTC'
        except OverflowError:
            return ''

    def roles(self):
        half = 9 if self.has_few else STRIP / 2
        for (node, port), spans in sorted(self.history.roles.items()):
            for span in spans:
                of = f' {self.name(span.value.master)}' if span.value.master is not None else ''
                self.drawing.rect(self.x(span.begin), self.lane(node, port) - half, max(1, self.end(span) - self.x(span.begin)), 2 * half,
                                  f' fill="{ROLES[span.value.name]}" opacity=".85"', f'{self.name(node)} {span.value.name}{of}, {span.begin} to {span.end}')
            if not self.has_few and self.follows:
                top = self.lane(node, port) + STRIP / 2 + 3
                self.followers.lane((node, port), top, top + LOW_LANE - STRIP - 10)
        for node, port in self.ports:
            name = self.history.schedule.nodes[node].name
            label = f'{node} {name if len(name) <= 12 else name[:10] + ".."}' + (f'/{port}' if port else '')
            self.drawing.text(8, self.lane(node, port) + 4, label, f' fill="{colour_of(node)}"')

    def datagrams(self):
        """A line from each post to each of its takes, and a red stump where it was never taken."""
        thin = ' stroke-width=".7"' if self.has_few else ' stroke-width=".6" opacity=".4"'
        for number, post in self.history.posts.items():
            if post.to is None or not self.has_lane(post.act.node):
                continue
            x, y = self.x(post.act.at), self.lane(post.act.node, post.act.port)
            title = f'{number} {post.message[0]}, {post.act.node} to {post.to}'
            for at in self.history.takes.get(number, []) if self.has_lane(post.to) else []:
                self.drawing.line(x, y, self.x(at), self.there(post), '#333', thin, title)
            if number not in self.history.takes or not self.has_lane(post.to):
                self.lost(x, y, post, f'{title}: never taken')
        above = 10 if self.has_few else 5
        self.drawing.triangles([(self.x(event.at), self.lane(event.node, event.port) - above) for event in self.events
                                if event.kind == 'bytes' and self.has_lane(event.node)], 'octets from outside')

    def lost(self, x, y, post, title):
        down = post.to > post.act.node if not self.has_lane(post.to) else self.there(post) > y
        there = y + (1 if down else -1) * (HIGH_LANE * .3 if self.has_few else LOW_LANE * .2)
        self.drawing.line(x, y, x + 3, there, LOST, ' stroke-dasharray="2 2" stroke-width=".7"')
        self.drawing.cross(x + 3, there, LOST, title)

    def moves(self):
        """The corrections, on the lane of the port that took them."""
        free = {}
        for act in self.history.corrections:
            x, y, (_, amount, way, _) = self.x(act.at), self.lane(act.node, act.port), act.words
            self.correction(x, y, way == 'step', f'{way} {amount} µs')
            words = amount_of(int(amount)) if self.is_linear else f'{int(amount):+,}'
            side = x > WIDTH - RIGHT - wide(words)
            begins = x - 5 - wide(words) if side else x + 5
            if self.has_few and free.get(y, 0) <= begins:
                self.drawing.text(x - 5 if side else x + 5, y - 12, words, ' text-anchor="end"' if side else '')
                free[y] = begins + wide(words)

    def correction(self, x, y, is_step, title=None):
        self.drawing.circle(x, y, 4 if self.has_few else 3, f' fill="{"#000" if is_step else "#fff"}" stroke="#000"', title)

    def found(self):
        """The signs that this picture has, of those for roles, corrections and datagrams."""
        history = self.history
        found = {span.value.name for spans in history.roles.values() for span in spans} | {act.words[2] for act in history.corrections}
        for number, post in history.posts.items():
            if post.to is not None and self.has_lane(post.act.node):
                found.add('datagram, taken' if number in history.takes and self.has_lane(post.to) else 'never taken')
        if any(event.kind == 'bytes' and self.has_lane(event.node) for event in self.events):
            found.add('octets from outside')
        return found

    def signs(self):
        """What the signs of this picture mean."""
        draw, legend = self.drawing, Legend(self.drawing, LEFT, WIDTH - RIGHT, self.legend_top)
        found = self.found()
        for role, colour in ROLES.items():
            if role in found:
                legend.entry(lambda x, y, colour=colour: draw.rect(x, y - 6, 12, 12, f' fill="{colour}"'), role)
        for name, sign in (('step', lambda x, y: self.correction(x + 6, y, True)), ('slew', lambda x, y: self.correction(x + 6, y, False)),
                           ('datagram, taken', lambda x, y: draw.line(x + 2, y + 6, x + 10, y - 6, '#333')), ('never taken', lambda x, y: draw.cross(x + 6, y, LOST)),
                           ('octets from outside', lambda x, y: draw.triangle(x + 6, y + 3))):
            if name in found:
                legend.entry(sign, name)
        if any(span.value.rest for spans in self.history.clocks for span in spans):
            legend.entry(lambda x, y: draw.line(x, y, x + 14, y, '#333', ' stroke-dasharray="2 2"'), 'what a clock shows while it slews')
        if self.history.samples or self.history.groups:
            legend.entry(lambda x, y: draw.line(x + 6, y - 6, x + 6, y + 6, '#333', ' stroke-width="2"'), 'measurement, with its error')
            legend.entry(lambda x, y: draw.rect(x + 2, y - 6, 8, 12, ' fill="none" stroke="#000"'), 'group of a round, and its mean')
            legend.entry(lambda x, y: draw.rect(x, y - 6, 14, 12, ' fill="#1b6ca8" opacity=".25"'), 'what the round promises of the follower\'s clock')
        if self.trees and self.trees.chains:
            legend.entry(lambda x, y: draw.rect(x, y - 6, 14, 12, ' fill="#1b6ca8" fill-opacity=".2" stroke="#1b6ca8" stroke-dasharray="4 3"'),
                         'what is promised of a clock by one round (Agreed) or by several, one below the other (Chained)')
        if self.follows and not self.has_few:
            low, high = self.followers.y.ends()
            legend.entry(lambda x, y: draw.line(x, y, x + 14, y, '#333'), f'in each lane: its clock less its master\'s, from -{low:,} to +{high:,} µs')
        self.lanes = legend.y + (24 if self.has_few else 30)
        self.height = self.lanes + self.lane_height * len(self.ports) + 50

    def svg(self):
        self.drawing.text(LEFT, 24, self.title, ' font-size="14"')
        self.signs()
        self.behind, front = Drawing(), self.drawing
        self.times()
        front.out = self.behind.out + front.out
        self.clocks.draw()
        if self.follows and self.has_few:
            self.followers.draw()
        if self.trees:
            self.trees.draw()
        for part in (self.roles, self.datagrams, self.moves):
            part()
        return front.whole(WIDTH, self.height)
