"""Which lines are a trace of a schedule: what each line has to agree with."""
from tsp_texts import grammar, trace

# A picture of more lines couldn't be read.
MOST_LINES = 500_000


class NotATrace(Exception):
    """The line of a trace, counted from 1, that can't stand there, and why."""

    def __init__(self, line, why):
        super().__init__(f'line {line}: {why}')
        self.line, self.why = line, why


class Claims:
    """Takes the lines of a trace one after the other, and knows what the next one may be."""

    def __init__(self, schedule):
        self.schedule, self.count = schedule, len(schedule.nodes)
        self.line, self.event, self.up, self.posts = 0, 0, set(), []
        self.ports = [len(schedule.ports(node)) for node in range(self.count)]
        self.has_took, self.is_first = False, True
        # (the event of the last line, whose it is, and at which tick of that node)
        self.now, self.actor, self.tick = None, None, 0

    def refuse(self, why):
        raise NotATrace(self.line, why)

    def act(self, text):
        """The act of the next line."""
        self.line += 1
        said = grammar.line_of(text)
        if said is None:
            self.refuse(f'the run was refused: {text}' if text.startswith(('bad ', 'limit ')) else 'it is no line of a trace')
        event, node, port, tick, done = said
        words = done.split(' ')
        if event != self.event:
            self.next_event(event)
        self.stands(node, port, tick, words[0] == 'boot')
        self.names(words)
        return trace.Act(self.line - 1, event, node, port, tick, self.now.at, done)

    def next_event(self, event):
        """Goes on to another event; those before it have all that they need."""
        if not 1 <= event <= len(self.schedule.events):
            self.refuse(f'there is no event {event} in this schedule, which has {len(self.schedule.events)}')
        if event < self.event:
            self.refuse(f'event {event} comes behind event {self.event}')
        self.pass_over(event)
        self.event, self.has_took, self.is_first, self.now = event, False, True, self.schedule.events[event - 1]
        self.actor = self.addressee(event, self.now) if self.now.kind == 'take' else self.now.node
        self.tick = None if self.actor is None else trace.tick_at(self.schedule.nodes[self.actor], self.now.at)

    def pass_over(self, event):
        """Refuses where one of the events before this one lacks a line that it must have."""
        if self.event and self.schedule.events[self.event - 1].kind in ('bytes', 'take') and not self.has_took:
            self.refuse(f'event {self.event} takes a datagram, and no line says so')
        for number, passed in enumerate(self.schedule.events[self.event:event - 1], self.event + 1):
            # (a boot, octets, and a datagram that was sent to a node can't be without lines)
            if passed.kind != 'turn' and (passed.kind != 'take' or self.addressee(number, passed) is not None):
                self.refuse(f'event {number} of this schedule has no line')

    def addressee(self, number, event):
        """The node that a posted datagram was sent to, or None where it went to a stranger."""
        if event.datagram >= len(self.posts):
            self.refuse(f'event {number} of this schedule takes datagram {event.datagram}, which was not posted')
        return self.posts[event.datagram]

    def stands(self, node, port, tick, is_boot):
        """Refuses a line of another node, port or tick than its event's."""
        if node != self.actor:
            self.refuse(f'event {self.event} of this schedule is not of node {node}')
        if tick != self.tick:
            self.refuse(f'event {self.event} of this schedule is not at tick {tick} of node {node}')
        if port >= self.ports[node]:
            self.refuse(f'node {node} has no port {port}')
        if is_boot != (self.is_first and self.now.kind == 'boot'):
            self.refuse('a line for a boot stands where none is' if is_boot else
                        f'event {self.event} of this schedule is a boot, and its first line isn\'t')
        self.is_first = False
        if is_boot:
            self.up.add(node)
        if node not in self.up:
            self.refuse(f'node {node} hasn\'t booted')

    def names(self, words):
        """Refuses a line that names a peer which isn't there, or a datagram out of its order."""
        place = grammar.place_of_peer(words)
        if place is not None and int(words[place]) >= self.count:
            self.refuse(f'there is no node {words[place]}')
        if words[0] == 'took':
            self.has_took = True
        elif words[0] == 'post':
            if int(words[1]) != len(self.posts):
                self.refuse(f'datagram {words[1]} is posted, where number {len(self.posts)} comes next')
            self.posts.append(None if place is None else int(words[place]))

    def end(self):
        """The lines are over: no event may lack one."""
        self.line += 1
        self.pass_over(len(self.schedule.events) + 1)


def acts_of(file, schedule):
    """The acts of an open file, or of a run's output, that is a trace of this schedule."""
    claims, acts = Claims(schedule), []
    for line in iter(lambda: file.readline(grammar.LONGEST + 2), b''):
        text = line[:-1] if line.endswith(b'\n') else line
        if len(acts) == MOST_LINES:
            raise NotATrace(MOST_LINES + 1, f'a trace of more than {MOST_LINES} lines isn\'t drawn')
        acts.append(claims.act(text.decode('ascii', 'replace')))
    claims.end()
    return acts


def read(path, schedule):
    """The acts of the trace of this schedule that a file has."""
    with open(path, 'rb') as file:
        return acts_of(file, schedule)
