"""How late a daemon looked at its alarms and sends, and how long things took that the laws of progress bound, start by start, as its trace tells it."""
from tsp_daemon import state, trace
from tsp_texts import progress, told


class Starts:
    """The starts that a trace tells of."""

    def __init__(self):
        self.looks, self.begins, self.last = [], True, (0, 0)

    def take(self, line):
        """Takes a line. NoDaemon is raised where it is no daemon's."""
        if told.names_in(line):
            self.begins = True
            return
        act = trace.line_of(line)
        if act is None:
            return
        if act.node:
            raise state.NoDaemon
        here = act.number, act.tick
        if self.begins or here[0] < self.last[0] or here[1] < self.last[1]:
            self.looks.append(progress.Looks())
        self.begins, self.last = False, here
        self.looks[-1].act(*here, act.port, act.text.split(' '))

    def lines(self):
        """What is told of each start."""
        for number, looks in enumerate(self.looks, 1):
            kept, which = looks.finish(), f'start {number}: ' if len(self.looks) > 1 else ''
            for line in [*kept.broke(), *kept.attended(), *kept.answered(), *kept.laws()]:
                yield which + line


def starts_of(pieces, most):
    """The starts of a trace that comes in pieces; none where its first octets, so many at most, have no line of one."""
    starts, lines, octets_read = Starts(), trace.Lines(), 0
    for octets in pieces:
        octets_read += len(octets)
        for line in lines.cut(octets):
            starts.take(line)
        if octets_read > most and not starts.looks:
            break
    for line in lines.last():
        starts.take(line)
    return starts
