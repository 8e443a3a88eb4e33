"""Text for Prometheus, as the textfile collector of node_exporter reads it."""


def seconds(microseconds):
    """Microseconds as seconds, exactly."""
    whole, rest = divmod(abs(microseconds), 1_000_000)
    return f'{"-" if microseconds < 0 else ""}{whole}.{rest:06}'


def signed(microseconds):
    """An offset in seconds with its sign, exactly."""
    return ('' if microseconds < 0 else '+') + seconds(microseconds)


def quoted(text):
    """A label's value."""
    return '"' + text.replace('\\', '\\\\').replace('"', '\\"').replace('\n', '\\n') + '"'


class Metric:
    """A metric: its name, what it tells, and its values by their labels."""

    def __init__(self, name, text, kind='gauge'):
        self.name, self.text, self.kind, self.values = name, text, kind, []

    def add(self, value, **labels):
        """One value more."""
        self.values.append((labels, value))

    def lines(self):
        """Its lines: none where it has no value."""
        if self.values:
            yield f'# HELP {self.name} {self.text}'
            yield f'# TYPE {self.name} {self.kind}'
        for labels, value in self.values:
            words = ','.join(f'{name}={quoted(str(text))}' for name, text in labels.items())
            yield f'{self.name}{"{" + words + "}" if words else ""} {value}'


def text_of(metrics):
    """The text of all these metrics."""
    return ''.join(f'{line}\n' for metric in metrics for line in metric.lines())
