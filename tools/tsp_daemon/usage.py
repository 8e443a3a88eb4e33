"""What the tools for daemons have in common beside what all tools do: their statuses, their words, and the files that they write."""
import argparse

from tsp_texts import tool
from tsp_texts.tool import Fault

# Exit statuses; `tsp` has the one for a failed write too.
WELL, NOT_WELL, BAD_WORDS, NO_PROGRAM, NOT_WRITTEN, BAD_FILE = 0, 1, 2, 3, 4, 78


class Words(tool.Words):
    """The words of a tool, whose help is the tool's own text."""

    def __init__(self, name, text):
        super().__init__(name)
        self.text = text

    def format_help(self):
        return f'{self.text.strip()}\n'


def number(of, low, high, means):
    """A type of argument: a number from `low` to `high`."""
    def read(text):
        try:
            value = of(text)
        except ValueError:
            value = None
        if value is None or not low <= value <= high:
            raise argparse.ArgumentTypeError(f'\'{text}\': {means} from {low} to {high}')
        return value
    return read


def write_whole(path, text):
    """Writes a file by a rename, so that nobody ever reads a part of it."""
    try:
        tool.write(path, text.encode('ascii'))
    except Fault as fault:
        raise Fault(fault.text, NOT_WRITTEN) from fault


def run(main):
    """Runs a tool, whose status is what `main` gives."""
    def ended():
        raise SystemExit(main())
    tool.run_tool(ended, NOT_WRITTEN)
