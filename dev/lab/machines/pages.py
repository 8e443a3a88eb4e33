"""What the pages print, so that it is run as it stands there: the blocks of a section of the operator's guide, and all commands for systemd."""
import glob
import os
import re
import textwrap

HERE = os.path.dirname(os.path.realpath(__file__))
TOP = os.path.dirname(os.path.dirname(os.path.dirname(HERE)))
GUIDE = 'docs/OPERATOR.md'
# The pages that tell an operator to call systemctl or journalctl, and how such a command stands there: words, or one in quotation marks.
COMMANDING = ('README.md', GUIDE, 'man/*', 'daemon/tsp.default', 'daemon/*.service', 'daemon/*.timer', 'examples/*.yml')
COMMAND = re.compile(r'\b(?:systemctl|journalctl)(?: +(?:[\w@+=:/][-\w@.+=:/]*|-[-\w=]+|"[^"\n]*"))+')


def read(page):
    """The text of a page."""
    with open(os.path.join(TOP, page), encoding='utf-8') as file:
        return file.read()


def section(title):
    """The text of a section of the operator's guide, up to the next heading."""
    found = re.search(rf'^#+ {re.escape(title)}\n(.*?)(?=^##|\Z)', read(GUIDE), re.MULTILINE | re.DOTALL)
    return found[1]


def blocks(title):
    """The blocks of a section, in their order."""
    return [textwrap.dedent(block) for block in re.findall(r'^ *```\n(.*?)^ *```$', section(title), re.MULTILINE | re.DOTALL)]


def spans(title):
    """What stands in a section between backticks within a paragraph, in its order; a line's end is a space."""
    text = re.sub(r'^ *```\n.*?^ *```$', '', section(title), flags=re.MULTILINE | re.DOTALL)
    return [' '.join(span.split()) for span in re.findall(r'`([^`]+)`', text)]


def commands():
    """The commands for systemd that stand on the pages: each with the pages that have it."""
    found = {}
    for pattern in COMMANDING:
        for path in sorted(glob.glob(os.path.join(TOP, pattern))):
            page = os.path.relpath(path, TOP)
            for command in COMMAND.findall(read(page)):
                found.setdefault(' '.join(command.split()), set()).add(page)
    return found


def edit(machine, command, lines):
    """Calls `systemctl edit`, as on a terminal, with an editor that writes these lines."""
    machine.write('/srv/edited', lines)
    machine.write('/srv/editor', '#!/bin/sh\ncat /srv/edited >"$1"\n')
    machine.must(f'chmod 755 /srv/editor; SYSTEMD_EDITOR=/srv/editor script -qec "{command}" /dev/null </dev/null', patience=300)
