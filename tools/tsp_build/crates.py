"""The crates of the repository: what stands on what, which files belong to each, and what its proof takes."""
import os

PARTS = ('src', 'specs', 'proofs')
# What is copied of a crate besides, since its program is run when it is proved.
BESIDE = ('args', 'data', 'status', 'stdin', 'stdout')
# How long a proof takes of which docs/GATE.md says nothing, by its lines.
SECONDS_A_LINE = 0.031


def read(here):
    """Each crate of crates.txt with all that it lists."""
    found = {}
    with open(os.path.join(here, 'crates.txt'), encoding='utf-8') as lines:
        for line in lines:
            head, colon, names = line.split('#')[0].partition(':')
            if colon and head.split():
                found[head.split()[0]] = names.split()
    return found


def below(crates, top):
    """The crates that this one stands on, the lowest first and itself last, each with those of the repository that it lists."""
    order = {}

    def visit(name):
        if name in order:
            return
        order[name] = []
        listed = [each for each in crates[name] if each in crates]
        for each in listed:
            visit(each)
        del order[name]
        order[name] = listed

    if top in crates:
        visit(top)
    return order


def is_program(here, name):
    return os.path.isfile(os.path.join(here, 'crates', name, 'src', 'main.rt'))


def program_of(here, name):
    return os.path.join(here, 'crates', name, 'out', name)


def folders(here, names, parts=PARTS):
    """The folders of these crates that a proof reads, relative to the repository."""
    paths = [f'crates/{name}/{part}' for name in names for part in parts]
    return [path for path in paths if os.path.isdir(os.path.join(here, path))]


def files(here, paths):
    """The files below these folders, in the order of their names."""
    found = []
    for path in paths:
        for place, _, names in os.walk(os.path.join(here, path)):
            found += [os.path.relpath(os.path.join(place, each), here) for each in names]
    return sorted(found)


def seconds(here, names):
    """The seconds of a processor that each proof takes, as docs/GATE.md has them, or else by the crate's lines."""
    table = {}
    try:
        with open(os.path.join(here, 'docs', 'GATE.md'), encoding='utf-8') as lines:
            for line in lines:
                cells = [each.strip('` \n') for each in line.split('|')]
                if len(cells) > 4 and cells[2].isdigit() and int(cells[2]) > 0:
                    table[cells[1]] = float(cells[2])
    except OSError:
        pass
    return {name: table.get(name) or SECONDS_A_LINE * lines_of(here, name) for name in names}


def lines_of(here, name):
    count = 0
    for path in files(here, folders(here, [name])):
        with open(os.path.join(here, path), 'rb') as text:
            count += text.read().count(b'\n')
    return max(count, 1)
