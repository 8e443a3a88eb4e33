"""The stories of the traces in `witness/`."""
import os

from tsp_witness import journal, network
from tsp_witness.story import Story

GIVEN = os.path.join(os.path.dirname(os.path.realpath(__file__)), 'witness')


def journals_of(name):
    """The network of a folder of traces, each of which begins with its host's name, and its journals."""
    net = network.read(os.path.join(GIVEN, f'{name}.hosts'))
    traces = {}
    for file in sorted(os.listdir(os.path.join(GIVEN, name))):
        traces.setdefault(net.number[file.partition('-')[0]], []).append(os.path.join(GIVEN, name, file))
    return net, {node: journal.read(net, node, paths) for node, paths in traces.items()}


def story_of(name, drift=100):
    """The story of a folder of traces."""
    return Story(*journals_of(name), drift)
