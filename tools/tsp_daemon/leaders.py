"""Who leads, as the hosts themselves say."""
from __future__ import annotations


from tsp_daemon import network
from tsp_daemon.hosts import Host
from tsp_daemon.questions import Asker
from tsp_daemon.usage import BAD_FILE, NOT_WELL
from tsp_texts.tool import Fault


def line_of(name, listed: list[Host]) -> Host:
    """A host's first line of the hosts file."""
    for host in listed:
        if host.name == name:
            return host
    raise Fault(f'\'{name}\' is no host of the hosts file', BAD_FILE)


def of_network(asker: Asker, listed: list[Host], number) -> list[Host]:
    """The hosts of a network that say that they lead."""
    hosts = network.first_lines([host for host in listed if host.network == number])
    return [each.host for each in network.ask_masters(asker, hosts) if each.role == 'master']


def leader(asker: Asker, listed: list[Host]) -> Host:
    """The host that leads the first network, whose clock the others follow."""
    found = of_network(asker, listed, 1)
    if not found:
        raise Fault('nobody leads: tsp-status says how the hosts are', NOT_WELL)
    if len(found) > 1:
        raise Fault(f'{" and ".join(host.name for host in found)} lead at one time: tsp-status says how the hosts are', NOT_WELL)
    return found[0]


def leader_over(asker: Asker, listed: list[Host], name, address) -> Host:
    """The host that a host of this address follows, itself or by gateways, or is; where that one doesn't lead, the leader of the first network. The
    name is None where only the address is known."""
    master = asker.master(address)
    if master is None:
        raise Fault(f'{address} doesn\'t answer', NOT_WELL)
    passed = set()
    while master and master not in passed:
        line = line_of(master, listed)
        if master == name or line.address == address:
            return line
        passed.add(master)
        name, address = master, line.address
        master = asker.master(address)
    return leader(asker, listed)
