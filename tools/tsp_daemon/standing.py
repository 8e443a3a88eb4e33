"""Whether a host may stand for election, and why it doesn't lead where it was told to."""
from tsp_daemon import network, state, views
from tsp_daemon.questions import Asker

MILLION = 1_000_000
# The protocol's times in seconds: until the first question for a master, from a start or a QUIT to a candidature, and how long a candidate
# is held that was backed.
QUIET, LEAST, HOLD = 80, 300, 60


def by_trace(daemon: state.Daemon):
    """Why a daemon may not stand yet, as its trace tells; None where nothing in it is against that."""
    left = [(LEAST - daemon.tick // MILLION, f'it has been up for {daemon.tick // MILLION} s, and may stand once it is up for {LEAST}')]
    if daemon.quit is not None:
        ago = (daemon.tick - daemon.quit) // MILLION
        left.append((LEAST - ago, f'a QUIT came {ago} s ago, and it may stand {LEAST} s after that'))
    if daemon.backed is not None and daemon.backed[0]:
        number, tick = daemon.backed
        ago = (daemon.tick - tick) // MILLION
        left.append((HOLD - ago, f'it voted for {daemon.name(number)} {ago} s ago, and holds that for {HOLD} s'))
    wait, why = max(left)
    return f'{why}; nobody tells it again, so call again in {views.span(wait * MILLION)}' if wait > 0 else None


def may_be(host, master, answers, count):
    """What may keep a host from leading, as far as answers tell: `master` is whom it names, `answers` of `count` hosts of its network came."""
    reasons = [f'it hasn\'t been up for {LEAST} s, a QUIT came less than {LEAST} s ago, or it voted for another one less than {HOLD} s ago']
    if host.may_be == 'strict' and 2 * answers <= count:
        reasons.insert(0, f'elections are strict, and {answers} of {count} hosts answer, which is no majority')
    if master:
        return f'it still follows {master}, so it didn\'t stand: ' + '; '.join(reasons)
    reasons.append(f'another host voted for another one less than {HOLD} s ago and refused it')
    return '; or '.join(reasons)


class Election:
    """A host that is to lead its first network."""

    def __init__(self, asker: Asker, listed, host):
        self.asker, self.host = asker, host
        self.others = [each for each in network.first_lines([line for line in listed if line.network == host.network]) if each.name != host.name]

    def seen(self):
        """The other hosts, as they answer."""
        return network.ask_masters(self.asker, self.others) if self.others else []

    def other_leader(self):
        """The name of another host that says that it leads, or None."""
        return next((each.host.name for each in self.seen() if each.role == 'master'), None)

    def why_not(self, master):
        """Why the host didn't come to lead, as far as that can be seen from outside: it names this master."""
        seen = self.seen()
        leads = next((each.host.name for each in seen if each.role == 'master'), None)
        if leads:
            return f'{leads} leads, and sends a candidate a QUIT'
        return may_be(self.host, master, 1 + sum(each.reached for each in seen), 1 + len(seen))
