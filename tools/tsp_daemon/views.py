"""How a daemon's state is shown: in words, as a screen, and as metrics."""
from datetime import datetime, timedelta, timezone

from tsp_daemon import metrics, state
from tsp_daemon.network import milliseconds, parts, signed

EPOCH = datetime(1970, 1, 1, tzinfo=timezone.utc)
ROLES = {
    '': 'not known yet', 'starting': 'silent after its start', 'loose': 'without a master', 'candidate': 'stands for election', 'master': 'leads',
}
ALARMS = {
    'quiet': 'its silence ends', 'search': 'its search for a master ends', 'elect': 'election', 'window': 'its election ends',
    'resolve': 'rivals are told to give way', 'round': 'round',
}
# What a host does when the time until its election is over, by what the hosts file lets it be; and where that isn't known.
AT_ELECTION = {'master': 'stands for election', 'strict': 'stands for election', 'slave': 'searches for a master'}
EITHER = 'stands, or searches for a master,'
# Values that are printed with their sign.
SIGNED = ('offset_us', 'mean_us', 'amount_us')
WAYS = {'slew': 'slewed', 'step': 'stepped'}

# A change in words.
TEXTS = {
    'start': 'the daemon of {name} starts',
    'role': '{role}',
    'next': '{alarm} in {in_us}',
    'join': '{peer} is a slave',
    'leave': '{peer} is no slave any more',
    'sample': '{peer} is {offset_us} ms ahead, give or take {error_us}',
    'rate': '{peer} is {rate_ppm} parts in a million fast, give or take {error_ppm}',
    'round': 'a round ends: {clocks} clocks agree within {width_us} ms, and their mean is {mean_us}',
    'correction': 'the clock is corrected by {amount_us} ms, {way}, and shows {shown_us}',
    'abandon': 'a round is given up',
    'rival': '{peer} leads too',
    'quit': '{peer} tells it to give way',
    'gave': '{peer} doesn\'t acknowledge',
    'late': 'late for {alarm}',
    'learned': 'the counter needs {learned_ppb} parts in a million, give or take {error_ppb}, and has {applied_ppb}',
    'trace': 'the trace is {trace}',
}


def span(microseconds):
    """A time that passes, as hours, minutes and seconds."""
    seconds = max(round(microseconds), 0) // 1_000_000
    hours, minutes, seconds = seconds // 3600, seconds // 60 % 60, seconds % 60
    return f'{hours}:{minutes:02}:{seconds:02}' if hours else f'{minutes}:{seconds:02}'


def time_text(microseconds):
    """Microseconds since 1970 as a time, in UTC; as a number, where no calendar has it."""
    try:
        return (EPOCH + timedelta(microseconds=microseconds)).strftime('%Y-%m-%d %H:%M:%S.%f')[:-3] + ' UTC'
    except OverflowError:
        return f'{microseconds} us'


def role_text(role, master):
    """A role in words."""
    return f'follows {master}' if role == 'follow' else ROLES[role]


def value_text(name, value):
    """A value of a change in words."""
    if name == 'in_us':
        return span(value)
    if name == 'shown_us':
        return time_text(value)
    if name in SIGNED:
        return signed(value)
    if name.endswith('_ppb'):
        return learned_text(value, name != 'error_ppb')
    if name.endswith('_ppm'):
        return f'{value:+.1f}' if name == 'rate_ppm' else f'{value:.1f}'
    return milliseconds(value) if name.endswith('_us') else WAYS.get(value, ALARMS.get(value, value))


def change_text(change):
    """A line for a change: the seconds since the daemon's start, the port where it isn't the first, and what changed."""
    if change.kind == 'role':
        text = role_text(change.values['role'], change.values['master'])
    else:
        text = TEXTS[change.kind].format(**{name: value_text(name, value) for name, value in change.values.items() if not isinstance(value, list)})
    where = f'port {change.port}: ' if change.port else ''
    return f'{change.tick / 1e6:.3f} {where}{text}'


def change_object(change):
    """A change as an object of JSON."""
    return {'tick_us': change.tick, 'port': change.port, 'change': change.kind, **change.values}


def port_texts(daemon):
    """Each port of a daemon with its role in words; the number is left out where there is one port."""
    for number, port in sorted(daemon.ports.items()):
        where = f'port {number} ' if len(daemon.ports) > 1 else ''
        yield where, port, role_text(port.role, daemon.master_name(port))


def summary(daemon):
    """The roles in one line."""
    if not daemon.is_traced:
        return 'its trace is off, so its role is not known'
    return ', '.join(f'{where}{text}' for where, port, text in port_texts(daemon) if port.role) or 'its role is not known yet'


def next_text(port, now, master, may_be):
    """What a port does next, and when. A host that may not lead doesn't stand; one that follows does neither while its master is heard."""
    alarm = min((alarm for alarm in port.alarms if alarm in ALARMS), key=port.alarms.get, default=None)
    if alarm is None:
        return 'not known yet'
    left = span(port.alarms[alarm] - now)
    if alarm != 'elect':
        return f'{ALARMS[alarm]} in {left}'
    return f'{AT_ELECTION.get(may_be, EITHER)} in {left}' + (f' if {master} is silent' if port.role == 'follow' else '')


def correction_text(daemon, now):
    """The last correction, and how long ago it was."""
    last = daemon.correction
    if last is None:
        return 'none seen'
    return f'{signed(last.amount)} ms {WAYS[last.way]}, {span(now - last.tick)} ago, to {time_text(last.shown)}'


def late_text(daemon, now):
    """What the daemon was late with."""
    if daemon.late is None:
        return 'never'
    alarm, tick = daemon.late
    return f'{daemon.counts.late} times, the last time {span(now - tick)} ago ({ALARMS.get(alarm, alarm)})'


def peer_rows(daemon, now):
    """A row for each peer: its name, whether it is a slave, its last measurement and how long ago that was, its rate, and the last correction
    that it was sent and how long ago that was."""
    yield ['PEER', 'SLAVE', 'OFFSET ms', 'ERROR ms', 'AGO', 'RATE ppm', '+/-', 'CORRECTED', 'AGO']
    for number, peer in sorted(daemon.peers.items()):
        sample, told, rate = peer.sample, peer.told, peer.finder.rate
        measured = [signed(sample.offset), milliseconds(sample.error), span(now - sample.tick)] if sample else ['-', '-', '-']
        corrected = [corrected_text(told), span(now - told.tick)] if told else ['-', '-']
        yield [daemon.name(number), 'yes' if peer.is_slave else 'no', *measured, *(parts(rate) if rate else ['-', '-']), *corrected]


def corrected_text(told):
    """A correction that was sent to a slave, in milliseconds; `set` where that is a time."""
    return 'set' if told.way == 'step' else signed(told.amount)


def rate_text(rate):
    """This host's own rate, as the corrections that it took say."""
    return f'{rate.value:+.1f} parts in a million, by its corrections of the last {span(rate.seconds * 1e6)}'


def learned_text(rate, is_signed=True):
    """A rate in parts in 10^9, in parts in a million."""
    return f'{rate / 1000:{"+" if is_signed else ""}.3f}'


def counter_text(learning):
    """What the counter has, and what it needs."""
    found = learning.found
    needs = f'needs {learned_text(found.rate)}, give or take {learned_text(found.error, False)}' if found else 'nothing is kept for the next start yet'
    return f'has {learned_text(learning.applied)} parts in a million, and {needs}'


def screen(daemon, now, may_be=None):
    """The lines of a screen: the state as it is at this tick; where that is None, as it was at the last line. The hosts file may say what it may be."""
    at_last, now = ', at its last line' if now is None else '', daemon.tick if now is None else now
    lines = [f'{daemon.own_name or "a daemon"}, {span(now)} after its start{at_last}' + ('' if daemon.is_traced else '; its trace is off')]
    for where, port, role in port_texts(daemon):
        lines += [f'{where}role'.ljust(12) + f' {role}', f'{where}next'.ljust(12) + f' {next_text(port, now, daemon.master_name(port), may_be)}']
        if port.rivals:
            lines.append(f'{where}rivals'.ljust(12) + ' ' + ', '.join(map(daemon.name, port.rivals)))
    lines += ['correction   ' + correction_text(daemon, now), 'late         ' + late_text(daemon, now)]
    if daemon.finder.rate:
        lines.append('rate         ' + rate_text(daemon.finder.rate))
    if daemon.learning.found or daemon.learning.applied:
        lines.append('counter      ' + counter_text(daemon.learning))
    rows = list(peer_rows(daemon, now))
    widths = [max(map(len, column)) for column in zip(*rows)]
    if len(rows) > 1:
        lines += ['', *(aligned(row, widths) for row in rows)]
    return lines


def aligned(row, widths):
    """A row of the peers' table: words begin below each other, and numbers end so."""
    return '  '.join(text.ljust(width) if place < 2 else text.rjust(width) for place, (text, width) in enumerate(zip(row, widths)))


def role_metrics(daemon):
    """Metrics of the daemon's ports."""
    role = metrics.Metric('tsp_daemon_role', 'Whether the daemon has this role.')
    slaves = metrics.Metric('tsp_daemon_slaves', 'How many slaves the daemon leads.')
    rivals = metrics.Metric('tsp_daemon_rivals', 'How many other masters the daemon has heard of.')
    due = metrics.Metric('tsp_daemon_due_seconds', 'When the daemon\'s next round or election is due, in seconds since its start.')
    for number, port in sorted(daemon.ports.items()):
        for name in state.ROLES:
            role.add(int(port.role == name), port=number, role=name)
        slaves.add(sum(peer.is_slave for peer in daemon.peers.values() if peer.port == number), port=number)
        rivals.add(len(port.rivals), port=number)
        for alarm in ('round', 'elect'):
            if alarm in port.alarms:
                due.add(metrics.seconds(port.alarms[alarm]), port=number, alarm=alarm)
    return [role, slaves, rivals, due]


def learning_metrics(learning):
    """Metrics of the counter's rate."""
    applied = metrics.Metric('tsp_daemon_counter_applied_ppm', 'By how many parts in a million the daemon counts faster than the machine.')
    learned = metrics.Metric('tsp_daemon_counter_learned_ppm', 'By how many parts in a million it would have to, by what is learned of its corrections.')
    error = metrics.Metric('tsp_daemon_counter_error_ppm', 'How far that may be wrong.')
    applied.add(learned_text(learning.applied, False))
    if learning.found:
        learned.add(learned_text(learning.found.rate, False))
        error.add(learned_text(learning.found.error, False))
    return [applied, learned, error]


def prometheus(daemon):
    """The state as text for node_exporter."""
    tick = metrics.Metric('tsp_daemon_tick_seconds', 'Seconds from the daemon\'s start to the last line of its trace.')
    tick.add(metrics.seconds(daemon.tick))
    offset = metrics.Metric('tsp_daemon_peer_offset_seconds', 'How far the peer was ahead of the daemon when it was last measured.')
    error = metrics.Metric('tsp_daemon_peer_error_seconds', 'How far that may be wrong.')
    for number, peer in sorted(daemon.peers.items()):
        if peer.sample:
            offset.add(metrics.seconds(peer.sample.offset), peer=daemon.label(number))
            error.add(metrics.seconds(peer.sample.error), peer=daemon.label(number))
    rate = metrics.Metric('tsp_daemon_peer_rate_ppm', 'By how many parts in a million the peer\'s clock is fast against the daemon\'s.')
    wrong = metrics.Metric('tsp_daemon_peer_rate_error_ppm', 'How far that may be wrong.')
    sent = metrics.Metric('tsp_daemon_peer_correction_seconds', 'The last correction that the peer was sent.')
    for number, peer in sorted(daemon.peers.items()):
        if peer.finder.rate:
            rate.add(round(peer.finder.rate.value, 3), peer=daemon.label(number))
            wrong.add(round(peer.finder.rate.error, 3), peer=daemon.label(number))
        if peer.told and peer.told.way == 'slew':
            sent.add(metrics.seconds(peer.told.amount), peer=daemon.label(number))
    own = metrics.Metric('tsp_daemon_rate_ppm', 'By how many parts in a million the daemon\'s clock is fast, as the corrections that it took say.')
    if daemon.finder.rate:
        own.add(round(daemon.finder.rate.value, 3))
    amount = metrics.Metric('tsp_daemon_correction_seconds', 'The last correction.')
    shown = metrics.Metric('tsp_daemon_correction_time_seconds', 'The corrected time right after the last correction, since 1970.')
    if daemon.correction:
        amount.add(metrics.seconds(daemon.correction.amount))
        shown.add(metrics.seconds(daemon.correction.shown))
    counts = []
    for name, text, value in (('corrections', 'Corrections.', daemon.counts.corrections), ('late', 'Alarms that were looked at too late.', daemon.counts.late),
                              ('unanswered', 'Sends that no peer acknowledged.', daemon.counts.unanswered)):
        counts.append(metrics.Metric(f'tsp_daemon_{name}_total', text, 'counter'))
        counts[-1].add(value)
    return metrics.text_of([tick, *role_metrics(daemon), offset, error, rate, wrong, sent, own, *learning_metrics(daemon.learning), amount, shown, *counts])
