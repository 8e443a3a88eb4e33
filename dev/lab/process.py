"""What a process has taken, as the system tells it."""
import os


def is_told():
    """Whether the system's view of processes is the one to which this process belongs."""
    return os.readlink('/proc/self') == str(os.getpid())


def memory(pid, names=('VmData', 'RssAnon')):
    """How much memory a process has for its data, in KiB: as it asked for it, and as it lies in the machine's memory."""
    with open(f'/proc/{pid}/status', encoding='ascii') as status:
        lines = dict(line.split(':', 1) for line in status)
    return {name: int(lines[name].split()[0]) for name in names}


def spent(pid):
    """The seconds of a processor that a process has taken."""
    with open(f'/proc/{pid}/stat', encoding='ascii') as stat:
        words = stat.read().rpartition(')')[2].split()
    return (int(words[11]) + int(words[12])) / os.sysconf('SC_CLK_TCK')
