"""What dev/network, dev/fuzz, dev/accuracy and dev/fail-alloc have in common: networks of this machine's own, fast time, and memory that is refused."""
import os
import signal
import sys

# Their status where something isn't as it should be, also their words; and the greatest seed.
FAILED, MOST_SEED = 1, 2**64 - 1


def isolate(variable):
    """Goes into namespaces of its own, once, which this variable notes."""
    if variable not in os.environ:
        os.environ[variable] = 'yes'
        os.execvp('unshare', ['unshare', '-r', '-n', '-m', '-p', '-f', '--kill-child', sys.executable, *sys.argv])


def end_cleanly():
    """Lets SIGTERM end a tool as an exit does, so that it ends what it started."""
    signal.signal(signal.SIGTERM, lambda *_: sys.exit(128 + signal.SIGTERM))
