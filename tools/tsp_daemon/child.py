"""A program that runs under another one, and doesn't outlive it."""
import ctypes
import os
import signal
import subprocess

# The number by which Linux knows the call of prctl(2) that names a signal for the end of the parent.
WHEN_PARENT_ENDS = 1


def ends_with(parent):
    """What a child does before it begins: it has the system end it where this process, its parent, is killed.

    The system looks at the thread that began the child, so that has to be one that lasts.
    """
    def call():
        ctypes.CDLL(None).prctl(WHEN_PARENT_ENDS, signal.SIGKILL)
        if os.getppid() != parent:
            os.kill(os.getpid(), signal.SIGKILL)
    return call


def begin(command, **streams):
    """Begins a program that is killed where this one is."""
    return subprocess.Popen(command, preexec_fn=ends_with(os.getpid()), **streams)


def end(process, patience):
    """Ends a program: it is told to, and is killed where it hasn't ended after so many seconds, as one that is stopped."""
    for tell in (process.terminate, process.kill):
        tell()
        try:
            return process.wait(patience)
        except subprocess.TimeoutExpired:
            pass
    return None
