"""What every tool does alike: how its words are read, what it says on standard error, and how it ends."""
import argparse
import gc
import os
import signal
import stat
import sys

VERSION = '0.1.4'
# The status for wrong arguments, which all tools have in common.
BAD_WORDS = 2
CUT_OFF = 141
# A line on standard error is no longer than that, whatever it speaks of.
MOST_SAID = 2000


class Fault(Exception):
    """What a tool can't go on with: a line for standard error, and the status that it ends with."""

    def __init__(self, text, status=1):
        super().__init__(text)
        self.text, self.status = text, status


def version():
    """The version of the package that the tools stand in; in a clone that of the program."""
    noted = os.path.join(os.path.dirname(os.path.dirname(os.path.realpath(__file__))), 'version')
    if not os.path.exists(noted):
        return VERSION
    with open(noted, encoding='ascii') as file:
        return file.read().strip()


class Version(argparse.Action):
    """Prints the tool's version, and ends it."""

    def __call__(self, parser, *_):
        # (argparse's own passes over a write that fails)
        sys.stdout.write(f'{parser.prog} {version()}\n')
        parser.exit()


class Words(argparse.ArgumentParser):
    """The words of a tool. Other words are refused in one line, with status 2."""

    def __init__(self, name, **more):
        super().__init__(prog=name, formatter_class=argparse.RawDescriptionHelpFormatter, allow_abbrev=False, **more)
        self.add_argument('--version', action=Version, nargs=0, help='prints the version')

    def read(self):
        """What the words ask for; options may stand between files."""
        return self.parse_intermixed_args()

    def print_help(self, file=None):
        # (argparse's own passes over a write that fails)
        (file or sys.stdout).write(self.format_help())

    def error(self, message):
        raise Fault(f'{message} ({self.prog} --help says which arguments there are)', BAD_WORDS)


def name():
    """The name of the tool that runs."""
    return os.path.basename(sys.argv[0])


def say(text):
    """A line on standard error."""
    try:
        print(f'{name()}: {one_line(text)}', file=sys.stderr, flush=True)
    except OSError:
        pass


def one_line(text):
    """A text in which nothing but letters, signs and spaces is written as it is; of a very long one the beginning."""
    text = text if len(text) <= MOST_SAID else text[:MOST_SAID] + ' ..'
    return text if text.isprintable() else ''.join(sign if sign.isprintable() else ascii(sign)[1:-1] for sign in text)


def open_closed():
    """Standard streams that are closed become ones that can't be read or written, so that no other file gets their numbers."""
    for number, stream, flags in ((0, 'stdin', os.O_WRONLY), (1, 'stdout', os.O_RDONLY), (2, 'stderr', os.O_WRONLY)):
        if getattr(sys, stream) is None:
            opened = os.open(os.devnull, flags)
            if opened != number:
                os.dup2(opened, number)
                os.close(opened)
            setattr(sys, stream, os.fdopen(number, 'w' if number else 'r', closefd=False))
    sys.stdout.reconfigure(errors='surrogateescape')


def run_tool(main, failed=1):
    """Runs a tool. `failed` is its status where a stream or a file fails that it has no other word for."""
    try:
        open_closed()
        if signal.getsignal(signal.SIGINT) is signal.SIG_DFL:
            signal.signal(signal.SIGINT, signal.default_int_handler)
        try:
            main()
        finally:
            sys.stdout.flush()
    except BrokenPipeError:
        end(None, CUT_OFF)
    except Fault as fault:
        end(fault.text, fault.status)
    except OSError as fault:
        end(f'{fault.filename or "standard output"}: {fault.strerror}', failed)
    except KeyboardInterrupt:
        say('interrupted')
        signal.signal(signal.SIGINT, signal.SIG_DFL)
        os.kill(os.getpid(), signal.SIGINT)


def run_short(main, failed=1):
    """The same for a tool that doesn't last: nearly all that it makes is needed until it ends, so nothing is looked through for what isn't."""
    gc.disable()
    run_tool(main, failed)


def end(text, status):
    """Ends with a line on standard error, or none. What standard output couldn't take isn't tried again."""
    if text is not None:
        say(text)
    os.dup2(os.open(os.devnull, os.O_WRONLY), 1)
    sys.exit(status)


def reason(path, fault):
    """What failed with a file, in words."""
    return f'{"standard input" if path == "-" else path}: {fault.strerror}'


def read(path, most, failed=1):
    """The octets of a file, or of standard input where it is `-`: one more than the most that there may be tells that there are more."""
    try:
        with (open(0, 'rb', closefd=False) if path == '-' else open(path, 'rb')) as file:
            return file.read(most + 1)
    except OSError as fault:
        raise Fault(reason(path, fault), failed) from fault


def write(path, octets):
    """Writes a file as a whole or not at all; what is no file, as a device, is written as it is."""
    try:
        # (what /dev/stdout leads to has no path, where that is a pipe)
        if os.path.exists(path) and not stat.S_ISREG(os.stat(path).st_mode):
            with open(path, 'wb') as out:
                out.write(octets)
            return
        replace(os.path.realpath(path), octets)
    except OSError as fault:
        raise Fault(reason(path, fault)) from fault


def replace(path, octets):
    """Puts a new file in the place of the one at a path, or of none."""
    import tempfile
    handle, beside = tempfile.mkstemp(dir=os.path.dirname(path), prefix='.' + os.path.basename(path)[:100])
    try:
        with os.fdopen(handle, 'wb') as out:
            out.write(octets)
        umask = os.umask(0)
        os.umask(umask)
        os.chmod(beside, stat.S_IMODE(os.stat(path).st_mode) if os.path.exists(path) else 0o666 & ~umask)
        os.replace(beside, path)
    except BaseException:
        os.unlink(beside)
        raise
