"""The program that makes a trace of a schedule: where it is, and how it is run."""
import os

from tsp_texts.tool import Fault, reason, run_tool  # noqa: F401  (tools take run_tool from here as well)


def home():
    """The folder of the repository that these tools stand in, or None where they are installed."""
    above = os.path.dirname(os.path.dirname(os.path.dirname(os.path.realpath(__file__))))
    return above if os.path.exists(os.path.join(above, 'crates.txt')) else None


def installed():
    """The program of the package that these tools stand in, which `tsp` of PATH runs and explains; or None."""
    path = os.path.join(os.path.dirname(os.path.dirname(os.path.dirname(os.path.dirname(os.path.realpath(__file__))))), 'lib', 'tsp', 'tsp')
    return path if os.path.exists(path) else None


def find(named=None, build=True):
    """The program to run: the one that is named, that of TSP_PROGRAM, the repository's or the package's own, or `tsp` of PATH; or None.

    The repository's own is built where it must be, unless `build` is false: then it is none where it was never built.
    """
    named = named or os.environ.get('TSP_PROGRAM')
    if named:
        return named
    top = home()
    if top is None:
        from shutil import which
        return installed() or which('tsp')
    built = os.path.join(top, 'crates', 'tsp_cli', 'out', 'tsp_cli')
    return ready(os.path.join(top, 'tsp'), built) if build or os.path.exists(built) else None


def ready(script, built):
    """The program that a script builds, which says how far that is; the script itself where it can't."""
    import subprocess
    ended = subprocess.run([script, 'show'], stdin=subprocess.DEVNULL, check=False)
    return script if ended.returncode else built


def needed(named=None):
    """The program to run; a tool that can't do without it ends here where there is none."""
    found = find(named)
    if found is None:
        raise Fault('there is no program `tsp` in PATH; name one with --program')
    return found


def quick(named=None, failed=1):
    """The program to run, and whether it is proved: in a clone whose own isn't built from these sources, it is compiled as it is."""
    top = home()
    if named or os.environ.get('TSP_PROGRAM') or top is None:
        return needed(named), True
    from tsp_build import crates, stamp
    noted = stamp.Stamp(top, 'tsp_cli', crates.below(crates.read(top), 'tsp_cli'))
    if noted.is_fresh():
        return noted.program, True
    import subprocess
    made = subprocess.run([os.path.join(top, 'tsp'), '--try', '--path'], stdin=subprocess.DEVNULL, stdout=subprocess.PIPE, check=False)
    if made.returncode:
        raise Fault('there is no program: see above', failed)
    return os.fsdecode(made.stdout.rstrip(b'\n')), False


class Run:
    """A run of `replay`, which is over when it is left."""

    def __init__(self, program, failed=1):
        from subprocess import DEVNULL, PIPE, Popen
        try:
            # (the program warns of a status other than 0; its tools say themselves what came of a run)
            self.process = Popen([program, 'replay'], stdin=PIPE, stdout=PIPE, stderr=DEVNULL)
        except OSError as fault:
            raise Fault(reason(program, fault), failed) from fault
        self.input, self.output = self.process.stdin, self.process.stdout

    def __enter__(self):
        return self

    def __exit__(self, *fault):
        if fault[0] is not None:
            self.process.kill()
        for stream in (self.input, self.output):
            try:
                stream.close()
            except BrokenPipeError:
                pass
        self.process.wait()

    def status(self):
        """Its status, once it has ended."""
        return self.process.wait()


class Replay(Run):
    """A run of `replay` on a text."""

    def __enter__(self):
        # (what it writes is read while it reads, so neither waits for the other)
        import threading
        self.feeder = threading.Thread(target=feed, args=(self.input, self.text), daemon=True)
        self.feeder.start()
        return self

    def __init__(self, program, text, failed=1):
        super().__init__(program, failed)
        self.text = text

    def __exit__(self, *fault):
        if fault[0] is not None:
            self.process.kill()
        self.feeder.join()
        super().__exit__(*fault)


def feed(stream, text):
    """Writes a text, as far as it is read."""
    try:
        with stream:
            stream.write(text)
    except BrokenPipeError:
        pass
