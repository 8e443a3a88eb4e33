"""Readers of a lab's pages, which compare what they read with what the lab knows of its clocks."""
import os
import shutil
import subprocess

HERE = os.path.dirname(os.path.realpath(__file__))
TOOLS = os.path.join(os.path.dirname(os.path.dirname(HERE)), 'tools')


class Truth:
    """The program that reads all pages of a lab side by side, for so many seconds of the network's time at most."""

    def __init__(self, lab, start, seconds):
        path = os.path.join(lab.folder, 'truth')
        words = ['cc', '-std=c99', '-O2', '-Wall', '-I', TOOLS, '-o', path, os.path.join(HERE, 'truth.c')]
        if shutil.which('cc') is None or subprocess.run(words, check=False).returncode:
            raise OSError('there is no cc that makes the readers')
        hosts = [','.join(map(str, (lab.page(daemon), start + daemon.ahead, daemon.step[1], daemon.drift, *daemon.slew, int(lab.counter != 'raw'), daemon.name)))
                 for daemon in lab.daemons]
        self.process = subprocess.Popen([path, str(lab.begun), str(lab.rate), str(seconds // lab.rate + 60), *hosts], stdout=subprocess.PIPE)

    def end(self):
        """What they saw: the words of a line for each host."""
        self.process.terminate()
        return [line.split() for line in self.process.communicate()[0].decode('ascii').splitlines()]

    def kill(self):
        """Ends them, whatever they saw."""
        if self.process.poll() is None:
            self.process.kill()
            self.process.wait()
