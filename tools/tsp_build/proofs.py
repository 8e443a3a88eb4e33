"""Runs of `rt ci` over copies of the crates, each without its tests and edits, which a program doesn't need."""
import os
import re
import shutil
import subprocess
import tempfile

from tsp_build import crates

PROVED = re.compile(r'^rt: (\w+) (proved|is kept)')
# How many seconds a run that is told to end is given for that.
PATIENCE = 20
TEST_MODULE = re.compile(r'#\[cfg\(test\)\]\nmod (\w+);\n')


def leave_out_tests(place):
    """Takes the modules that are compiled for tests alone, with their proofs, out of a copy of a crate."""
    for root in ('lib.rt', 'main.rt'):
        path = os.path.join(place, 'src', root)
        if not os.path.isfile(path):
            continue
        with open(path, encoding='utf-8') as file:
            text = file.read()
        for module in TEST_MODULE.findall(text):
            for each in (f'src/{module}', f'proofs/{module}'):
                shutil.rmtree(os.path.join(place, each), ignore_errors=True)
            source = os.path.join(place, 'src', f'{module}.rt')
            if os.path.exists(source):
                os.remove(source)
        kept = re.sub(r'\n\n+(?=\n|\Z)', '\n', TEST_MODULE.sub('', text))
        if kept != text:
            with open(path, 'w', encoding='utf-8') as file:
                file.write(kept.rstrip('\n') + '\n')


class Runs:
    """The runs of `rt` for one build, in a folder of its own."""

    def __init__(self, here):
        self.here = here
        self.work = os.path.realpath(tempfile.mkdtemp())
        self.running, self.logs = [], []

    def begin(self, tree, names):
        """Begins to prove these crates, and to build the program if it is one of them; several runs may use one tree, one after the other."""
        place = os.path.join(self.work, tree)
        self.put(place, names)
        log = place + '.log'
        self.logs.append(log)
        with open(log, 'ab') as output:
            self.running.append(subprocess.Popen(['rt', 'ci'], cwd=place, stdin=subprocess.DEVNULL, stdout=output, stderr=output))

    def put(self, place, names):
        os.makedirs(os.path.join(place, '.git'), exist_ok=True)
        handles = os.path.join(self.here, 'HANDLES')
        if os.path.exists(handles):
            shutil.copy2(handles, place)
        with open(os.path.join(self.here, 'crates.txt'), encoding='utf-8') as lines:
            listed = [line for line in lines if ':' in line and line.split('#')[0].split(':')[0].split()[:1] and line.split(':')[0].split()[0] in names]
        with open(os.path.join(place, 'crates.txt'), 'w', encoding='utf-8') as file:
            file.writelines(listed)
        for name in names:
            source, copy = (os.path.join(each, 'crates', name) for each in (self.here, place))
            if os.path.isdir(copy):
                continue
            os.makedirs(copy)
            for part in crates.PARTS + crates.BESIDE:
                each = os.path.join(source, part)
                if os.path.isdir(each):
                    shutil.copytree(each, os.path.join(copy, part))
                elif os.path.exists(each):
                    shutil.copy2(each, copy)
            leave_out_tests(copy)

    def ended(self):
        """Whether all that was begun has ended: None, or whether it went well."""
        statuses = [each.poll() for each in self.running]
        return None if None in statuses else not any(statuses)

    def said(self):
        """The crates that were proved, and those that an earlier run had proved."""
        proved, kept = set(), set()
        for log in self.logs:
            with open(log, encoding='utf-8', errors='replace') as lines:
                for line in lines:
                    match = PROVED.match(line)
                    if match:
                        (proved if match[2] == 'proved' else kept).add(match[1])
        return proved, kept - proved

    def begun(self):
        """The crates that a process works on now."""
        found = set()
        for process in os.listdir('/proc'):
            if process.isdigit():
                try:
                    place = os.readlink(f'/proc/{process}/cwd')
                except OSError:
                    continue
                if place.startswith(self.work + '/') and '/crates/' in place:
                    found.add(place.split('/crates/')[1].split('/')[0])
        return found

    def complaints(self):
        """What `rt` said, except of crates that it proved."""
        shown = []
        for log in dict.fromkeys(self.logs):
            held = None
            with open(log, encoding='utf-8', errors='replace') as lines:
                for line in lines:
                    if line.startswith('== '):
                        held = []
                    if held is not None:
                        held.append(line)
                        if line.startswith('rt: ') and line.rstrip().endswith(' NOT PROVED'):
                            shown += held
                            held = None
                        elif PROVED.match(line):
                            held = None
                    elif ' is kept: ' not in line:
                        shown.append(line)
            shown += held or []
        return re.sub(re.escape(self.work) + r'/\w+/', self.here + '/', ''.join(shown))

    def stop(self):
        """Ends what was begun, and leaves nothing."""
        for each in self.running:
            if each.poll() is None:
                each.terminate()
        for each in self.running:
            try:
                each.wait(PATIENCE)
            except subprocess.TimeoutExpired:
                each.kill()
                each.wait()
        shutil.rmtree(self.work, ignore_errors=True)
