"""Gives each tool bad input: files that are missing, empty, a folder, not to be read, not UTF-8, NULs or 64 MiB; standard
streams that are closed, full or left; other words; and an interrupt. Each time the tool ends with the status of its row, says
so in one line, shows no traceback and no warning of Python, and leaves nothing behind.

usage: bad_inputs.py ROWS FOLDER
"""
import os
import resource
import shutil
import signal
import subprocess
import sys
import time

# (other processes may want the processor too, so a tool may be slower than it is busy)
MEMORY, SECONDS, PATIENCE, LARGE = 450 * 2**20, 40, 300, 64 * 2**20
COLUMNS = 'tool reads good unread faulty words unwritten left writes option waits'.split()
# Root reads every file but for this.
AS_OTHERS = ['setpriv', '--bounding-set=-dac_override,-dac_read_search']


class Wrong(Exception):
    """A tool did something else than its row says."""


def rows_of(path):
    with open(path, encoding='ascii') as file:
        cells = [[cell.strip() for cell in line.split(' | ')] for line in file if not line.startswith('#')]
    return [dict(zip(COLUMNS, row)) for row in cells]


def files_of(folder):
    """Bad files, each with its name; those that can't be read first."""
    unread = {name: os.path.join(folder, name) for name in ('missing', 'locked', 'folder')}
    faulty = {name: os.path.join(folder, name) for name in ('empty', 'latin', 'nuls', 'large', 'lines')}
    os.mkdir(unread['folder'])
    contents = {'empty': b'', 'latin': b'\xe9\xff\xfe\n' * 3, 'nuls': b'a\0b 1 2\n', 'large': b'x' * LARGE, 'lines': b'x y z 123456789 123456789 123456789\n' * (LARGE // 36), 'locked': b''}
    for name, octets in contents.items():
        with open(os.path.join(folder, name), 'wb') as file:
            file.write(octets)
    os.chmod(unread['locked'], 0)
    return unread, faulty


class Trial:
    """The trials of one row, in an empty folder for temporary files."""

    def __init__(self, row, folder):
        self.row, self.folder, self.count = row, folder, 0
        self.temporary = os.path.join(folder, 'temporary')
        os.makedirs(self.temporary, exist_ok=True)
        self.tool = row['tool'] if '/' in row['tool'] else os.path.join('tools', row['tool'])
        self.name = os.path.basename(self.tool)

    def words(self, column, **names):
        """The words of a column, with names replaced; and the file of standard input, or None."""
        words = [names.get(word.lstrip('<'), word) if word.isupper() or word.startswith('<') else word for word in self.row[column].split()]
        inputs = [names['FILE'] for word in self.row[column].split() if word == '<FILE']
        return [word for word, plain in zip(words, self.row[column].split()) if plain != '<FILE'], inputs[0] if inputs else os.devnull

    def begin(self, words, before=(), also=None, warnings='error', **streams):
        def limits():
            resource.setrlimit(resource.RLIMIT_AS, (MEMORY, MEMORY))
            resource.setrlimit(resource.RLIMIT_CPU, (SECONDS, SECONDS))
            if also:
                also()
        return subprocess.Popen([*before, self.tool, *words], stderr=subprocess.PIPE, preexec_fn=limits,
                                env=dict(os.environ, TMPDIR=self.temporary, PYTHONWARNINGS=warnings), **streams)

    def run(self, words, status, lines=(1,), source=os.devnull, **more):
        """Wants this status, or another than 0 where that is None, and so many lines on standard error, the tool's name before each."""
        before = listing(self.temporary)
        stdin = os.open(source, os.O_RDONLY)
        process = self.begin(words, **{'stdin': stdin, 'stdout': subprocess.DEVNULL, **more})
        os.close(stdin)
        self.ended(process, words, status, lines)
        if listing(self.temporary) != before:
            raise Wrong(f'{self.name} {" ".join(words)} leaves {listing(self.temporary) - before}')

    def ended(self, process, words, status, lines):
        what = f'{self.name} {" ".join(words)}'
        try:
            said = process.communicate(timeout=PATIENCE)[1].decode('utf-8', 'replace').splitlines()
        except subprocess.TimeoutExpired as late:
            process.kill()
            raise Wrong(f'{what} isn\'t over after {PATIENCE} s') from late
        found = 128 - process.returncode if process.returncode < 0 else process.returncode
        if found != status if status is not None else not found:
            raise Wrong(f'{what}: status {found}, not {status}: {said[-3:]}')
        if len(said) not in lines or not all(line.startswith((f'{self.name}: ', '[WARN ')) for line in said):
            raise Wrong(f'{what}: on standard error stand {said[:9]}, which should be {lines[-1]} lines')
        self.count += 1

    def of_files(self, unread, faulty):
        for name, path in {**unread, **faulty}.items():
            status, *told = self.row['unread' if name in unread else 'faulty'].split()
            words, source = self.words('reads', FILE=path)
            if source == path and name in ('missing', 'locked'):
                continue
            before = AS_OTHERS if name == 'locked' and os.geteuid() == 0 else ()
            if before and not shutil.which(before[0]):
                continue
            self.run(words, int(status), (0,) if told == ['out'] else (1,), source, before=before)
        if self.row['good'] != '-':
            words, source = self.words('reads', FILE=self.row['good'])
            self.run(words, 0, (0,), source)

    def of_words(self):
        status, *told = self.row['words'].split()
        for word in ('--no-such-option', '-\udcff', self.row['option']):
            if word != '-':
                self.run([word], int(status), (2,) if told == ['two'] else (1,))

    def of_outputs(self):
        words, unwritten = self.words('writes')[0], int(self.row['unwritten'])
        with open('/dev/full', 'wb') as full:
            self.run(words, unwritten, stdout=full)
        self.run(words, unwritten, stdout=None, also=lambda: os.close(1))
        reader, writer = os.pipe()
        os.close(reader)
        left = int(self.row['left'])
        self.run(words, left, (0,) if left == 128 + signal.SIGPIPE else (1,), stdout=writer)
        os.close(writer)
        # (there is nothing to say it on)
        self.run(['--no-such-option'], None, (0,), also=lambda: os.close(2))

    def of_inputs(self):
        """A standard input that is closed, for a tool that reads it."""
        if self.row['reads'] == 'FILE' and self.row['waits'] == 'FIFO':
            self.run(['-'], int(self.row['unread']), stdin=None, also=lambda: os.close(0))

    def of_interrupts(self):
        fifo, program = os.path.join(self.folder, 'fifo'), os.path.join(self.folder, 'program')
        words, source = self.words('waits', FIFO=fifo, PROGRAM=program)
        before = listing(self.temporary)
        process = self.begin(words, stdin=subprocess.DEVNULL, stdout=subprocess.DEVNULL, start_new_session=True, warnings='ignore')
        # (a fifo is opened once the other side is, and then waited for; an interrupt goes to all that a terminal has in front)
        with open(fifo, 'wb'):
            time.sleep(0.5)
            os.killpg(process.pid, signal.SIGINT)
            self.ended(process, words, 128 + signal.SIGINT, (0, 1))
        if listing(self.temporary) != before:
            raise Wrong(f'{self.name} leaves {listing(self.temporary) - before} where it is interrupted')

    def all(self, unread, faulty):
        if self.row['reads'] != '-':
            self.of_files(unread, faulty)
            self.of_inputs()
        self.of_words()
        self.of_outputs()
        if self.row['waits'] != '-':
            self.of_interrupts()
        return self.count


def listing(folder):
    """The names of all files of a folder."""
    return {os.path.join(top, name) for top, folders, files in os.walk(folder) for name in folders + files}


def waiting_program(folder):
    """A program that waits for a fifo, and the fifo."""
    os.mkfifo(os.path.join(folder, 'fifo'))
    path = os.path.join(folder, 'program')
    with open(path, 'w', encoding='utf-8') as file:
        file.write(f'#!/bin/sh\nexec cat "{folder}/fifo"\n')
    os.chmod(path, 0o755)


def main():
    rows, folder = rows_of(sys.argv[1]), sys.argv[2]
    signal.signal(signal.SIGINT, signal.default_int_handler)
    waiting_program(folder)
    unread, faulty = files_of(folder)
    before, wrong, count = listing('tools') | listing('dev'), 0, 0
    for name in sorted(os.listdir('tools')):
        if name.startswith('tsp-') and name not in {row['tool'] for row in rows}:
            print(f'{name} has no row', file=sys.stderr)
            wrong += 1
    for row in rows:
        try:
            count += Trial(row, folder).all(unread, faulty)
        except Wrong as fault:
            print(fault, file=sys.stderr)
            wrong += 1
    left = {path for path in (listing('tools') | listing('dev')) - before if '__pycache__' in path}
    if left:
        print(f'the tools leave {sorted(left)[:3]}', file=sys.stderr)
    print(f'{count} bad inputs of {len({row["tool"] for row in rows})} tools')
    sys.exit(bool(wrong or left))


main()
