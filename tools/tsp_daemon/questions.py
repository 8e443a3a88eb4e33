"""How a daemon is asked: `tsp` sends each question, and this reads its answers."""
from __future__ import annotations

import subprocess
import time
from collections import namedtuple

from tsp_daemon.usage import NO_PROGRAM, number
from tsp_texts import program as programs
from tsp_texts.tool import Fault

# The statuses of a question that wasn't answered: nothing could be sent, or nothing came.
SILENT = (5, 6)
# Of so many readings of a clock the best one counts.
READINGS = 4
# A question that is over so many seconds late was asked while this machine stood still, and is asked again, so often at most.
LATE, MOST_AGAIN = 0.5, 3


def add_words(parser):
    """Adds the words that say how daemons are asked."""
    parser.add_argument('--timeout', type=number(float, 0.1, 60, 'seconds'), default=2)
    parser.add_argument('-t', '--tries', type=number(int, 1, 100, 'a whole number'), default=2)
    parser.add_argument('-p', '--program')


class Reading(namedtuple('Reading', 'offset error')):
    """How far a daemon's clock is ahead of this machine's wall clock, give or take `error`: both in microseconds."""
    __slots__ = ()


class Asker(namedtuple('Asker', 'program seconds tries', defaults=(2.0, 2))):
    """Asks daemons by this program. A question waits so many seconds for its answer; in this time it is sent so many times."""
    __slots__ = ()

    @classmethod
    def of(cls, given):
        """As the words of a tool say: `program`, `timeout` and `tries`."""
        path = programs.find(given.program)
        if path is None:
            raise Fault('there is no program `tsp` in PATH; name one with --program', NO_PROGRAM)
        return cls(path, given.timeout, given.tries)

    def master(self, address) -> str | None:
        """The master that a daemon names: the empty text where it knows none, and None where it is silent."""
        answer = self.ask('msite', address)
        if answer is None or answer == ['no', 'master']:
            return None if answer is None else ''
        return self.value(answer, 'master', 'msite', address)[0]

    def clock(self, address) -> Reading | None:
        """How far a daemon's clock is ahead, or None where it is silent."""
        answer = self.ask('clockdiff', address)
        if answer is None:
            return None
        offset, error = self.value(answer, 'clockdiff', 'clockdiff', address, 2)
        try:
            return Reading(int(offset), int(error))
        except ValueError:
            raise self.strange(answer, 'clockdiff', address) from None

    def best_clock(self, address) -> Reading | None:
        """The reading with the least error of some, or None where the daemon is silent. The first question that isn't answered is the last one."""
        best = None
        for _ in range(READINGS):
            reading = self.clock(address)
            if reading is None:
                break
            best = min(best or reading, reading, key=lambda each: each.error)
        return best

    def date(self, address, date) -> str | None:
        """Sets the network's date: `set`, `forwarded`, or None where the daemon is silent."""
        # (it is asked once, since it is another date later)
        answer = self.ask_once(('date', address, str(date)))
        return None if answer is None else self.value(answer, 'date', 'date', address)[0]

    def election(self, address) -> bool:
        """Tells a daemon to stand for election, and says whether it heard that."""
        answer = self.ask('election', address)
        return answer is not None and self.value(answer, 'election', 'election', address) == ['heard']

    def value(self, answer, word, question, address, count=1) -> list[str]:
        """The words of an answer behind its first one."""
        if answer[0] != word or len(answer) != count + 1:
            raise self.strange(answer, question, address)
        return answer[1:]

    def strange(self, answer, question, address):
        """The fault of an answer that isn't one to its question."""
        return Fault(f'{self.program} {question} {address} answers \'{" ".join(answer)}\'', NO_PROGRAM)

    def ask(self, *words) -> list[str] | None:
        """The words of the answer to a question, or None if nobody answers it. A try in which this machine stood still doesn't count."""
        left, again = self.tries, MOST_AGAIN
        while left:
            begun = time.monotonic()
            answer = self.ask_once(words)
            if answer is not None:
                return answer
            if again and time.monotonic() - begun > self.seconds / self.tries + LATE:
                again -= 1
            else:
                left -= 1
        return None

    def ask_once(self, words):
        """The words of the answer to a question that is sent once."""
        try:
            run = subprocess.run([self.program, *words], stdin=subprocess.DEVNULL, stdout=subprocess.PIPE, stderr=subprocess.DEVNULL,
                                 timeout=self.seconds / self.tries, check=False)
        except subprocess.TimeoutExpired:
            return None
        except OSError as fault:
            raise Fault(f'{self.program}: {fault.strerror}', NO_PROGRAM) from fault
        if run.returncode == 0:
            return run.stdout.decode('ascii', 'backslashreplace').rstrip('\n').split(' ')
        if run.returncode in SILENT:
            return None
        raise Fault(f'{self.program} {words[0]} {words[1]} ends with status {run.returncode}', NO_PROGRAM)
