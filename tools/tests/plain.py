"""Compares the program with two others: its replays of the examples and of what was changed in them, storms, audits of changed traces, and
datagrams as lines and back.

Usage: plain.py PROGRAM PLAIN CODEC. The second answers with status 9 what it doesn't do; that isn't compared. The chance is the same in each run.
"""
import random
import re
import subprocess
import sys
from pathlib import Path

ROOT = Path(__file__).resolve().parent.parent.parent
EXAMPLES = ROOT / "examples"
sys.path.insert(0, str(ROOT / "bench"))
sys.dont_write_bytecode = True
from jobs import datagram  # noqa: E402  (it lies beside the benchmarks)

STORMS = ["7 64 20000", "7 3 60000", "1 1 1", "5 64 30", "11 16 5000", "18446744073709551615 5 2000", "9 2 30000"]
WORDS = "loose master candidate follow slew step post took accept election adjtime settime ack quit refused".split()
NOT_DONE = 9


def changed_word(word, chance):
    """Another word: a number near by or far away, or another word of traces."""
    if not re.fullmatch(r"-?\d+", word):
        return chance.choice(WORDS)
    value = int(word)
    return str(chance.choice([value + 1, value - 1, value + chance.randrange(-1000, 1000), -value, value + 1_000_000, 0]))


def changed(lines, chance):
    """The lines with one word changed, a line left out or said twice, or two changed for each other."""
    lines, place, way = list(lines), chance.randrange(len(lines)), chance.randrange(8)
    if way == 0:
        del lines[place]
    elif way == 1:
        lines.insert(place, lines[place])
    elif way == 2:
        lines[place - 1], lines[place] = lines[place], lines[place - 1]
    else:
        words = lines[place].split(" ")
        at = chance.randrange(len(words))
        words[at] = changed_word(words[at], chance)
        lines[place] = " ".join(words)
    return lines


def with_other_message(trace, chance):
    """The trace with one message changed, wherever it is posted and taken."""
    lines = [line.split(" ") for line in trace]
    messages = [words[7:] if words[4] == "post" else words[6:] for words in lines if words[4] in ("post", "took")]
    message = chance.choice(messages)
    at = chance.randrange(len(message))
    other = " ".join(message[:at] + [changed_word(message[at], chance)] + message[at + 1:])
    old = " ".join(message)
    return [line[: -len(old)] + other if line.endswith(" " + old) else line for line in trace]


class Beside:
    """The two programs, and how many answers were compared, by their first words."""

    def __init__(self, program, plain):
        self.programs, self.seen = (program, plain), {}

    def compare(self, words, text=""):
        """Runs both, and ends with status 1 where they answer otherwise."""
        ran = [subprocess.run([each, *words], input=text.encode(), stdout=subprocess.PIPE, stderr=subprocess.DEVNULL) for each in self.programs]
        if ran[1].returncode == NOT_DONE:
            return
        if (ran[0].stdout, ran[0].returncode) != (ran[1].stdout, ran[1].returncode):
            ends = [f"status {each.returncode}, {each.stdout[-80:]!r}" for each in ran]
            sys.exit(f"plain: {' '.join(words)}: {ends[0]}; the plain one: {ends[1]}; the input ends with {text[-200:]!r}")
        answer = re.sub(r"\d.*", "", ran[0].stdout.decode().rpartition("\n")[0].rpartition("\n")[2]).strip()
        key = f"{words[0]}: {answer}" if words[0] == "audit" else f"{words[0]}: bad" if ran[0].returncode else words[0]
        self.seen[key] = self.seen.get(key, 0) + 1


def compare_texts(beside, chance):
    """Compares what both make of datagrams in hexadecimal and of their lines, a third of which are spoiled."""
    for number in range(260):
        digits = datagram(number, chance.choice([3, 70, 255]), chance).hex()
        beside.compare(["show"], spoiled(digits, "0123456789abcdefgF", chance) + "\n")
        shown = subprocess.run([beside.programs[0], "show"], input=digits.encode(), stdout=subprocess.PIPE, check=True)
        beside.compare(["pack"], spoiled(shown.stdout.decode().rstrip("\n"), "0123456789 -%aZ", chance) + "\n")


def spoiled(text, letters, chance):
    """The text, or sometimes a part of it, or with another letter."""
    at, way = chance.randrange(len(text)), chance.randrange(6)
    return text[:at] if way == 0 else text[:at] + chance.choice(letters) + text[at + 1:] if way == 1 else text


def main():
    """Compares the two on each example, and on some hundred changes of each."""
    beside, chance = Beside(*sys.argv[1:3]), random.Random(1)
    for path in sorted([*EXAMPLES.glob("*.tsp"), *EXAMPLES.glob("schedules/*.tsp")]):
        schedule, trace = path.read_text().splitlines(), path.with_suffix(".trace").read_text().splitlines()
        beside.compare(["replay"], "\n".join([*schedule, ""]))
        beside.compare(["audit"], "\n".join([*schedule, *trace, ""]))
        for _ in range(30):
            beside.compare(["replay"], "\n".join([*changed(schedule, chance), ""]))
            beside.compare(["audit"], "\n".join([*schedule, *changed(trace, chance), ""]))
            beside.compare(["audit"], "\n".join([*schedule, *with_other_message(trace, chance), ""]))
    for words in STORMS:
        beside.compare(["storm", *words.split()])
    texts = Beside(sys.argv[1], sys.argv[3])
    compare_texts(texts, chance)
    beside.seen.update(texts.seen)
    print("plain: " + ", ".join(f"{count} {key}" for key, count in sorted(beside.seen.items())))


main()
