#!/usr/bin/env python3
"""Compares the front pages of the crates, docs/PROOFS.md and docs/ANSWERS.md with the crates.

Each crate has its row in docs/PROOFS.md, and what a front page names in parentheses under 'What is proved' is there.

In `a`, `b` of `f`, `g` each of a and b is a clause of one of the calls f and g, or a call of the type f. A name alone is a clause, a
call, a definition, a lemma or a file of the row's crate; a definition may be of another crate. Where a clause is a record, each fact of
the record counts as a clause. In docs/ANSWERS.md, the last three cells of a row
are crates, calls and clauses: each crate has one of the calls, each call is there, and each clause is one of them; 'the one' is a clause without a name.
"""
import re
import sys
from pathlib import Path

ROOT = Path(__file__).resolve().parent.parent.parent
ROW = re.compile(r"^\| ((?:\[?`\w+`(?:\]\([^)]*\))?(?:, )?)+) \| ")
PROVED = re.compile(r"^//! # What is proved\n((?://!.*\n)*?)(?=//! # |(?!//!))", re.M)
GROUP = re.compile(r"\(([^()]*`[^()]*)\)")
NAME = re.compile(r"`([^`]+)`")
CALL = re.compile(r"^\s*(?:pub(?:\([a-z]+\))? )?(?:ghost |extern \"C\" )?fn (\w+)", re.M)
CLAUSE = re.compile(r"^\s*ensures (\w+) \{", re.M)
HEAD = re.compile(r"^\s*ensures (?:\w+ )?\{ (\w+)", re.M)
RECORD = re.compile(r"^pub record (\w+) .*\n((?:  .*\n)*)", re.M)
FACT = re.compile(r"^  pub (\w+) :", re.M)


def crate_names():
    lines = (line.split("#")[0] for line in (ROOT / "crates.txt").read_text().splitlines())
    return [line.split(":")[0].split()[0] for line in lines if ":" in line]


class Crate:
    """What a crate names: the clauses of each call, and all other names."""

    def __init__(self, name):
        folder = ROOT / "crates" / name
        self.clauses, self.unnamed, self.others, self.heads, self.records = {}, {}, set(), {}, {}
        for path in sorted((folder / "src").glob("**/*.rt")):
            text = path.read_text()
            self.others.update((path.name, path.stem))
            self.others.update(re.findall(r"\b(?:struct|enum|trait|const) (\w+)", text))
            calls = list(CALL.finditer(text))
            for call, after in zip(calls, calls[1:] + [None]):
                part = text[call.end(): after.start() if after else len(text)]
                self.clauses.setdefault(call.group(1), set()).update(CLAUSE.findall(part))
                self.heads.setdefault(call.group(1), set()).update(HEAD.findall(part))
                self.unnamed[call.group(1)] = self.unnamed.get(call.group(1)) or re.search(r"^\s*ensures \{", part, re.M)
        for path in sorted(folder.glob("specs/**/*.antt")) + sorted(folder.glob("proofs/**/*.antt")):
            text = path.read_text()
            self.others.update(re.findall(r"^(?:abbrev |unfoldable )*pub (?:record |data )?([^ :(]+)", text, re.M))
            self.records.update((name, set(FACT.findall(facts))) for name, facts in RECORD.findall(text))

    def add_facts(self, records):
        """Counts the facts of records among the clauses of the calls whose clauses they are."""
        for call, heads in self.heads.items():
            for head in heads & records.keys():
                self.clauses[call] |= records[head]

    def has(self, name):
        last = name.split("::")[-1]
        return last in self.clauses or last in self.others or any(last in clauses for clauses in self.clauses.values())

    def has_of(self, name, owners):
        calls = [owner.split("::")[-1] for owner in owners]
        if any(call in self.others for call in calls):
            return self.has(name)
        return name in self.others or any(name in self.clauses.get(call, ()) for call in calls)


def front_page(name):
    """What the front page of a crate says is proved, in one line."""
    for page in ("lib.rt", "main.rt"):
        path = ROOT / "crates" / name / "src" / page
        if path.exists():
            proved = PROVED.search(path.read_text())
            return " ".join(line[3:].strip() for line in proved.group(1).splitlines()) if proved else ""
    return ""


def missing(crate, group, defined):
    """The names of a group in parentheses that neither the crate has nor a definition."""
    before, of, after = group.partition("` of `")
    if not of:
        return [name for name in NAME.findall(group) if not (crate.has(name) or name in defined)]
    owners = NAME.findall("`" + after)
    found = [name for name in owners if not (crate.has(name) or name in defined)]
    return found + [name for name in NAME.findall(before + "`") if not crate.has_of(name, owners)]


def named(cells, crates):
    """The faults of a row whose last three cells are crates, calls and clauses."""
    owners, calls, clauses = ([name for name in NAME.findall(cell)] for cell in cells[-3:])
    known = [crates[owner] for owner in owners if owner in crates]
    faults = [f"{owner} is no crate" for owner in owners if owner not in crates]
    faults += [f"{call} is no call of {owners}" for call in calls if not any(call in crate.clauses for crate in known)]
    there = {clause for crate in known for call in calls for clause in crate.clauses.get(call, ())}
    if cells[-1] == "the one":
        faults += [f"{call} of {owners} has named clauses" for call in calls if not any(crate.unnamed.get(call) for crate in known)]
    return faults + [f"{clause} is no clause of {calls} of {owners}" for clause in clauses if clause not in there]


def answers_of(crates):
    """The faults of docs/ANSWERS.md, and how many rows with crates it has."""
    faults, count = [], 0
    for line in (ROOT / "docs" / "ANSWERS.md").read_text().splitlines():
        cells = [cell.strip() for cell in line.split(" | ")]
        if line.startswith("| ") and len(cells) == 5 and NAME.search(cells[2]):
            cells[-1] = cells[-1].rstrip(" |")
            count += 1
            faults += [f"the row of {cells[0][2:]}: {fault}" for fault in named(cells, crates)]
    return faults, count


def main():
    rows, faults, count = {}, [], 0
    crates = {name: Crate(name) for name in crate_names()}
    records = {name: facts for crate in crates.values() for name, facts in crate.records.items()}
    for crate in crates.values():
        crate.add_facts(records)
    defined = {name for crate in crates.values() for name in crate.others}
    for line in (ROOT / "docs" / "PROOFS.md").read_text().splitlines():
        match = ROW.match(line)
        if match:
            for name in NAME.findall(match.group(1)):
                rows.setdefault(name, []).append(front_page(name))
    for name, crate in crates.items():
        if len(rows.get(name, ())) != 1:
            faults.append(f"{name} has {len(rows.get(name, ()))} rows")
            continue
        for group in GROUP.findall(rows[name][0]):
            count += len(NAME.findall(group))
            faults += [f"the front page of {name} names {word}, which isn't there" for word in missing(crate, group, defined)]
    faults += [f"{name} has a row and is no crate" for name in rows if name not in crates]
    others, answers = answers_of(crates)
    faults += [f"docs/ANSWERS.md: {fault}" for fault in others]
    for fault in faults:
        print(fault, file=sys.stderr)
    if not faults:
        print(f"proofs: {count} names on the front pages of {len(rows)} crates, and the clauses of {answers} rows of answers")
    sys.exit(1 if faults else 0)


if __name__ == "__main__":
    main()
