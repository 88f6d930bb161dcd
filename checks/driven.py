#!/usr/bin/env python3
"""Compares what firc says of leaves that a choice leaves undriven with a second reading of their
rule (driven_rules.py), on circuits of the whole language made at random, in many of which something
is forgotten. No fault stands in them that comes before E24. Where the rule says E24 the line is
that of the first; else there is none, or one of another code.

usage: driven.py [--program PATH] check [COUNT [SEED]]
       driven.py show [COUNT [SEED]]
       driven.py ways [COUNT [SEED]]
       driven.py rows

Without a program `check` runs ./firc; 200 circuits are made unless another number is given. `show`
prints the circuits with their lines. `ways` compares the two ways in which the second reading finds
a choice, of each leaf for which both can. `rows` sees that the rows of checks/rows/driven say what
the second reading says of E24.
"""
import argparse
import pathlib
import random
import re
import subprocess
import sys
import tempfile

import row_files
from driven_maker import DrivenMaker
from driven_rules import (MOST_TRIED, Module, driven_fault, first_by_turns, first_of_all)
from inference_forms import Circuit
from inference_rules import Inferred
from name_rules import Names
from name_texts import Writer
from type_rules import Types

ROOT = pathlib.Path(__file__).resolve().parent.parent
ROWS = ROOT / "checks" / "rows" / "driven"


def made(chance):
    """The text of a circuit without a fault of resets and widths, and whether something may be
    forgotten in it. Ends where it has a fault of names or types."""
    while True:
        maker = DrivenMaker(chance)
        text = Writer(chance).text(maker.line())
        names = Names(text)
        fault = names.first() or names.is_recursive() and "E11" or Types(text).fault
        if fault:
            sys.exit(f"of\n{text}\nwhich was made right, the rules say {fault!r}")
        if not Inferred(text).code():
            return text, maker.forgets > 0


def circuits(words):
    """The texts of circuits, each with the line of its first E24 or None. Ends where one has a line
    in which nothing is forgotten."""
    chance = random.Random(words.seed)
    for _ in range(words.count):
        text, may_forget = made(chance)
        line = driven_fault(text)
        if line and not may_forget:
            sys.exit(f"of\n{text}\nin which all is driven, the rules say {line!r}")
        yield text, line


def kind(line):
    """What a circuit came to, by its line."""
    if line is None:
        return "driven"
    return "E24 of a choice" if line.count(" ") > 3 else "E24 without one"


def told(did, counts):
    print(f"driven: {did}", sum(counts.values()), "circuits:", dict(sorted(counts.items())))


def compare(program, source, text, line):
    """Ends where the program says another line than the rules."""
    source.write_text(text)
    done = subprocess.run([program, "emit", source], cwd=ROOT, capture_output=True, text=True)
    says = done.stderr.removesuffix("\n")
    is_right = says == line if line else not says.startswith("E24")
    if not is_right or done.returncode != (1 if says else 0):
        says = f"{says!r} with status {done.returncode}"
        sys.exit(f"of\n{text}\nthe program says {says}, the rules '{line or 'no E24'}'")


def check(words):
    program, counts = words.program.resolve(), {}
    with tempfile.TemporaryDirectory() as work:
        for text, line in circuits(words):
            compare(program, pathlib.Path(work) / "t.fir", text, line)
            counts[kind(line)] = counts.get(kind(line), 0) + 1
    told("the same on", counts)


def show(words):
    counts = {}
    for text, line in circuits(words):
        print(f"{text}\n==> {line or 'no E24'}\n")
        counts[kind(line)] = counts.get(kind(line), 0) + 1
    told("showed", counts)


def ways(words):
    """Ends where the two ways find different choices."""
    compared = set()
    for text, _ in circuits(words):
        for module in Circuit(text, Module).modules.values():
            for leaf in module.leaves():
                drivings = tuple(sorted(set(module.drivings(leaf))))
                forks = {fork for one in drivings for fork, _ in one}
                if len(forks) > MOST_TRIED or drivings in compared:
                    continue
                compared.add(drivings)
                if first_of_all(drivings) != first_by_turns(drivings):
                    sys.exit(f"of\n{text}\nthe two ways differ at {leaf.path()}")
    print("driven: both ways find the same for", len(compared), "sets of drivings")


def rows(_):
    """Of a row with a fault that comes before E24 nothing is said."""
    count, differ = 0, 0
    for row in [row for path in sorted(ROWS.glob("*.rows")) for row in row_files.read(path)]:
        says = row.err.decode().removesuffix("\n")
        if re.match("E0[89]|E1|E2[0-3]", says):
            continue
        line = driven_fault(row.text.decode())
        count += 1
        if (says != line) if line else says.startswith("E24"):
            differ += 1
            line = line or "no E24"
            print(f"{row.place}: the row says {says[:200]!r}, the rules {line[:200]!r}")
    if differ:
        sys.exit(f"driven: {differ} of {count} rows say something else")
    print("driven:", count, "rows say what the rules say")


def main():
    words = argparse.ArgumentParser(usage=__doc__)
    words.add_argument("--program", type=pathlib.Path, default=ROOT / "firc")
    words.add_argument("what", choices=["check", "show", "ways", "rows"])
    words.add_argument("count", type=int, nargs="?", default=200)
    words.add_argument("seed", type=int, nargs="?", default=1)
    words = words.parse_args()
    {"check": check, "show": show, "ways": ways, "rows": rows}[words.what](words)


if __name__ == "__main__":
    main()
