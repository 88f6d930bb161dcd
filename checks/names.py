#!/usr/bin/env python3
"""Compares what firc says of names with a second reading of their rules, on circuits of the whole
language made at random, about half of them with faults of names put in.

The line is that of the first fault E08 to E10 of name_rules.py. Where modules instantiate each
other in a ring it is E11, whose walk is judged there; else it is what the rules behind those say
(readings.py).

usage: names.py [--program PATH] COUNT [SEED]

Without a program it runs ./firc.
"""
import argparse
import pathlib
import random
import re
import subprocess
import sys
import tempfile

from name_maker import Maker
from name_slips import Slips
from name_texts import Writer
from readings import Reading

ROOT = pathlib.Path(__file__).resolve().parent.parent


def made(chance):
    """The text of a circuit, and whether slips are put in."""
    maker, is_wrong = Maker(chance), chance.random() < 0.7
    if is_wrong:
        Slips(maker, chance).put(chance.choice([1, 2, 2, 3]))
    return Writer(chance).text(maker.line()), is_wrong


def compare(program, source, text, is_wrong):
    """What firc says of the text, or 'clean' where no fault of names is found. Ends where the two
    differ, and where a circuit that was made right has a fault."""
    source.write_text(text)
    done = subprocess.run([program, "emit", source], cwd=ROOT, capture_output=True, text=True)
    says, reading = done.stderr.removesuffix("\n"), Reading(text)
    if not reading.takes(says) or done.returncode != (1 if says else 0):
        says = f"{says!r} with status {done.returncode}"
        sys.exit(f"of\n{text}\nfirc says {says}, the rules '{reading}'")
    is_clean = not re.match("E0[89]|E1[01]", says)
    if not is_wrong and not is_clean:
        sys.exit(f"of\n{text}\nwhich was made right, all say {says!r}")
    return "clean" if is_clean else says[:3]


def main():
    words = argparse.ArgumentParser(usage=__doc__)
    words.add_argument("--program", type=pathlib.Path, default=ROOT / "firc")
    words.add_argument("count", type=int)
    words.add_argument("seed", type=int, nargs="?", default=1)
    words = words.parse_args()
    program, chance, said = words.program.resolve(), random.Random(words.seed), {}
    with tempfile.TemporaryDirectory() as work:
        for _ in range(words.count):
            came_to = compare(program, pathlib.Path(work) / "t.fir", *made(chance))
            said[came_to] = said.get(came_to, 0) + 1
    print("names: the same on", sum(said.values()), "circuits:", dict(sorted(said.items())))


if __name__ == "__main__":
    main()
