#!/usr/bin/env python3
"""Compares what firc says of types and flows with a second reading of their rules, on circuits of
the whole language made at random, most of them with slips put in.

The line is that of the first fault E12 to E17 of type_rules.py; without one it is what the rules
behind those say (readings.py).

usage: typed.py [--program PATH] COUNT [SEED]
       typed.py --show COUNT [SEED]

Without a program it runs ./firc. With --show it prints the circuits with their lines and runs
nothing.
"""
import argparse
import pathlib
import random
import re
import subprocess
import sys
import tempfile

from name_texts import Writer
from readings import Reading
from type_maker import Maker
from type_slips import Slips

ROOT = pathlib.Path(__file__).resolve().parent.parent


def made(chance):
    """The text of a circuit, and whether slips are put in."""
    seed, slips = chance.random(), Slips()
    maker, is_wrong = Maker(random.Random(seed), slips), chance.random() < 0.85
    if is_wrong:
        maker = Maker(random.Random(seed), slips.some(chance, chance.choice([1, 1, 1, 2])))
    return Writer(chance).text(maker.line()), is_wrong


def came_to(text, reading, is_wrong):
    """The code of a fault of types, or 'clean'. Ends where a circuit that was made right has a
    fault of names or types."""
    line = str(reading)
    if re.match("E1[2-7]", line):
        code = line[:3]
    elif re.match("E0[89]|E1[01]", line):
        sys.exit(f"of\n{text}\nwhose names were made right, the rules say {line!r}")
    else:
        code = "clean"
    if not is_wrong and code != "clean":
        sys.exit(f"of\n{text}\nwhich was made right, the rules say {line!r}")
    return code


def compare(program, source, text, reading):
    """Ends where firc says another line than the rules."""
    source.write_text(text)
    done = subprocess.run([program, "emit", source], cwd=ROOT, capture_output=True, text=True)
    says = done.stderr.removesuffix("\n")
    if not reading.takes(says) or done.returncode != (1 if says else 0):
        says = f"{says!r} with status {done.returncode}"
        sys.exit(f"of\n{text}\nfirc says {says}, the rules '{reading}'")


def main():
    words = argparse.ArgumentParser(usage=__doc__)
    words.add_argument("--program", type=pathlib.Path, default=ROOT / "firc")
    words.add_argument("--show", action="store_true")
    words.add_argument("count", type=int)
    words.add_argument("seed", type=int, nargs="?", default=1)
    words = words.parse_args()
    program, chance, said = words.program.resolve(), random.Random(words.seed), {}
    with tempfile.TemporaryDirectory() as work:
        for _ in range(words.count):
            text, is_wrong = made(chance)
            reading = Reading(text)
            code = came_to(text, reading, is_wrong)
            said[code] = said.get(code, 0) + 1
            if words.show:
                print(f"{text}\n==> {reading}\n")
            else:
                compare(program, pathlib.Path(work) / "t.fir", text, reading)
    did = "showed" if words.show else "the same on"
    print(f"types: {did}", sum(said.values()), "circuits:", dict(sorted(said.items())))


if __name__ == "__main__":
    main()
