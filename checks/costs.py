#!/usr/bin/env python3
"""Compares the cost that a program tells of circuits of the whole language made at random with a
second reading of what a circuit costs (cost_rules.py). A wire of as many leaves as a circuit may
cost stands in the main module of each, so that E23 is told with the whole cost. Circuits in which a
fault stands that comes before are made again.

usage: costs.py [--program PATH] COUNT [SEED]

Without a program it runs ./firc.
"""
import argparse
import pathlib
import random
import subprocess
import sys
import tempfile

from cost_rules import LIMIT, cost_fault
from inference_maker import InferenceMaker
from inference_rules import Inferred
from name_texts import Line, Writer
from type_rules import Types

ROOT = pathlib.Path(__file__).resolve().parent.parent
ROOM = ["wire", "room_of_the_limit", ":", "UInt", "<", "1", ">", "[", str(LIMIT), "]"]


def costly(maker):
    """Puts the wire behind the ports of the main module."""
    block = next(line.block for line in maker.modules if line.tokens[1] == maker.main)
    ports = sum(line.tokens[0] in ("input", "output") and line.tokens[2] == ":" for line in block)
    block.insert(ports, Line(ROOM, []))


def faultless(chance):
    """A maker of a circuit in which no fault of types, resets or widths stands."""
    while True:
        maker = InferenceMaker(chance)
        text = Writer(chance).text(maker.line())
        if not Types(text).fault and not Inferred(text).code():
            return maker


def made(chance):
    """The text of a circuit that costs too much, and has no other fault that comes before."""
    maker = faultless(chance)
    costly(maker)
    return Writer(chance).text(maker.line())


def main():
    words = argparse.ArgumentParser(usage=__doc__)
    words.add_argument("--program", type=pathlib.Path, default=ROOT / "firc")
    words.add_argument("count", type=int)
    words.add_argument("seed", type=int, nargs="?", default=1)
    words = words.parse_args()
    program, chance, most = words.program.resolve(), random.Random(words.seed), 0
    with tempfile.TemporaryDirectory() as work:
        source = pathlib.Path(work) / "t.fir"
        for _ in range(words.count):
            text = made(chance)
            source.write_text(text)
            done = subprocess.run([program, "emit", source], cwd=ROOT, capture_output=True,
                                  text=True)
            wanted = cost_fault(text)
            if done.stderr != f"{wanted}\n":
                sys.exit(f"of\n{text}\nthe program says {done.stderr!r}, the rules '{wanted}'")
            most = max(most, int(wanted.split()[-1]) - LIMIT)
    print(f"costs: the same on {words.count} circuits; the dearest costs {most} beside the wire")


if __name__ == "__main__":
    main()
