#!/usr/bin/env python3
"""Compares what a program says of resets and widths with a second reading of their rules, on
circuits of the whole language made at random, of which many widths and resets are not written.
Where a circuit has no fault of these, it is tried again with questions for the widths of its
leaves, which show a fault unless each width is right.

The line is that of a walk of E18, which is judged by reset_rules.py; else that of the first fault
E19, or else E20 to E22, of width_rules.py; else there is none, or one of another code.

usage: inferred.py [--program PATH] [--without CODE] [--shortest] COUNT [SEED]
       inferred.py --show COUNT [SEED]

Without a program it runs ./firc. Circuits of which the rules say the code of --without are left
out. With --shortest a walk of E18 has to be a shortest of those that begin as it does. With --show
it prints the circuits with their lines and runs nothing.
"""
import argparse
import pathlib
import random
import re
import subprocess
import sys
import tempfile

from inference_maker import InferenceMaker
from inference_rules import Inferred
from name_rules import Names
from name_texts import Writer
from type_rules import Types
from width_questions import questions

ROOT = pathlib.Path(__file__).resolve().parent.parent


class Reading(Inferred):
    """What the rules say of a text whose names and types are right."""

    def takes(self, says):
        """Whether this may be told; without a fault of these any other."""
        if self.code():
            return super().takes(says)
        return not re.match("E1[89]|E2[0-2]", says)


def written(chance, maker):
    """The text of a circuit. Ends where it has a fault of names or types."""
    text = Writer(chance).text(maker.line())
    names = Names(text)
    fault = names.first() or names.is_recursive() and "E11" or Types(text).fault
    if fault:
        sys.exit(f"of\n{text}\nwhich was made right, the rules say {fault!r}")
    return text


def ask(maker, circuit):
    """Adds questions for the widths of the circuit's leaves, as they have been found."""
    for line in maker.modules:
        name = line.tokens[1]
        line.block += questions(circuit.modules[name], maker.shown[name])


def compare(program, source, text, reading):
    """Ends where the program says another line than the rules."""
    source.write_text(text)
    done = subprocess.run([program, "emit", source], cwd=ROOT, capture_output=True, text=True)
    says = done.stderr.removesuffix("\n")
    if not reading.takes(says) or done.returncode != (1 if says else 0):
        says = f"{says!r} with status {done.returncode}"
        sys.exit(f"of\n{text}\nthe program says {says}, the rules '{reading}'")


def main():
    words = argparse.ArgumentParser(usage=__doc__)
    words.add_argument("--program", type=pathlib.Path, default=ROOT / "firc")
    words.add_argument("--without", metavar="CODE")
    words.add_argument("--shortest", action="store_true")
    words.add_argument("--show", action="store_true")
    words.add_argument("count", type=int)
    words.add_argument("seed", type=int, nargs="?", default=1)
    words = words.parse_args()
    program, chance, said = words.program.resolve(), random.Random(words.seed), {}
    with tempfile.TemporaryDirectory() as work:
        for _ in range(words.count):
            maker = InferenceMaker(chance)
            text = written(chance, maker)
            reading = Reading(text, words.shortest)
            code = reading.code() or "clean"
            if code == words.without:
                continue
            said[code] = said.get(code, 0) + 1
            if words.show:
                print(f"{text}\n==> {reading}\n")
                continue
            compare(program, pathlib.Path(work) / "t.fir", text, reading)
            if code == "clean":
                ask(maker, reading.circuit)
                text = written(chance, maker)
                reading = Reading(text)
                if reading.code():
                    sys.exit(f"of\n{text}\nwhose questions are right, the rules say '{reading}'")
                compare(program, pathlib.Path(work) / "t.fir", text, reading)
    did = "showed" if words.show else "the same on"
    print(f"inferred: {did}", sum(said.values()), "circuits:", dict(sorted(said.items())))


if __name__ == "__main__":
    main()
