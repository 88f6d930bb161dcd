#!/usr/bin/env python3
"""Compares what firc says of texts of the Verilog subset with a second reading of its rules
(verilog_reading.py): the line of the first fault and status 7, or nothing and status 0.

Texts are made at random, valid ones and ones with changes; or with `forms` COUNT forms of the
grammar with one token more or another one, COUNT with a reserved word in the place of a name, COUNT
texts with two faults, and COUNT fronts of the text with every form. Each is simulated on an empty trace. Where a text has several closed
walks, any may be told that is a shortest one through its first name.

usage: verilog_texts.py [--program PATH] [--seed N] VALID CHANGED
       verilog_texts.py [--program PATH] [--seed N] forms COUNT

Without a program it runs the one that ./firc builds. The texts follow from the seed and their
number, which are printed with a text of which the two say something else; that text is then also in
the folder that is named.
"""
import argparse
import pathlib
import random
import subprocess
import sys
import tempfile

import verilog_text_forms
from rows import built
from verilog_reading import Reading
from verilog_text_changes import Changes
from verilog_text_maker import TextMaker, Writer

FAULT = 7


def valid_text(chance):
    return Writer(chance).text(TextMaker(chance).groups())


def changed_text(chance):
    """A text with one change, now and then with two or three; of some the nets may close walks."""
    groups = TextMaker(chance, has_walks=chance.random() < 0.2).groups()
    return Writer(chance).text(Changes(groups, chance).put(chance.choice([1, 1, 1, 2, 3])))


class Program:
    """The program, and a folder with the files that it is given."""

    def __init__(self, path, folder):
        self.path, self.folder = path, folder

    def run(self, text, trace, words):
        """Status, output and error output of a simulation."""
        (self.folder / "t.v").write_bytes(text)
        (self.folder / "t").write_bytes(trace)
        done = subprocess.run([self.path, "vsim", "t.v", "t", *words], cwd=self.folder,
                              stdin=subprocess.DEVNULL, capture_output=True)
        return done.returncode, done.stdout, done.stderr

    def said(self, text):
        """The same of one without a tick, with the error output as text."""
        status, out, err = self.run(text, b"", [])
        return status, out, err.decode("latin-1")


class Comparison:
    """Compares the program with the reading, and counts the texts by the codes of their faults."""

    def __init__(self, program, seed):
        self.program, self.seed, self.said = program, seed, {}

    def compare(self, kind, number, text):
        """Ends the run where the two differ."""
        reading = Reading(text)
        status, out, err = self.program.said(text)
        line = err.removesuffix("\n")
        is_fault = err == line + "\n" and status == FAULT
        if out or not reading.takes(line) or not (is_fault if line else status == 0):
            kept = pathlib.Path(tempfile.mkdtemp(prefix="verilog_texts_")) / "t.v"
            kept.write_bytes(text)
            sys.exit(f"of {kept} ({kind} text {number} of seed {self.seed})\n"
                     f"{text.decode('latin-1')}\n"
                     f"firc says {err!r} with status {status} and writes {out!r},"
                     f" the rules '{reading.line}'")
        code = reading.line[:3] or "valid"
        if kind == "valid" and code != "valid":
            sys.exit(f"{kind} text {number} of seed {self.seed} has the fault {reading.line}")
        self.said[code] = self.said.get(code, 0) + 1

    def compare_random(self, kind, make, count):
        for number in range(count):
            self.compare(kind, number, make(random.Random(f"{self.seed} {kind} {number}")))

    def compare_forms(self, count):
        """Compares that many texts of each kind of forms, or all where there are fewer."""
        chance = random.Random(f"{self.seed} forms")
        for kind, texts in verilog_text_forms.made().items():
            for number in sorted(chance.sample(range(len(texts)), min(count, len(texts)))):
                self.compare(kind, number, texts[number].encode("latin-1"))


def main():
    words = argparse.ArgumentParser(usage=__doc__)
    words.add_argument("--program", type=pathlib.Path)
    words.add_argument("--seed", type=int, default=1)
    words.add_argument("words", nargs=2)
    words = words.parse_args()
    with tempfile.TemporaryDirectory() as folder:
        program = Program((words.program or built()).resolve(), pathlib.Path(folder))
        comparison = Comparison(program, words.seed)
        if words.words[0] == "forms":
            comparison.compare_forms(int(words.words[1]))
        else:
            valid, changed = map(int, words.words)
            comparison.compare_random("valid", valid_text, valid)
            comparison.compare_random("changed", changed_text, changed)
    said = comparison.said
    print(f"verilog texts: the same on {sum(said.values())} texts of seed {words.seed}:",
          dict(sorted(said.items())))


if __name__ == "__main__":
    main()
