#!/usr/bin/env python3
"""Compares firc with second readings of the language's rules, on circuits made at random.

A circuit of circuit_maker.py is either refused with the line of its first fault (readings.py), or
emitted; what is emitted is run by the simulator, and by Icarus Verilog where that is installed,
from a random state over random ticks, and shows the values that Python's integers give
(tick_rules.py). Icarus is not asked where a net wider than 64 bits is divided, which Icarus 11.0
does wrongly, and where an asynchronous reset is logic (test_bench.py). With `faults` texts with
faults of every code from E04 to E28 are refused with their line (fault_texts.py).

usage: circuits.py [--program PATH] COUNT [SEED]
       circuits.py [--program PATH] faults COUNT [SEED]

Without a program it runs ./firc.
"""
import argparse
import pathlib
import random
import re
import shutil
import subprocess
import sys
import tempfile

import operators
from circuit_maker import CircuitMaker
from expected import shown_lines, trace_lines
from fault_texts import made_with_fault
from name_texts import Writer
from readings import Reading
from test_bench import resets_follow_inputs, test_bench

ROOT = pathlib.Path(__file__).resolve().parent.parent
TICKS = 32
# a net that a quotient or a remainder drives
DIVIDED = re.compile(r"^  assign (\w+) = [^/%\n]* [/%] ", re.MULTILINE)
WIDE = re.compile(r"^  wire \[(\d+):0\] (\w+);$", re.MULTILINE)


def random_run(source, chance):
    """An initial state, and ticks as the numbers of the clocks that rise and the inputs."""
    def values(paths):
        return [value(width) for width in source.widths(paths)]

    def value(width):
        drawn = [chance.randrange(1 << width) for _ in range(3)]
        corners = operators.Type(True, width).corners()
        return chance.choice([corner % (1 << width) for corner in corners] + drawn)

    ticks = []
    for _ in range(TICKS):
        rising = [k for k in range(len(source.clocks)) if chance.random() < 0.5]
        ticks.append((rising, values(source.inputs)))
    return [value(width) for width in source.state_widths()], ticks


def shown_by_icarus(work, verilog, lines):
    """What Icarus shows of the emitted text in the bench, or what it says where it refuses them."""
    (work / "t.v").write_text(verilog)
    (work / "bench.v").write_text("\n".join(lines) + "\n")
    words = ["iverilog", "-g2005", "-o", "t.vvp", "t.v", "bench.v"]
    built = subprocess.run(words, cwd=work, capture_output=True, text=True)
    if built.returncode:
        return built.stderr
    words = ["vvp", "-n", "t.vvp"]
    return subprocess.run(words, cwd=work, capture_output=True, text=True, check=True).stdout


def divides_wide(verilog):
    """Whether the text divides at more than 64 bits: operands have the width of the net driven."""
    wide = {name for high, name in WIDE.findall(verilog) if int(high) >= 64}
    return any(name in wide for name in DIVIDED.findall(verilog))


def why_without_icarus(verilog, source):
    """What circuits do that Icarus is not asked about, or None."""
    if divides_wide(verilog):
        return "divide wide nets"
    return None if resets_follow_inputs(source) else "have resets that are logic"


class Comparison:
    """Compares a program with the readings, in a folder. It ends where the two differ."""

    def __init__(self, program, work):
        self.program, self.work = program, work
        self.with_icarus = bool(shutil.which("iverilog") and shutil.which("vvp"))
        # why Icarus was not asked, and how often
        self.without_icarus = {}

    def said(self, *words):
        return subprocess.run([self.program, *words], cwd=self.work, capture_output=True, text=True)

    def emitted(self, text, reading):
        """What the program says of a text on both outputs."""
        (self.work / "t.fir").write_text(text)
        done = self.said("emit", "t.fir")
        says = done.stderr.removesuffix("\n")
        if not reading.takes(says) or done.returncode != (1 if says else 0):
            says = f"{says!r} with status {done.returncode}"
            sys.exit(f"of\n{text}\nfirc says {says}, the rules '{reading}'")
        return done.stdout, says

    def shown_by_sim(self, trace):
        """What the simulator shows of the circuit, or what it says where it refuses it."""
        (self.work / "t.trace").write_text(trace)
        done = self.said("sim", "t.fir", "t.trace", "--state")
        return done.stdout + done.stderr

    def compare(self, text, chance):
        """Compares all that is said of a circuit. Gives the code of its fault, or 'emitted'; or
        'large' where its vectors are too large for the readings."""
        reading = Reading(text)
        verilog, says = self.emitted(text, reading)
        if says:
            return says[:3]
        if reading.source is None:
            return "large"
        run = random_run(reading.source, chance)
        trace = "".join(line + "\n" for line in trace_lines(reading.source, *run))
        wanted = "".join(line + "\n" for line in shown_lines(reading.source, *run))
        shows = {"firc sim": self.shown_by_sim(trace)}
        why = why_without_icarus(verilog, reading.source)
        if why:
            self.without_icarus[why] = self.without_icarus.get(why, 0) + 1
        elif self.with_icarus:
            bench = test_bench(reading.source, *run)
            shows["Icarus"] = shown_by_icarus(self.work, verilog, bench)
        for by, shown in shows.items():
            if shown != wanted:
                shown = f"{by} shows\n{shown}where the source has\n{wanted}"
                sys.exit(f"of\n{text}\nwith the trace\n{trace}\n{shown}")
        return "emitted"


def main():
    words = argparse.ArgumentParser(usage=__doc__)
    words.add_argument("--program", type=pathlib.Path, default=ROOT / "firc")
    words.add_argument("words", nargs="+")
    words = words.parse_args()
    of_faults = words.words[0] == "faults"
    count, *seed = map(int, words.words[of_faults:])
    chance, said = random.Random(*seed or [1]), {}
    operators.hold_laws(chance)
    with tempfile.TemporaryDirectory() as work:
        comparison = Comparison(words.program.resolve(), pathlib.Path(work))
        for _ in range(count):
            if of_faults:
                code = comparison.emitted(*made_with_fault(chance))[1][:3]
            else:
                text = Writer(chance).text(CircuitMaker(chance).line())
                code = comparison.compare(text, chance)
            said[code] = said.get(code, 0) + 1
    if not of_faults and not comparison.with_icarus:
        print("circuits: Icarus is not installed, so only the simulator was compared")
    elif comparison.without_icarus:
        told = (f"{count} {why}" for why, count in sorted(comparison.without_icarus.items()))
        print("circuits: Icarus was not asked about some:", ", ".join(told))
    what = "faults" if of_faults else "circuits"
    print(f"{what}: the same on", sum(said.values()), "circuits:", dict(sorted(said.items())))


if __name__ == "__main__":
    main()
