#!/usr/bin/env python3
"""Compares what firc and Icarus Verilog show of texts of the Verilog subset on traces with a second
reading of what they mean (verilog_runs.py): of texts and traces made at random, or with `examples`
of those of examples/verilog, whose lines with the state stand in NAME.expected.

Icarus shows the ticks before the first without a value, and is not asked of some texts
(verilog_bench.py). Where it is not installed, it is left out.

usage: verilog_simulated.py [--program PATH] [--seed N] COUNT
       verilog_simulated.py [--program PATH] examples [--write]

Without a program it runs the one that ./firc builds. With --write it writes the files NAME.expected.
"""
import argparse
import pathlib
import random
import sys
import tempfile

import verilog_bench
from rows import ROOT, built
from verilog_bench import Bench, shown_by_icarus
from verilog_runs import Design, ran
from verilog_text_maker import TextMaker, Writer
from verilog_texts import Program
from verilog_traces import BadLine, TraceReader

EXAMPLES = ROOT / "examples" / "verilog"
MOST_TICKS = 16
MOST_WORDS = 200
GREATEST_ORDER = 2**32 - 1
BAD_LINES = [b"x", b"init", b"0,0", b"- ", b"init o 0", b"-1", b"999999", b"init always 0"]


def random_value(chance, width):
    corners = [0, 1, (1 << width) - 1, 1 << (width - 1), chance.randrange(1 << width)]
    return chance.choice(corners + [chance.randrange(1 << width)])


def hexadecimal(chance, value):
    digits = f"{value:x}"
    return chance.choice(["", "", "0"]) + chance.choice([digits, digits.upper()])


def init_lines(chance, shape):
    """Lines for some words of the state."""
    words = [((name,), width) for name, width in shape.registers.items()]
    words += [((name, b"%d" % address), width) for name, (width, depth) in shape.arrays.items()
              for address in range(depth)]
    for key, width in words:
        if chance.random() < 0.6:
            value = hexadecimal(chance, random_value(chance, width))
            yield b" ".join([b"init", *key, value.encode()])


def random_trace(chance, shape):
    """A trace of that shape; now and then with a line that is out of form."""
    lines = list(init_lines(chance, shape))
    for _ in range(chance.randint(1, MOST_TICKS)):
        rising = [str(k) for k in range(shape.clocks) if chance.random() < 0.5]
        values = [hexadecimal(chance, random_value(chance, width)) for width in shape.inputs]
        lines.append(" ".join([",".join(rising) or "-", *values]).encode())
    if chance.random() < 0.05:
        lines.insert(chance.randint(0, len(lines)), chance.choice(BAD_LINES))
    return b"".join(line + b"\n" for line in lines)


def taken(design, trace):
    """What a trace gives: what the state is at first, and the ticks before a bad line."""
    reader, ticks = TraceReader(design.shape(), trace), []
    try:
        ticks.extend(reader.ticks())
    except BadLine:
        pass
    return reader.init, ticks


class Comparison:
    """Compares what the program and Icarus show with the second reading, in a folder."""

    def __init__(self, program, folder):
        self.program, self.folder = program, folder
        self.with_icarus = verilog_bench.is_installed()
        self.without_icarus = {}
        self.status = {}

    def differs(self, what, text, trace, by, shown, wanted):
        kept = pathlib.Path(tempfile.mkdtemp(prefix="verilog_simulated_"))
        (kept / "t.v").write_bytes(text)
        (kept / "t.trace").write_bytes(trace)
        sys.exit(f"of {kept} ({what})\n{text.decode('latin-1')}\nwith the trace\n{trace.decode()}\n"
                 f"{by} shows {shown}\nthe rules {wanted}")

    def compare(self, what, text, trace, orders):
        """Compares a run with the state, and runs of the orders. Gives the lines of the first."""
        wanted = ran(text, trace, True)
        self.status[wanted[0]] = self.status.get(wanted[0], 0) + 1
        self.compare_program(what, text, trace, ["--state"], wanted)
        for order in orders:
            ordered = ran(text, trace, True, order)
            words = ["--state", "--order", str(order)]
            self.compare_program(what, text, trace, words, ordered)
        if self.with_icarus and wanted[1]:
            self.compare_icarus(what, text, trace, wanted[1])
        return wanted

    def compare_program(self, what, text, trace, words, wanted):
        shown = self.program.run(text, trace, words)
        if shown != wanted:
            self.differs(what, text, trace, " ".join(["firc vsim", *words]), shown, wanted)

    def compare_icarus(self, what, text, trace, wanted):
        design = Design(text)
        why = verilog_bench.why_not(design)
        if why:
            self.without_icarus[why] = self.without_icarus.get(why, 0) + 1
            return
        init, ticks = taken(design, trace)
        bench = Bench(design, init, ticks[:wanted.count(b"\n")])
        shown = shown_by_icarus(self.folder, text, bench)
        if shown != wanted:
            self.differs(what, text, trace, "Icarus", shown.decode(), wanted.decode())

    def compare_random(self, seed, count):
        for number in range(count):
            chance = random.Random(f"{seed} simulated {number}")
            text = Writer(chance).text(TextMaker(chance, has_input_resets=number % 2).groups())
            design = Design(text)
            if sum(depth for _, depth in design.arrays.values()) > MOST_WORDS:
                continue
            orders = [chance.choice([0, 1, chance.randint(0, GREATEST_ORDER), GREATEST_ORDER])]
            trace = random_trace(chance, design.shape())
            self.compare(f"text {number} of seed {seed}", text, trace, orders)

    def compare_examples(self, write):
        for path in sorted(EXAMPLES.glob("*.v")):
            trace = path.with_suffix(".trace").read_bytes()
            status, out, err = self.compare(path.name, path.read_bytes(), trace, range(8))
            expected = path.with_suffix(".expected")
            if write:
                expected.write_bytes(out)
            elif status or expected.read_bytes() != out:
                sys.exit(f"of {path.name} the rules show {out.decode()}, status {status} {err!r}")

    def told(self):
        if not self.with_icarus:
            yield "verilog simulated: Icarus is not installed, so it was not compared"
        for why, count in sorted(self.without_icarus.items()):
            yield f"verilog simulated: Icarus was not asked of {count} texts that {why}"
        count, status = sum(self.status.values()), dict(sorted(self.status.items()))
        yield f"verilog simulated: the same on {count} texts, by status {status}"


def main():
    words = argparse.ArgumentParser(usage=__doc__)
    words.add_argument("--program", type=pathlib.Path)
    words.add_argument("--seed", type=int, default=1)
    words.add_argument("--write", action="store_true")
    words.add_argument("what")
    words = words.parse_args()
    with tempfile.TemporaryDirectory() as work:
        folder = pathlib.Path(work)
        comparison = Comparison(Program((words.program or built()).resolve(), folder), folder)
        if words.what == "examples":
            comparison.compare_examples(words.write)
        else:
            comparison.compare_random(words.seed, int(words.what))
    print("\n".join(comparison.told()))


if __name__ == "__main__":
    main()
