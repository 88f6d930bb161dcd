#!/usr/bin/env python3
"""Counts the inner nets of the emitted text: of a chain of 20000 nodes `not`, which folds away, of
4096 registers that take a sum or an exclusive or in turn, and of ten examples. Inner nets are the
wires of the text; each has one operator, or one part of one.

usage: nets.py [--program PATH] [--before PATH]

Without a program it runs the one that ./firc builds. With --before the nets of another program stand
beside them, and how many times as many they are.
"""
import argparse
import pathlib
import sys
import tempfile

import runs
import texts

ROOT = pathlib.Path(__file__).resolve().parent.parent
EXAMPLES = ["alu", "barrel_shifter", "crc8", "direct_mapped_cache", "fir_filter", "gcd",
            "riscv_core", "synchronous_fifo", "timer_with_prescaler", "uart"]


def registers_in_turn(count):
    """A circuit of that many registers of 16 bits, each of which takes a sum of itself and the one
    before it, or their exclusive or."""
    lines = ["circuit Gen :", "  module Gen :", "    input clock : Clock",
             "    input reset : UInt<1>", "    input x : UInt<16>", "    output y : UInt<16>"]
    before = "x"
    for k in range(count):
        lines.append(f"    reg r{k} : UInt<16>, clock with : (reset => (reset, UInt<16>({k})))")
        if k == 0:
            lines.append("    r0 <= tail(add(r0, x), 1)")
        else:
            lines += ["    when bits(x, 0, 0) :", f"      r{k} <= xor({before}, r{k})",
                      "    else :", f"      r{k} <= tail(add(r{k}, {before}), 1)"]
        before = f"r{k}"
    return "\n".join([*lines, f"    y <= {before}", ""])


def rows():
    """The name of each row and its text."""
    yield "chain of 20000 `not`", texts.chain(20000).replace("xor(", "not(").replace(", UInt<4>(5)", "")
    yield "4096 registers", registers_in_turn(4096)
    for name in EXAMPLES:
        yield name, (ROOT / "examples" / f"{name}.fir").read_text()


def nets(program, work, text):
    """How many inner nets the program emits for a text."""
    (work / "f.fir").write_text(text)
    runs.sure([program, "emit", "f.fir"], work, "f.v")
    return (work / "f.v").read_text().count("\n  wire ")


def main():
    parser = argparse.ArgumentParser()
    runs.add_program(parser)
    parser.add_argument("--before", type=pathlib.Path)
    words = parser.parse_args()
    program = runs.program(words)
    print("| Text | Nets |" + (" Before | Ratio |" if words.before else ""))
    print("|---|---|" + ("---|---|" if words.before else ""))
    totals = [0, 0]
    with tempfile.TemporaryDirectory() as folder:
        work = pathlib.Path(folder)
        for name, text in rows():
            found = [nets(program, work, text)]
            if words.before:
                found.append(nets(words.before.resolve(), work, text))
            if name in EXAMPLES:
                totals = [total + count for total, count in zip(totals, found + [0])]
            show(name, found)
    show("the ten examples", totals[:2 if words.before else 1])


def show(name, found):
    """Prints a row of the table."""
    ratio = f" {found[0] / found[1]:.2f} |" if len(found) == 2 and found[1] else ""
    print(f"| {name} | " + " | ".join(map(str, found)) + " |" + ratio, flush=True)


if __name__ == "__main__":
    sys.exit(main())
