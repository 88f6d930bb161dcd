#!/usr/bin/env python3
"""Counts the instructions of `firc emit` and `firc sim` by valgrind's callgrind: they are the same
on every run, whatever else the machine does.

`emit` runs on a chain of 20000 nodes, each of the one before: all instructions of the run, the
start of the program among them, are divided by the bytes of the text. `sim` runs twice on a chain
of 1024 registers that each take ten operators over the one before, for 100 and for 300 ticks: what
the longer run takes more is divided by the 200 ticks and by the nodes of the circuit. So reading
and compiling it does not count, and what a tick takes for registers, its line of the trace and its
line of output does. Nodes are the inner nets of the emitted text; operators that are equal share
one.

usage: instructions.py [--program PATH] [--nodes N] [--registers N] [--functions]

Without a program it runs the one that ./firc builds. With --functions it lists the 25 functions
that cost most, of `emit` and of the longer run of `sim`, with their own instructions.
"""
import argparse
import itertools
import pathlib
import re
import shutil
import sys
import tempfile

import register_chain
import runs
import texts

TICKS = (100, 300)
LISTED = 25
TOOLS = ("valgrind", "callgrind_annotate", "objcopy")


def counted(work, counts, command):
    """The instructions of a run; how they are spread stands in the file of that name."""
    valgrind = ["valgrind", "--tool=callgrind", f"--callgrind-out-file={work / counts}"]
    runs.sure([*valgrind, *command], work, "out")
    found = re.search(r"^totals: (\d+)", (work / counts).read_text(), re.MULTILINE)
    if not found:
        sys.exit("instructions: callgrind has counted nothing")
    return int(found[1])


def list_functions(work, counts):
    """Prints the functions that cost most of a run that was counted."""
    runs.sure(["callgrind_annotate", "--threshold=100", counts], work, "functions")
    lines = (work / "functions").read_text().splitlines()
    start = next(k for k, line in enumerate(lines) if "file:function" in line) + 2
    # behind the functions stands an empty line
    listed = itertools.takewhile(str.strip, lines[start:start + LISTED])
    for line in listed:
        print("  " + re.sub(r" \[[^\]]*\]$", "", line.strip()))


def count_emit(program, work, nodes):
    text = texts.chain(nodes)
    (work / "chain.fir").write_text(text)
    total = counted(work, "emit.counts", [program, "emit", "chain.fir"])
    print(f"emit: {total / len(text):.1f} instructions a byte of text ({total} for {len(text)} "
          f"bytes, {nodes} nodes)", flush=True)


def count_sim(program, work, registers):
    (work / "chain.fir").write_text(register_chain.firrtl(registers, 10))
    runs.sure([program, "emit", "chain.fir"], work, "chain.v")
    nodes = (work / "chain.v").read_text().count("\n  wire ")
    totals = []
    for ticks in TICKS:
        lines = (f"0 {tick * 40503 % (1 << register_chain.WIDTH):04x}\n" for tick in range(ticks))
        (work / "chain.trace").write_text("".join(lines))
        totals.append(counted(work, "sim.counts", [program, "sim", "chain.fir", "chain.trace"]))
    more, ticks = totals[1] - totals[0], TICKS[1] - TICKS[0]
    print(f"sim: {more / nodes / ticks:.1f} instructions a node and tick ({more} for {nodes} nodes "
          f"and {ticks} ticks)", flush=True)


def main():
    words = argparse.ArgumentParser(usage=__doc__)
    runs.add_program(words)
    words.add_argument("--nodes", type=int, default=20000)
    words.add_argument("--registers", type=int, default=1024)
    words.add_argument("--functions", action="store_true")
    words = words.parse_args()
    missing = [tool for tool in TOOLS if not shutil.which(tool)]
    if missing:
        sys.exit(f"instructions: not installed: {' '.join(missing)}")
    program = runs.program(words)
    with tempfile.TemporaryDirectory() as folder:
        work = pathlib.Path(folder)
        # valgrind does not read all forms of debug information, and the names of functions stand
        # elsewhere
        runs.sure(["objcopy", "--strip-debug", program, work / "firc"], work)
        count_emit(work / "firc", work, words.nodes)
        if words.functions:
            list_functions(work, "emit.counts")
        count_sim(work / "firc", work, words.registers)
        if words.functions:
            list_functions(work, "sim.counts")


if __name__ == "__main__":
    main()
