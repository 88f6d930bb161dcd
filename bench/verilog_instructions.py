#!/usr/bin/env python3
"""Counts the instructions of a tick of `firc vsim` on what `firc emit` writes of a circuit, beside
those of a tick of `firc sim` on the circuit, by valgrind's callgrind.

Each runs twice, for 100 and for 300 ticks: what the longer run takes more is divided by the 200
ticks, so that reading the text does not count, and what a tick takes for its line of the trace and
its line of output does. The circuits are the chain of registers that instructions.py has too, and
examples whose ticks are repeated. It fails where a tick of `vsim` takes more than 1.5 times the
instructions of one of `sim`, and where the lines of the two differ.

With an order the same of the rounds that settled the ticks: what a tick takes is divided by its
rounds, and by the processes, each of which takes a step in a round.

usage: verilog_instructions.py [--program PATH] [--registers N] [--orders N,..]

Without a program it runs the one that ./firc builds.
"""
import argparse
import pathlib
import re
import shutil
import sys
import tempfile

import register_chain
import runs
from instructions import TICKS, TOOLS, counted

EXAMPLES = ("pipeline_with_stall", "riscv_core", "uart")
MOST = 1.5
PROCESS = re.compile(r"^  (?:assign|always @\(posedge \S+(?: or posedge \S+)?\) if) ", re.MULTILINE)


def chain_trace(ticks):
    return "".join(f"0 {tick * 40503 % (1 << register_chain.WIDTH):04x}\n" for tick in range(ticks))


def repeated(trace, ticks):
    """So many ticks of a trace, which begin anew behind its last."""
    lines = [line for line in trace.splitlines() if line and not line.startswith("#")]
    init = [line for line in lines if line.startswith("init ")]
    own = lines[len(init):]
    return "".join(f"{line}\n" for line in init + [own[k % len(own)] for k in range(ticks)])


def circuits(registers):
    """The name of each, its text, and what makes its trace of so many ticks."""
    yield (f"chain of {registers} registers", register_chain.firrtl(registers, 10), chain_trace)
    for name in EXAMPLES:
        path = runs.ROOT / "examples" / f"{name}.fir"
        trace = path.with_suffix(".trace").read_text()
        yield name, path.read_text(), lambda ticks, trace=trace: repeated(trace, ticks)


def counted_ticks(work, traces, command):
    """What the ticks take by which the second trace is longer, and the lines of all its ticks."""
    totals = []
    for trace in traces:
        (work / "t").write_text(trace)
        totals.append(counted(work, "counts", command))
    return totals[1] - totals[0], (work / "out").read_text().splitlines()


def count_circuit(program, work, name, make_trace, orders):
    """Prints the lines of the circuit in t.fir and t.v, and gives what is wrong."""
    traces, more = [make_trace(ticks) for ticks in TICKS], TICKS[1] - TICKS[0]
    processes = len(PROCESS.findall((work / "t.v").read_text()))
    circuit, lines = counted_ticks(work, traces, [program, "sim", "t.fir", "t"])
    text, same_lines = counted_ticks(work, traces, [program, "vsim", "t.v", "t"])
    print(f"{name}: {text / circuit:.2f} times the instructions of sim ({text / more:.0f} a tick, "
          f"and {circuit / more:.0f})", flush=True)
    if lines != same_lines:
        yield "shows other lines"
    if text > MOST * circuit:
        yield f"takes more than {MOST} times the instructions of sim"
    for order in orders:
        taken, shown = counted_ticks(work, traces, [program, "vsim", "t.v", "t", "--order", order])
        rounds = sum(int(line.split()[-1]) for line in shown[TICKS[0]:])
        print(f"  order {order}: {rounds / more:.2f} rounds a tick, {taken / rounds:.0f} "
              f"instructions a round, {taken / rounds / processes:.1f} a process", flush=True)


def main():
    words = argparse.ArgumentParser(usage=__doc__)
    runs.add_program(words)
    words.add_argument("--registers", type=int, default=1024)
    words.add_argument("--orders", default="0,1,2")
    words = words.parse_args()
    missing = [tool for tool in TOOLS if not shutil.which(tool)]
    if missing:
        sys.exit(f"verilog_instructions: not installed: {' '.join(missing)}")
    program, failed = runs.program(words), []
    with tempfile.TemporaryDirectory() as folder:
        work = pathlib.Path(folder)
        # as instructions.py has it
        runs.sure(["objcopy", "--strip-debug", program, work / "firc"], work)
        for name, text, make_trace in circuits(words.registers):
            (work / "t.fir").write_text(text)
            runs.sure([program, "emit", "t.fir"], work, "t.v")
            failed += [f"{name} {fault}" for fault in count_circuit(
                work / "firc", work, name, make_trace, words.orders.split(","))]
    for fault in failed:
        print(f"verilog_instructions: {fault}", file=sys.stderr)
    return 1 if failed else 0


if __name__ == "__main__":
    sys.exit(main())
