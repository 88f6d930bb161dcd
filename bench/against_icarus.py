#!/usr/bin/env python3
"""Compares the speed of firc with that of Icarus Verilog, on chains of 4096 registers.

First `firc emit` against `iverilog -g2005` on the same circuit in Verilog as it would be written by
hand, and on the text that was emitted: for registers that each take one operator over the one
before, and for registers that each take ten. Then `firc sim` against vvp on the emitted text of the
latter, in ticks a second, for 10000 ticks. All show the last register after each tick and must show
the same, the text by hand for the first 100.

The times are seconds of a processor for whole runs, of `emit` and iverilog the least of three:
`firc sim` reads and compiles the circuit too, and vvp runs what iverilog has compiled before. A
ratio says how many times as fast firc is.

usage: against_icarus.py [--program PATH] [--registers N] [--ticks N]

Without a program it runs the one that ./firc builds.
"""
import argparse
import pathlib
import random
import shutil
import sys
import tempfile

import register_chain
import runs
from register_chain import WIDTH

RUNS = 3
TICKS_BY_HAND = 100


def bench(inputs):
    """A Verilog bench that shows the output of each tick as the simulator does."""
    return f"""module bench;
  reg clock = 0;
  reg [{WIDTH - 1}:0] a;
  reg [{WIDTH - 1}:0] inputs [0:{len(inputs) - 1}];
  wire [{WIDTH - 1}:0] o;
  integer k;
  Chain chain(clock, a, o);
  initial begin
    $readmemh("inputs.hex", inputs);
    for (k = 0; k < {len(inputs)}; k = k + 1) begin
      a = inputs[k];
      #1 $display("%h", o);
      clock = 1;
      #1 clock = 0;
    end
    $finish;
  end
endmodule
"""


def zeros(text):
    """The text with a start at 0 for each register, as in a trace without init lines."""
    lines = text.split("\n")
    return "\n".join(line[:-1] + " = 0;" if line.startswith("  reg [") else line for line in lines)


def run_by_vvp(work, text, inputs):
    """A run of the Verilog on these inputs; what it shows stands in vvp.out."""
    (work / "zeros.v").write_text(zeros(text))
    (work / "bench.v").write_text(bench(inputs))
    (work / "inputs.hex").write_text("\n".join(inputs) + "\n")
    runs.sure(["iverilog", "-g2005", "-o", "chain.vvp", "zeros.v", "bench.v"], work)
    return runs.sure(["vvp", "-n", "chain.vvp"], work, "vvp.out")


def compare_compilers(program, work, registers, operators):
    """Prints the line of `emit` and iverilog on a chain; its texts stand in chain.fir, chain.v and
    hand.v then."""
    (work / "chain.fir").write_text(register_chain.firrtl(registers, operators))
    (work / "hand.v").write_text(register_chain.verilog(registers, operators))
    emit = runs.least(RUNS, [program, "emit", "chain.fir"], work, "chain.v").seconds
    hand, emitted = (runs.least(RUNS, ["iverilog", "-g2005", "-o", "t.vvp", name], work).seconds
                     for name in ("hand.v", "chain.v"))
    print(f"{registers} registers of {operators} operators: firc emit {emit:.2f} s; iverilog "
          f"{hand:.2f} s by hand, ratio {hand / emit:.2f}; {emitted:.2f} s on the emitted text, "
          f"ratio {emitted / emit:.2f}")


def compare_simulators(program, work, registers, ticks):
    """Prints the lines of `sim` and vvp on the chain in chain.fir, chain.v and hand.v."""
    chance = random.Random(1)
    inputs = [f"{chance.randrange(1 << WIDTH):04x}" for _ in range(ticks)]
    (work / "chain.trace").write_text("".join(f"0 {value}\n" for value in inputs))
    own = runs.sure([program, "sim", "chain.fir", "chain.trace"], work, "sim.out")
    print(f"firc sim: {ticks / own.seconds:.0f} ticks a second ({own.seconds:.1f} s for {ticks} "
          f"ticks of {registers} registers)", flush=True)
    shown = (work / "sim.out").read_text()
    other = run_by_vvp(work, (work / "chain.v").read_text(), inputs)
    print(f"vvp: {ticks / other.seconds:.0f} ticks a second ({other.seconds:.1f} s)")
    print(f"ratio: {other.seconds / own.seconds:.2f}")
    if (work / "vvp.out").read_text() != shown:
        sys.exit("against_icarus: sim and the emitted text show other values")
    run_by_vvp(work, (work / "hand.v").read_text(), inputs[:TICKS_BY_HAND])
    if (work / "vvp.out").read_text().split() != shown.split()[:TICKS_BY_HAND]:
        sys.exit("against_icarus: the text by hand shows other values")


def main():
    words = argparse.ArgumentParser(usage=__doc__)
    runs.add_program(words)
    words.add_argument("--registers", type=int, default=4096)
    words.add_argument("--ticks", type=int, default=10000)
    words = words.parse_args()
    if not (shutil.which("iverilog") and shutil.which("vvp")):
        sys.exit("against_icarus: Icarus Verilog is not installed, so there is nothing to compare")
    program = runs.program(words)
    with tempfile.TemporaryDirectory() as folder:
        work = pathlib.Path(folder)
        for operators in sorted(register_chain.STEPS):
            compare_compilers(program, work, words.registers, operators)
        compare_simulators(program, work, words.registers, words.ticks)


if __name__ == "__main__":
    main()
