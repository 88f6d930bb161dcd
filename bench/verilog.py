#!/usr/bin/env python3
"""Times how long `firc vsim` takes to read Verilog texts, and texts of twice the size, and prints a
table of both.

The trace has no tick; of a valid text there is a run of one tick as well. Each row has the line
that its texts end with: those that are not valid are refused for one fault. Rows are made by bytes,
with texts of 8 and 16 MiB, or by a number of wires. The first row is what `firc emit` writes of a
chain of nodes. Seconds are those of a processor for whole runs, the least of some runs.

It fails where a text ends otherwise, where the second one takes more than 1.1 times what its bytes
grow by, and where it takes more seconds, or more bytes of memory for a byte of text, than `Limits`
says: 10 seconds and 100 bytes, and for what is emitted less. Times under 0.2 seconds are too short
to compare. Limits are not judged where texts are made smaller.

usage: verilog.py [--program PATH] [--divide N] [--runs N] [NAME ..]

Without a program it runs the one that ./firc builds. With --divide all texts are made so many times
smaller. With names it runs the rows that have one of them in theirs.
"""
import argparse
import pathlib
import sys
import tempfile
import typing

import runs
import verilog_texts

MIB = 1048576


class Limits(typing.NamedTuple):
    seconds: float = 10
    # bytes for a byte of text
    memory: float = 100
    # of a run with one tick
    with_tick: float = 10


class Row(typing.NamedTuple):
    make: typing.Callable
    # the status, and of a fault its code
    ends: str = "0"
    half: int = 8 * MIB
    whole: int = 16 * MIB
    # whether a circuit is made, whose Verilog is measured
    is_emitted: bool = False
    limits: Limits = Limits()

    def name(self, divide):
        spelled = self.make.__name__.replace("_", " ")
        if self.whole == 16 * MIB:
            return spelled
        return f"{spelled}, {max(1, self.half // divide)} and {max(1, self.whole // divide)}"


ROWS = [
    Row(verilog_texts.emitted_chain_of_nodes, is_emitted=True, limits=Limits(3, 40, 5)),
    Row(verilog_texts.one_line_of_items),
    Row(verilog_texts.lines_of_comments),
    Row(verilog_texts.one_comment),
    Row(verilog_texts.concatenations_of_128_parts),
    Row(verilog_texts.wires_of_the_input, "0", 100000, 200000),
    Row(verilog_texts.chain_forwards, "0", 100000, 200000),
    Row(verilog_texts.chain_backwards, "0", 100000, 200000),
    Row(verilog_texts.chain_before_its_wires, "7 V03", 100000, 200000),
    Row(verilog_texts.ring, "7 V06", 100000, 200000),
]


class Taken(typing.NamedTuple):
    read: int
    seconds: float
    # bytes for a byte of text
    memory: float
    ends: str


def put_text(program, work, row, size):
    """Makes the text of that size."""
    if row.is_emitted:
        (work / "t.fir").write_text(row.make(size))
        runs.sure([program, "emit", "t.fir"], work, "t.v")
    else:
        (work / "t.v").write_text(row.make(size))


def taken(program, count, work, trace):
    """What the least of so many runs on the trace took."""
    (work / "trace").write_text(trace)
    done = [runs.timed([program, "vsim", "t.v", "trace"], work) for _ in range(count)]
    best, size = min(done, key=lambda run: run.seconds), (work / "t.v").stat().st_size
    ends = f"{best.status} {best.says[:40]}".strip()
    return Taken(size, best.seconds, best.memory / size, ends)


def faults(row, half, whole):
    """What is wrong with both runs of a row."""
    for run in (half, whole):
        if not run.ends.startswith(row.ends):
            yield f"ends with {run.ends} and not with {row.ends}"
    grew, bytes_grew = whole.seconds / max(half.seconds, 0.01), whole.read / half.read
    if whole.seconds > 0.2 and grew > 1.1 * bytes_grew:
        yield f"takes {grew:.1f} times the time for {bytes_grew:.1f} times the bytes"


def past_limits(limits, whole, with_tick):
    """What the second text takes too much of."""
    if whole.seconds > limits.seconds:
        yield f"takes more than {limits.seconds} seconds"
    if whole.memory > limits.memory:
        yield f"takes more than {limits.memory} bytes of memory for a byte of text"
    if with_tick and with_tick.seconds > limits.with_tick:
        yield f"takes more than {limits.with_tick} seconds to its first line"


def measured(program, work, row, words):
    """Prints the line of a row, and gives what is wrong with it."""
    done, with_tick = [], None
    for size in (row.half, row.whole):
        put_text(program, work, row, max(1, size // words.divide))
        done.append(taken(program, words.runs, work, ""))
    half, whole = done
    if row.ends == "0":
        with_tick = taken(program, words.runs, work, "- 1\n")
    cells = [row.name(words.divide)]
    for run in done:
        cells += [run.read, f"{run.seconds:.2f}", f"{run.memory:.0f}"]
    cells += [f"{with_tick.seconds:.2f}" if with_tick else "", whole.ends]
    print("| " + " | ".join(map(str, cells)) + " |", flush=True)
    yield from faults(row, half, whole)
    if with_tick and with_tick.ends != "0":
        yield f"ends with {with_tick.ends} at a tick"
    if words.divide == 1:
        yield from past_limits(row.limits, whole, with_tick)


def main():
    words = argparse.ArgumentParser(usage=__doc__)
    runs.add_program(words)
    words.add_argument("--divide", type=int, default=1)
    words.add_argument("--runs", type=int, default=3)
    words.add_argument("names", nargs="*")
    words = words.parse_args()
    program, failed = runs.program(words), []
    print("| Text | Read | Seconds | Memory a byte | Twice: read | Seconds | Memory a byte "
          "| Seconds with a tick | Status |")
    print("|---|---|---|---|---|---|---|---|---|")
    with tempfile.TemporaryDirectory() as folder:
        for row in ROWS:
            name = row.name(words.divide)
            if words.names and not any(part in name for part in words.names):
                continue
            failed += [f"{name} {fault}" for fault
                       in measured(program, pathlib.Path(folder), row, words)]
    for fault in failed:
        print(f"verilog: {fault}", file=sys.stderr)
    return 1 if failed else 0


if __name__ == "__main__":
    sys.exit(main())
