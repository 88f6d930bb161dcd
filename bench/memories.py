#!/usr/bin/env python3
"""Measures `firc emit` and `firc sim` on memories, and prints a table: the bytes of the text and of
the Verilog, seconds of a processor, and the most memory that a run had, of both commands; `sim` runs
some ticks without printing the state.

Rows are of two sizes: a memory of 2,000,000 and of 4,000,000 words; 5,000 and 10,000 ports of one
memory, all of which but one read, or write, at once or late, with `old` and with `new`; and 100 and
200 ports of either kind, since with `new` what each late reader takes hangs on each write.

usage: memories.py [--program PATH] [--ticks N] [NAME ..]

Without a program it runs the one that ./firc builds. With names it runs the rows that have one of
them in theirs.
"""
import argparse
import pathlib
import sys
import tempfile

import runs
import texts

MIB = 1048576


def ports(readers, writers, latency, under):
    return lambda: texts.memory_of_ports(readers, writers, latency, under)


def rows():
    """The name of each row, what makes its text, and the words of a tick behind the clocks."""
    for depth in (2000000, 4000000):
        yield f"{depth} words", lambda depth=depth: texts.large_memory(depth), ["5a"]
    for count in (5000, 10000):
        for name, latency, under in (("at once", 0, "old"), ("late, old", 1, "old"),
                                     ("late, new", 1, "new")):
            inputs = ["15", "1", "5a"]
            yield f"{count} readers and a writer, {name}", ports(count, 1, latency, under), inputs
            yield f"a reader and {count} writers, {name}", ports(1, count, latency, under), inputs
    for count in (100, 200):
        for under in ("old", "new"):
            name = f"{count} readers and {count} writers, late, {under}"
            yield name, ports(count, count, 1, under), ["15", "1", "5a"]


def measured(program, work, text, inputs, ticks):
    """The cells of a row behind its name, and whether a run has failed."""
    (work / "t.fir").write_text(text)
    (work / "t.trace").write_text(f"0 {' '.join(inputs)}\n" * ticks)
    cells, has_failed = [len(text)], False
    for command, target in (([program, "emit", "t.fir"], "t.v"),
                            ([program, "sim", "t.fir", "t.trace"], "lines")):
        run = runs.timed(command, work, target)
        has_failed |= run.status != 0
        if target == "t.v":
            cells.append((work / "t.v").stat().st_size)
        cells += [f"{run.seconds:.2f}", run.memory // MIB]
        if run.status != 0:
            cells[-1] = f"{run.status} {run.says[:40]}"
    return cells, has_failed


def main():
    words = argparse.ArgumentParser(usage=__doc__)
    runs.add_program(words)
    words.add_argument("--ticks", type=int, default=100)
    words.add_argument("names", nargs="*")
    words = words.parse_args()
    program, failed = runs.program(words), False
    print(f"| Text | Read | Written | `emit`: seconds | MiB | `sim`, {words.ticks} ticks: seconds "
          "| MiB |")
    print("|---|---|---|---|---|---|---|")
    with tempfile.TemporaryDirectory() as folder:
        for name, make, inputs in rows():
            if words.names and not any(part in name for part in words.names):
                continue
            cells, has_failed = measured(program, pathlib.Path(folder), make(), inputs, words.ticks)
            print("| " + " | ".join(map(str, [name, *cells])) + " |", flush=True)
            failed |= has_failed
    return 1 if failed else 0


if __name__ == "__main__":
    sys.exit(main())
