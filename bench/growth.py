#!/usr/bin/env python3
"""Times `firc emit` on texts and on texts of twice the size, and prints a table of both.

Each row has the line that its texts end with: most are circuits that go through the whole chain,
and the others are refused for one fault. Rows are made by bytes, with texts of 8 and 16 MiB, or by
a count; then the table tells both. Time goes with the bytes that are read and written. It fails
where a text ends otherwise, and where the time of the second one grows by more than 1.25 times what
these bytes grow by; times under 0.2 seconds are too short to compare. Seconds are those of a
processor, the least of some runs.

Below the table stand the most memory that a run had, and what a text of 16 MiB of bundles, vectors,
whens and wires takes: it fails too where that is over 10 seconds, or over 100 bytes of memory for a
byte of text. That is not judged where texts are made smaller.

usage: growth.py [--program PATH] [--divide N] [--runs N] [NAME ..]

Without a program it runs the one that ./firc builds. With --divide all texts are made so many times
smaller. With names it runs the rows that have one of them in theirs.
"""
import argparse
import pathlib
import sys
import tempfile
import typing

import runs
import texts

MIB = 1048576
MOST_SECONDS = 10
MOST_MEMORY = 100


class Row(typing.NamedTuple):
    make: typing.Callable
    # the status, and of a fault its code
    ends: str = "0"
    half: int = 8 * MIB
    whole: int = 16 * MIB

    def name(self, divide):
        spelled = self.make.__name__.replace("_", " ")
        if self.whole == 16 * MIB:
            return spelled
        return f"{spelled}, {max(1, self.half // divide)} and {max(1, self.whole // divide)}"


ROWS = [
    # forms of the text
    Row(texts.blank_lines),
    Row(texts.one_comment),
    Row(texts.one_information),
    Row(texts.one_long_name),
    Row(texts.skips),
    Row(texts.dots, "1 E06"),
    # names
    Row(texts.modules, "1 E10"),
    Row(texts.instances),
    Row(texts.chain_of_modules, "1 E23"),
    Row(texts.ring_of_modules, "1 E11"),
    Row(texts.ports_of_one_memory),
    Row(texts.one_long_name_used_many_times),
    Row(texts.elements_of_a_long_name, "0", 4096, 8192),
    Row(texts.nodes_that_stand_for_a_long_name, "0", 16000, 32000),
    Row(texts.elements_of_a_wire_of_a_long_name, "0", 16000, 32000),
    Row(texts.leaves_of_one_base, "0", 4096, 8192),
    # designs
    Row(texts.instances_of_a_register, "0", 50000, 100000),
    Row(texts.levels_of_two_instances, "0", 15, 16),
    Row(texts.levels_of_one_instance, "0", 400, 800),
    Row(texts.instances_of_1000_registers, "0", 2000, 4000),
    # nodes, registers and ports
    Row(texts.chain, "0", 20000, 200000),
    Row(texts.chain_of_nodes),
    Row(texts.connects),
    Row(texts.many_ports),
    Row(texts.chain_of_registers),
    Row(texts.chain_of_registers_with_resets),
    # widths and resets that are inferred
    Row(texts.chain_without_widths, "0", 20000, 200000),
    Row(texts.ring_that_grows, "1 E19", 20000, 200000),
    Row(texts.resets_in_a_row, "0", 20000, 200000),
    # bundles and vectors
    Row(texts.fields_of_one_bundle),
    Row(texts.parts_of_references),
    Row(texts.elements_of_vectors),
    Row(texts.deep_bundles),
    Row(texts.connects_of_100_fields, "0", 10000, 20000),
    Row(texts.partial_connects_of_100_fields, "0", 10000, 20000),
    Row(texts.muxes_of_100_fields, "0", 5000, 10000),
    Row(texts.nodes_of_100_fields, "0", 10000, 20000),
    Row(texts.connects_of_1000_fields, "0", 1000, 2000),
    Row(texts.nodes_of_1000_fields, "0", 1000, 2000),
    Row(texts.connects_of_as_many_fields, "1 E23", 2500, 5000),
    Row(texts.connects_of_as_many_fields_without_leaves, "0", 2500, 5000),
    Row(texts.connects_of_one_long_field, "0", 16000, 32000),
    # dynamic indices
    Row(texts.reads_of_1000_elements, "0", 500, 1000),
    Row(texts.drives_of_1000_elements, "0", 500, 1000),
    Row(texts.one_long_vector, "0", 200000, 400000),
    Row(texts.vectors_of_vectors, "0", 500, 1000),
    Row(texts.leaves_behind_200_indices, "0", 500, 1000),
    # whens
    Row(texts.nodes_in_nested_whens),
    Row(texts.leaves_under_255_whens, "1 E24", 10000, 20000),
    Row(texts.driven_leaves_under_255_whens, "0", 2000, 4000),
    Row(texts.whens_in_a_row, "1 E24", 50000, 100000),
    Row(texts.whens_behind_a_connect, "0", 50000, 100000),
    Row(texts.chains_of_255_else_whens, "1 E24", 200, 400),
    Row(texts.chains_of_255_else_whens_behind_a_connect, "0", 200, 400),
    Row(texts.whens_over_1000_leaves, "0", 500, 1000),
    Row(texts.one_when_over_all_leaves, "0", 250000, 500000),
    # loops
    Row(texts.ring_of_wires, "1 E28", 20000, 200000),
    # all of it
    Row(texts.pipeline),
]


class Taken(typing.NamedTuple):
    read: int
    written: int
    seconds: float
    memory: int
    ends: str


def taken(program, count, work, text):
    """What the least of so many runs of `emit` on the text took."""
    source, target = work / "t.fir", work / "t.v"
    source.write_text(text)
    done = [runs.timed([program, "emit", source], work, target) for _ in range(count)]
    best = min(done, key=lambda run: run.seconds)
    ends = f"{best.status} {best.says.replace(str(source), 'FILE')[:40]}".strip()
    return Taken(len(text), target.stat().st_size, best.seconds, best.memory, ends)


def faults(row, half, whole):
    """What is wrong with both runs of a row."""
    for run in (half, whole):
        if not run.ends.startswith(row.ends):
            yield f"ends with {run.ends} and not with {row.ends}"
    grew = whole.seconds / max(half.seconds, 0.01)
    bytes_grew = (whole.read + whole.written) / (half.read + half.written)
    if whole.seconds > 0.2 and grew > 1.25 * bytes_grew:
        yield f"takes {grew:.1f} times the time for {bytes_grew:.1f} times the bytes"


def judged(whole):
    """What is wrong with the text of all forms, which is told."""
    a_byte = whole.memory / whole.read
    print(f"pipeline: {whole.seconds:.1f} seconds, and {a_byte:.0f} bytes of memory for a byte of "
          f"text, for {whole.read} bytes")
    if whole.read < 15 * MIB:
        return
    if whole.seconds > MOST_SECONDS:
        yield f"takes more than {MOST_SECONDS} seconds"
    if a_byte > MOST_MEMORY:
        yield f"takes more than {MOST_MEMORY} bytes of memory for a byte of text"


def main():
    words = argparse.ArgumentParser(usage=__doc__)
    runs.add_program(words)
    words.add_argument("--divide", type=int, default=1)
    words.add_argument("--runs", type=int, default=3)
    words.add_argument("names", nargs="*")
    words = words.parse_args()
    program, failed, most, last = runs.program(words), [], (0, "nothing"), None
    print("| Text | Read | Written | Seconds | Twice: read | Written | Seconds | Status |")
    print("|---|---|---|---|---|---|---|---|")
    with tempfile.TemporaryDirectory() as folder:
        work = pathlib.Path(folder)
        for row in ROWS:
            name = row.name(words.divide)
            if words.names and not any(part in name for part in words.names):
                continue
            sizes = (max(1, size // words.divide) for size in (row.half, row.whole))
            half, whole = (taken(program, words.runs, work, row.make(size)) for size in sizes)
            cells = [name]
            for run in (half, whole):
                cells += [run.read, run.written, f"{run.seconds:.2f}"]
            print("| " + " | ".join(map(str, cells + [whole.ends])) + " |", flush=True)
            failed += [f"{name} {fault}" for fault in faults(row, half, whole)]
            most = max(most, (whole.memory, name))
            if row.make is texts.pipeline:
                last = whole
    print(f"\nmost memory: {most[0] // MIB} MB, for {most[1]}")
    if last:
        failed += [f"pipeline {fault}" for fault in judged(last)]
    for fault in failed:
        print(f"growth: {fault}", file=sys.stderr)
    return 1 if failed else 0


if __name__ == "__main__":
    sys.exit(main())
