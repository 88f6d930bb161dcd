#!/usr/bin/env python3
"""Runs the program on changed circuits, Verilog texts and traces, and on fronts of texts, and sees
that each run ends as the documents say, within a second of a processor.

Examples and texts of the rows are changed: a byte, a token or a line is left out, doubled, replaced
or stands more. `check`, `emit`, `sim` and `vsim` are run. A run has to end with a status that
docs/USAGE.md gives for its command where files are there and outputs can be written. With status 0
the error output is empty, and else it is one line of docs/FAULTS.md or docs/TRACE.md, with a place
within the file. Behind a fault of a text nothing is written. The time is not judged where more than
a MiB is written.

Fronts are of one circuit, for `emit`, and of one Verilog text, for `vsim` on an empty trace; at
most 250 of each, at equal steps.

usage: refusals.py [--program PATH] [--seed N] [COUNT]

Without a program it runs the one that ./firc builds, and without a number 200 changed texts. They
follow from the seed and their number. The files of a run that ends otherwise are kept in the folder
that is named.
"""
import argparse
import os
import pathlib
import random
import re
import resource
import shutil
import subprocess
import sys
import tempfile
import typing

import fault_lines
import row_files
from rows import ROOT, ROWS, built

EXAMPLES = ROOT / "examples"
MOST_BYTES = 20000
MOST_SECONDS = 1
MOST_WRITTEN = 1048576
MOST_FRONTS = 250
# a run that takes so many seconds is ended
LAST_SECOND = 20
TOKEN = re.compile(rb"[A-Za-z_$][\w$]*|\d+|\s+|[^\w\s]|.", re.DOTALL)


class Files(typing.NamedTuple):
    """What a run is given: the command, a text, and a trace where the command takes one."""
    command: str
    text: bytes
    trace: bytes = b""


class Ended(typing.NamedTuple):
    status: int
    out: bytes
    err: bytes
    # of a processor
    seconds: float


def example_files():
    for path in sorted(EXAMPLES.glob("*.fir")):
        trace = path.with_suffix(".trace").read_bytes()
        for command in ("check", "emit", "sim", "sim"):
            yield Files(command, path.read_bytes(), trace)
    for path in sorted((EXAMPLES / "verilog").glob("*.v")):
        for _ in range(40):
            yield Files("vsim", path.read_bytes(), path.with_suffix(".trace").read_bytes())


def row_texts():
    for path in sorted(ROWS.rglob("*.rows")):
        for row in row_files.read(path):
            command = row.words[0].decode("latin-1") if row.words else ""
            if command in fault_lines.STATUSES and row.text and len(row.text) <= MOST_BYTES:
                yield Files(command, row.text, row.trace or b"")


def changed(chance, content):
    """The content with some changes, of bytes, of tokens or of lines."""
    for _ in range(chance.choice([1, 1, 1, 2, 5])):
        parts = chance.choice([[content[k:k + 1] for k in range(len(content))],
                               TOKEN.findall(content), content.splitlines(True)]) or [b""]
        at = chance.randrange(len(parts))
        other = chance.choice([chance.choice(parts), bytes([chance.randrange(256)])])
        parts[at:at + 1] = chance.choice([[], [parts[at]] * 2, [other], [other, parts[at]]])
        content = b"".join(parts)
    return content


def changed_files(chance, kinds):
    """Changed files, and the options of their run."""
    files = chance.choice(chance.choice(kinds))
    options = []
    if files.command in ("sim", "vsim"):
        options += chance.choice([[], [], ["--state"]])
        if files.command == "vsim":
            options += chance.choice([[], ["--order", str(chance.randrange(2**32))]])
        if chance.random() < 0.4:
            return files._replace(trace=changed(chance, files.trace)), options
    return files._replace(text=changed(chance, files.text)), options


def limit():
    resource.setrlimit(resource.RLIMIT_CPU, (LAST_SECOND, LAST_SECOND))


class Runs:
    """Runs the program in a folder, and counts how its runs ended; those that did not end as they
    have to are told."""

    def __init__(self, program, folder):
        self.program, self.folder = program, folder
        self.status, self.failed, self.longest = {}, 0, 0.0

    def ended(self, files, options):
        names = ["t.txt", "t"] if files.command in ("sim", "vsim") else ["t.txt"]
        for name, content in zip(names, (files.text, files.trace)):
            (self.folder / name).write_bytes(content)
        with open(self.folder / "out", "wb") as out, open(self.folder / "err", "wb") as err:
            process = subprocess.Popen([self.program, files.command, *names, *options],
                                       cwd=self.folder, stdin=subprocess.DEVNULL, stdout=out,
                                       stderr=err, preexec_fn=limit)
            _, status, usage = os.wait4(process.pid, 0)
            process.returncode = os.waitstatus_to_exitcode(status)
        written = ((self.folder / name).read_bytes() for name in ("out", "err"))
        return Ended(process.returncode, *written, usage.ru_utime + usage.ru_stime)

    def judge(self, what, files, options, statuses):
        ended = self.ended(files, options)
        self.status[ended.status] = self.status.get(ended.status, 0) + 1
        wrong = fault_lines.wrong(files, ended, statuses)
        if len(ended.out) <= MOST_WRITTEN:
            self.longest = max(self.longest, ended.seconds)
            if ended.seconds > MOST_SECONDS:
                wrong = wrong or f"it took {ended.seconds:.1f} seconds"
        if wrong:
            kept = tempfile.mkdtemp(prefix="refusals_")
            shutil.copytree(self.folder, kept, dirs_exist_ok=True)
            print(f"refusals: {what}, {' '.join([files.command, *options])}: {wrong} (in {kept})")
            self.failed += 1

    def judge_changed(self, seed, count):
        kinds = [list(example_files()), list(row_texts())]
        for number in range(count):
            files, options = changed_files(random.Random(f"{seed} refusals {number}"), kinds)
            statuses = fault_lines.STATUSES[files.command]
            self.judge(f"change {number} of seed {seed}", files, options, statuses)

    def judge_fronts(self, command, path, statuses):
        content = path.read_bytes()
        for end in range(0, len(content) + 1, -(-len(content) // MOST_FRONTS)):
            files = Files(command, content[:end])
            self.judge(f"the first {end} bytes of {path.name}", files, [], statuses)


def main():
    words = argparse.ArgumentParser(usage=__doc__)
    words.add_argument("--program", type=pathlib.Path)
    words.add_argument("--seed", type=int, default=1)
    words.add_argument("count", nargs="?", type=int, default=200)
    words = words.parse_args()
    with tempfile.TemporaryDirectory() as folder:
        runs = Runs((words.program or built()).resolve(), pathlib.Path(folder))
        runs.judge_changed(words.seed, words.count)
        runs.judge_fronts("emit", EXAMPLES / "decoupled_queue.fir", (0, 1))
        runs.judge_fronts("vsim", EXAMPLES / "verilog" / "fifo.v", (0, 7))
    passed = sum(runs.status.values()) - runs.failed
    print(f"refusals: {passed} runs ended as they have to, {runs.failed} did not; by status "
          f"{dict(sorted(runs.status.items()))}, the longest in {runs.longest:.2f} seconds")
    return 1 if runs.failed else 0


if __name__ == "__main__":
    sys.exit(main())
