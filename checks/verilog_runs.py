#!/usr/bin/env python3
"""A second reading of what a text of the Verilog subset does tick by tick, without firc: prints
the lines of `firc vsim`, and ends with its status.

The processes are the assigns of nets that are no clocks and then the blocks with an asynchronous
reset. On a tick they are run in rounds of one list, which the number of the order picks, until each
shows the value of its right side, at least once and at most once more than there are processes. Nets
stay as they are from tick to tick; at first they are 0.

usage: verilog_runs.py VFILE TRACE [--state] [--order N]
       verilog_runs.py --check

With --check it runs the rows of checks/rows that run vsim, and tells of which its lines are not
those of the row.
"""
import argparse
import pathlib
import sys

import row_files
from verilog_faults import Checker
from verilog_grammar import Assign, Clocked, Declared, Parser, Resetting, Writing
from verilog_reading import Reading
from verilog_traces import BadLine, Shape, TraceReader
from verilog_values import Values

ROWS = pathlib.Path(__file__).resolve().parent / "rows"
BAD_LINE, FAULT = 6, 7
MULTIPLIER, INCREMENT = 6364136223846793005, 1442695040888963407


def list_of(order, count):
    """The list of all processes that the number of an order picks."""
    entries = list(range(count))
    for last in range(count - 1, 0, -1):
        order = (order * MULTIPLIER + INCREMENT) % 2**64
        other = order // 2**33 % (last + 1)
        entries[last], entries[other] = entries[other], entries[last]
    return entries


class NoValue(Exception):
    """A tick without a value; its one argument is the place of the item that has none."""


class Design:
    """The tree of a text without a fault, and what stands in it."""

    def __init__(self, text):
        parser = Parser(text.decode("latin-1"))
        self.module, self.items = parser.name_of_module.text, parser.items
        self.checker = Checker(self.items)
        declared = [item for item in self.items if isinstance(item, Declared)]
        self.clocks = [item.name.text for item in declared
                       if item.is_clock and item.word == "input"]
        values = [item for item in declared if not item.is_clock]
        self.inputs, self.outputs = (
            [item.name for item in values if item.word == word] for word in ("input", "output"))
        registers = [item for item in values if item.word == "reg"]
        self.registers = [item.name for item in registers if not item.depth]
        self.arrays = {item.name.text: (self.width(item.name), item.depth.number + 1)
                       for item in registers if item.depth}
        self.nets = [item.name.text for item in values if not item.depth]
        self.assigns = [item for item in self.items
                        if isinstance(item, Assign) and not self.is_clock(item.target)]
        self.resets = [item for item in self.items if isinstance(item, Resetting)]

    def is_clock(self, name):
        return self.checker.declared[name.text].is_clock

    def width(self, name):
        return self.checker.width_of(name)

    def shape(self):
        return Shape([self.width(name) for name in self.inputs], len(self.clocks),
                     {name.text.encode(): self.width(name) for name in self.registers},
                     {name.encode(): size for name, size in self.arrays.items()})


class Run:
    """A run of a design. `nets` has what each net and register shows, and `stored` and `arrays` the
    state."""

    def __init__(self, design, init, order=0):
        self.design = design
        self.processes = design.assigns + design.resets
        self.list = list_of(order, len(self.processes))
        self.stored = {name.text: init.get((name.text.encode(), None), 0)
                       for name in design.registers}
        self.arrays = {name: [init.get((name.encode(), address), 0) for address in range(depth)]
                       for name, (_, depth) in design.arrays.items()}
        self.nets = dict.fromkeys(design.nets, 0)
        self.values = Values(design.checker, self.nets, self.arrays)
        self.show_registers()

    def show_registers(self):
        """A register without an asynchronous block shows what is stored."""
        asynchronous = {item.target.text for item in self.design.resets}
        self.nets |= {name: word for name, word in self.stored.items() if name not in asynchronous}

    def side(self, process):
        """The value of the right side of a process, or None."""
        if isinstance(process, Assign):
            return self.values.side(process.side, self.design.width(process.target))
        is_reset = self.nets[process.net.text]
        return process.const.number if is_reset else self.stored[process.target.text]

    def is_settled(self):
        return all(self.nets[process.target.text] == self.side(process)
                   for process in self.processes)

    def settle(self):
        """Runs rounds, and gives how many."""
        rounds = 0
        while rounds == 0 or rounds <= len(self.processes) and not self.is_settled():
            for number in self.list:
                process = self.processes[number]
                self.nets[process.target.text] = self.side(process) or 0
            rounds += 1
        return rounds

    def lacks(self, item, rising):
        """Whether an item has no value, where these clocks rise."""
        if isinstance(item, Assign) and not self.design.is_clock(item.target):
            return self.side(item) is None
        if isinstance(item, Writing) and item.clock.text in rising:
            return any(self.values.atom(write.condition)
                       and self.values.atom(write.address) >= len(self.arrays[write.array.text])
                       for write in item.writes)
        return False

    def edge(self, rising):
        """What is stored and written at the edge of these clocks."""
        stored, written = {}, []
        for item in self.design.items:
            if isinstance(item, Resetting) and self.nets[item.net.text]:
                stored[item.target.text] = item.const.number
            elif isinstance(item, (Clocked, Resetting, Writing)):
                if item.clock is None or item.clock.text not in rising:
                    continue
                if isinstance(item, Writing):
                    written += self.writes(item)
                else:
                    stored[item.target.text] = self.values.atom(item.atom)
        self.stored |= stored
        for array, address, word in written:
            self.arrays[array][address] = word
        self.show_registers()

    def writes(self, item):
        """What a block writes: the array, the address and the word of each write, in its order."""
        return [(write.array.text, self.values.atom(write.address), self.values.atom(write.data))
                for write in item.writes if self.values.atom(write.condition)]

    def tick(self, tick):
        """A tick: the outputs before its edge, and the rounds that were run."""
        self.nets |= {name.text: value for name, value in zip(self.design.inputs, tick.inputs)}
        rising = {self.design.clocks[number] for number in tick.rising}
        rounds = self.settle()
        for item in self.design.items:
            if self.lacks(item, rising):
                raise NoValue(item.at)
        assert self.is_settled()
        shown = [self.word(self.design.width(name), self.nets[name.text])
                 for name in self.design.outputs]
        self.edge(rising)
        return shown, rounds

    def word(self, width, value):
        return f"{value:0{(width + 3) // 4}x}"

    def state(self):
        """The words of the state."""
        words = [self.word(self.design.width(name), self.stored[name.text])
                 for name in self.design.registers]
        for name, (width, _) in self.design.arrays.items():
            words += [self.word(width, word) for word in self.arrays[name]]
        return words


def ran(text, trace, with_state=False, order=None):
    """Status, output and error output of a run, both in bytes."""
    reading = Reading(text)
    if reading.line:
        return FAULT, b"", reading.line.encode() + b"\n"
    design = Design(text)
    reader, lines, run, ticks = TraceReader(design.shape(), trace), [], None, 0
    try:
        for tick in reader.ticks():
            run, ticks = run or Run(design, reader.init, order or 0), ticks + 1
            shown, rounds = run.tick(tick)
            shown += ["|", *run.state()] if with_state else []
            shown += [";", str(rounds)] if order is not None else []
            lines.append(" ".join(shown) + "\n")
        status, err = 0, b""
    except BadLine as bad:
        status, err = BAD_LINE, bad.args[0] + b"\n"
    except NoValue as none:
        status, err = FAULT, f"V09 {none.args[0]} tick {ticks}\n".encode()
    return status, "".join(lines).encode(), err


def words_taken(words):
    """What stands on a command line behind the program's name: files, and options in any place."""
    parser = argparse.ArgumentParser(usage=__doc__)
    parser.add_argument("--state", action="store_true")
    parser.add_argument("--order", type=int)
    parser.add_argument("files", nargs=2)
    return parser.parse_intermixed_args(words)


def check():
    """Runs the rows of vsim, and gives how many differ."""
    checked = failed = 0
    for path in sorted(ROWS.rglob("*.rows")):
        for row in row_files.read(path):
            if row.words[:1] != [b"vsim"] or row.status not in (0, BAD_LINE, FAULT):
                continue
            words = words_taken([word.decode() for word in row.words[1:]])
            says = ran(row.text, row.trace or b"", words.state, words.order)
            checked += 1
            if says != (row.status, row.out, row.err):
                print(f"{row.place}: {row.name}: the second reading says {says}")
                failed += 1
    print(f"verilog runs: {checked - failed} rows passed, {failed} failed")
    return 1 if failed or not checked else 0


def main():
    if sys.argv[1:] == ["--check"]:
        return check()
    words = words_taken(sys.argv[1:])
    text, trace = (pathlib.Path(name).read_bytes() for name in words.files)
    status, out, err = ran(text, trace, words.state, words.order)
    sys.stdout.buffer.write(out)
    sys.stderr.buffer.write(err)
    return status


if __name__ == "__main__":
    sys.exit(main())
