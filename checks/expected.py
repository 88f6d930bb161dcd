#!/usr/bin/env python3
"""Writes NAME.trace and NAME.expected for each examples/NAME.fir: ticks, and what the circuit
shows.

A trace begins with a line `init NAME HEX` for each word of the state, with its name of the emitted
text, and `init NAME ADDR HEX` for each word of an array. Then each line is a tick: `-`, or the
numbers of the clocks that rise, counted from 0 in port order, rising, parted by commas; and the value
of each input. A line of NAME.expected has the outputs of a tick, `|`, and the state after it. All are
parted by single spaces, and values are hexadecimal in lower case with as many digits as the width
needs; leaves of no bits are left out.

A trace that begins with a remark, a line with `#` in front, is written by hand and stays as it is.
All others are of 64 ticks, made here. In a circuit with a reset it is 1 at the first tick and
seldom behind that, and the clocks rise at most ticks.

The values are computed from the source's statements by Python's integers, without firc and without
a Verilog tool. Run it with --check to compare with the files that are there.
"""
import pathlib
import sys

from emitted_names import emitted_words
from source_rules import Source
from tick_rules import tick

EXAMPLES = pathlib.Path(__file__).resolve().parent.parent / "examples"
TICKS = 64
RESET = "reset"


def draws(state):
    """Numbers of a linear congruence, each of three of its rounds."""
    while True:
        bits = 0
        for _ in range(3):
            state = (state * 6364136223846793005 + 1442695040888963407) % 2**64
            bits = (bits << 64) | state
        yield bits >> 13


def corner(line, width, drawn):
    """A value of a width: in the first lines a corner, then the number that was drawn, cut."""
    corners = {0: 0, 1: (1 << width) - 1, 2: min(1, width), 3: (1 << width) >> 1}
    return corners.get(line, drawn % (1 << width))


def drawn_clocks(source, line, drawn):
    """The numbers of the clocks that rise."""
    count = len(source.clocks)
    rising = corner(line, count, drawn)
    if RESET in source.inputs:
        rising = (1 << count) - 1 if line == 0 or drawn % 8 else 0
    return [k for k in range(count) if rising >> k & 1]


def drawn_input(path, line, width, drawn):
    """The value of an input."""
    if path == RESET and width == 1:
        return int(line == 0 or drawn % 16 == 0)
    return corner(line, width, drawn)


def drawn_trace(source):
    """The initial state, and the ticks as the numbers of the clocks that rise and the inputs."""
    numbers = draws(0)
    init = [next(numbers) % (1 << width) for width in source.state_widths()]
    ticks, widths = [], source.widths(source.inputs)
    for line in range(TICKS):
        rising = drawn_clocks(source, line, next(numbers))
        ticks.append((rising, [drawn_input(path, line, width, next(numbers))
                               for path, width in zip(source.inputs, widths)]))
    return init, ticks


def read_trace(source, text):
    """The same of a trace's text. A word of the state that it does not name is 0."""
    init, ticks = {}, []
    for line in text.splitlines():
        words = line.split(" ")
        if line.startswith("#") or not line:
            continue
        if words[0] == "init":
            address = int(words[2]) if len(words) == 4 else None
            init[words[1], address] = int(words[-1], 16)
        else:
            rising = [] if words[0] == "-" else [int(k) for k in words[0].split(",")]
            ticks.append((rising, [int(value, 16) for value in words[1:]]))
    return [init.get(word, 0) for word in emitted_words(source)], ticks


def hexadecimals(widths, values):
    return [f"{value:0{(width + 3) // 4}x}" for width, value in zip(widths, values)]


def trace_lines(source, init, ticks):
    """The lines of NAME.trace."""
    values = hexadecimals(source.state_widths(), init)
    for (name, address), value in zip(emitted_words(source), values):
        yield f"init {name} {value}" if address is None else f"init {name} {address} {value}"
    widths = source.widths(source.inputs)
    for rising, inputs in ticks:
        yield " ".join([",".join(map(str, rising)) or "-"] + hexadecimals(widths, inputs))


def shown_lines(source, init, ticks):
    """The lines of NAME.expected."""
    widths, word_widths = source.widths(source.outputs), source.state_widths()
    state = init
    for rising, inputs in ticks:
        shown, state = tick(source, state, rising, inputs)
        yield " ".join(hexadecimals(widths, shown) + ["|"] + hexadecimals(word_widths, state))


def texts(path):
    """The texts of NAME.trace and NAME.expected, of the file of a circuit."""
    source, target = Source(path.read_text()), path.with_suffix(".trace")
    trace = target.read_text() if target.exists() else ""
    if trace.startswith("#"):
        run = read_trace(source, trace)
    else:
        run = drawn_trace(source)
        trace = "".join(line + "\n" for line in trace_lines(source, *run))
    return trace, "".join(line + "\n" for line in shown_lines(source, *run))


def main():
    check = sys.argv[1:] == ["--check"]
    if sys.argv[1:] and not check:
        sys.exit(__doc__)
    differs = False
    for path in sorted(EXAMPLES.glob("*.fir")):
        for suffix, text in zip((".trace", ".expected"), texts(path)):
            target = path.with_suffix(suffix)
            if not check:
                target.write_text(text)
            elif not target.exists() or target.read_text() != text:
                print(f"{target.name} differs from what {path.name} gives")
                differs = True
    sys.exit(1 if differs else 0)


if __name__ == "__main__":
    main()
