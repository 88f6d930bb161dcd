#!/usr/bin/env python3
"""Prints a Verilog test bench that runs a trace and prints the lines of NAME.expected.

It begins with all inputs at 0, so that no reset is on, and then sets the words of the state. At
each tick it puts the inputs and shows the outputs, raises the clocks of the tick at one time, at
which registers sample their resets, shows the state, and lowers the clocks later. The state is
shown while the clocks are high, so that what the falling edge changes is seen at this tick or the
next. A clock output that is not at the level of its clock before or behind the rise gives a line of
its own, with the levels of all.

A Verilog tool sets a register where an asynchronous reset rises, and not while it is 1. So it shows
what the circuit does where each such reset follows an input (`resets_follow_inputs`). One that is
logic may be 1 from the start, rise for a moment while values settle, or rise by an edge of a clock.

usage: test_bench.py SOURCE.fir SOURCE.trace
"""
import pathlib
import sys

from emitted_names import emitted_module, emitted_names, emitted_words
from expected import read_trace
from inference_forms import Literal, Reference
from source_rules import Source
from tick_rules import Tick

CONVERSIONS = ("asUInt", "asSInt", "asAsyncReset")


def variables(kind, letter, widths):
    """Declarations of variables of the bench, each named by a letter and its number."""
    for k, width in enumerate(widths):
        yield f"  {kind} {f'[{width - 1}:0] ' if width > 1 else ''}{letter}{k};"


def connections(source, names):
    """The leaves of the ports, each at the variable of the bench that stands for it."""
    for letter, paths in (("i", source.inputs), ("o", source.outputs), ("c", source.clocks),
                          ("k", source.clock_outputs)):
        for k, path in enumerate(paths):
            yield f".{names[path]}({letter}{k})"


def shows(task, shape, values):
    return f"{task}({', '.join([chr(34) + shape + chr(34)] + values)});"


def clocks_of_outputs(source):
    """The numbers of the clocks that the clock outputs have, or None of one without a clock. They
    are the same at all ticks."""
    now = Tick(source, [0] * len(source.state_widths()), [0] * len(source.inputs))
    return [now.clock(path) for path in source.clock_outputs]


def follows_input(source, copy, expression, path=""):
    """Whether a leaf of an expression in a copy has the low bit of an input of the main module, or
    is always 0: through names and conversions alone."""
    if expression is None:
        return True
    if isinstance(expression, Literal):
        return expression.number == 0
    if not isinstance(expression, Reference):
        is_conversion = expression.word in CONVERSIONS
        return is_conversion and follows_input(source, copy, expression.operands[0])
    if expression.indices:
        return False
    leaf = source.leaves[copy.prefix + expression.path() + path]
    if leaf.word == "node":
        return follows_input(source, leaf.copy, leaf.copy.module.nodes[leaf.name], leaf.path)
    if not leaf.is_sink():
        return leaf.is_input()
    live = list(source.live_drives_of(leaf))
    return len(live) == 1 and follows_input(source, leaf.copy, live[0][0].giving, live[0][1])


def resets_follow_inputs(source):
    """Whether each asynchronous reset of a register does so."""
    leaves = (source.leaves[path] for path in source.words)
    return all(follows_input(source, leaf.copy, leaf.register().condition)
               for leaf in leaves if leaf.is_async())


def judges(given, rising):
    """A statement that shows the levels of the clock outputs if they are not those of their clocks,
    where there are any."""
    shown = "{" + ", ".join(f"k{k}" for k in range(len(given))) + "}"
    levels = "".join("1" if number in rising else "0" for number in given)
    if given:
        yield f"if ({shown} !== {len(levels)}'b{levels}) {shows('$display', 'clocks %b', [shown])}"


def tick(source, words, given, rising, inputs):
    """The statements of a tick; all clocks are set by one assignment."""
    outputs = [f"o{k}" for k in range(len(source.outputs))]
    for k, (width, value) in enumerate(zip(source.widths(source.inputs), inputs)):
        yield f"i{k} = {width}'h{value:x};"
    yield "#1"
    yield from judges(given, [])
    yield shows("$write", "%h " * len(outputs) + "|", outputs)
    clocks = "{" + ", ".join(f"c{k}" for k in range(len(source.clocks))) + "}"
    levels = "".join("1" if k in rising else "0" for k in range(len(source.clocks)))
    if rising:
        yield f"#1 {clocks} = {len(levels)}'b{levels};"
    yield "#1 " + shows("$display", " %h" * len(words), words)
    yield from judges(given, rising)
    if rising:
        yield f"#1 {clocks} = 0;"


def test_bench(source, init, ticks):
    """The lines of the bench, for an initial state and ticks as `read_trace` gives them."""
    names, module = emitted_names(source), emitted_module(source)
    words = [name if address is None else f"{name}[{address}]"
             for name, address in emitted_words(source)]
    given = clocks_of_outputs(source)
    yield f"module {'bench_0' if module == 'bench' else 'bench'};"
    yield from variables("reg", "i", source.widths(source.inputs))
    yield from variables("reg", "c", [1] * len(source.clocks))
    yield from variables("wire", "o", source.widths(source.outputs))
    yield from variables("wire", "k", [1] * len(given))
    yield f"  {module} dut({', '.join(connections(source, names))});"
    yield "  initial begin"
    yield from (f"    c{k} = 0;" for k in range(len(source.clocks)))
    yield from (f"    i{k} = 0;" for k in range(len(source.inputs)))
    yield "    #1"
    for word, width, value in zip(words, source.state_widths(), init):
        yield f"    dut.{word} = {width}'h{value:x};"
    for rising, inputs in ticks:
        held = [f"dut.{word}" for word in words]
        yield "    " + " ".join(tick(source, held, given, rising, inputs))
    yield "  end"
    yield "endmodule"


def main():
    if len(sys.argv) != 3:
        sys.exit(__doc__)
    text, trace = (pathlib.Path(word).read_text() for word in sys.argv[1:])
    source = Source(text)
    print("\n".join(test_bench(source, *read_trace(source, trace))))


if __name__ == "__main__":
    main()
