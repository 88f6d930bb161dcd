"""A Verilog test bench for a text of the Verilog subset, which runs a trace and prints the lines of
a run with its state.

It begins with all inputs at 0, so that no reset is on, and then sets the words of the state. At each
tick it puts the inputs and shows the outputs, raises the clocks of the tick at one time, shows the
state, and lowers the clocks. A clock output that is not at the level of its clock behind the rise
gives a line of its own.

Icarus Verilog sets a register where an asynchronous reset rises, and not while it is 1. So it shows
what the subset means where each reset is an input; `why_not` tells of what it is not asked.
"""
import shutil
import subprocess

from verilog_grammar import Assign, Const


def declared(kind, letter, widths):
    for k, width in enumerate(widths):
        yield f"  {kind} {f'[{width - 1}:0] ' if width > 1 else ''}{letter}{k};"


def joined(values):
    return "{" + ", ".join(values) + "}"


class Bench:
    """The bench of a design, for what `init` lines gave, as TraceReader has it, and ticks."""

    def __init__(self, design, init, ticks):
        self.design, self.init, self.ticks = design, init, ticks
        self.inputs = [f"i{k}" for k in range(len(design.inputs))]
        self.outputs = [f"o{k}" for k in range(len(design.outputs))]
        self.clocks = [f"c{k}" for k in range(len(design.clocks))]
        # the clock outputs, each with the number of its clock, or None
        self.shown_clocks = [
            (item.target.text, None if isinstance(item.side.operands[0].atom, Const)
             else design.clocks.index(item.side.operands[0].atom.text))
            for item in design.items if isinstance(item, Assign) and design.is_clock(item.target)]

    def words(self):
        """The words of the state, each as the bench names it, with its width and its first value."""
        for name in self.design.registers:
            value = self.init.get((name.text.encode(), None), 0)
            yield f"dut.{name.text}", self.design.width(name), value
        for name, (width, depth) in self.design.arrays.items():
            for address in range(depth):
                yield f"dut.{name}[{address}]", width, self.init.get((name.encode(), address), 0)

    def connections(self):
        names = [name.text for name in self.design.inputs + self.design.outputs]
        names += self.design.clocks + [name for name, _ in self.shown_clocks]
        levels = [f"k{k}" for k in range(len(self.shown_clocks))]
        for name, here in zip(names, self.inputs + self.outputs + self.clocks + levels):
            yield f".{name}({here})"

    def tick(self, tick):
        """The statements of a tick; all clocks are set by one assignment."""
        widths = [self.design.width(name) for name in self.design.inputs]
        for here, width, value in zip(self.inputs, widths, tick.inputs):
            yield f"{here} = {width}'h{value:x};"
        shown = "".join(f', "%h ", {here}' for here in self.outputs)
        yield f'#1 $write("" {shown}, "|");'
        if tick.rising:
            levels = "".join("1" if k in tick.rising else "0" for k in range(len(self.clocks)))
            yield f"#1 {joined(self.clocks)} = {len(levels)}'b{levels};"
        shown = "".join(f', " %h", {word}' for word, _, _ in self.words())
        yield f'#1 $display("" {shown});'
        for k, (_, clock) in enumerate(self.shown_clocks):
            level = int(clock in tick.rising)
            yield f'if (k{k} !== 1\'b{level}) $display("clock output {k}");'
        if tick.rising:
            yield f"#1 {joined(self.clocks)} = 0;"

    def lines(self):
        design = self.design
        yield f"module {'bench_0' if design.module == 'bench' else 'bench'};"
        yield from declared("reg", "i", [design.width(name) for name in design.inputs])
        yield from declared("reg", "c", [1] * len(self.clocks))
        yield from declared("wire", "o", [design.width(name) for name in design.outputs])
        yield from declared("wire", "k", [1] * len(self.shown_clocks))
        yield f"  {design.module} dut({', '.join(self.connections())});"
        yield "  initial begin"
        yield from (f"    {here} = 0;" for here in self.clocks + self.inputs)
        yield "    #1"
        yield from (f"    {word} = {width}'h{value:x};" for word, width, value in self.words())
        yield from ("    " + " ".join(self.tick(tick)) for tick in self.ticks)
        yield "  end"
        yield "endmodule"


def why_not(design):
    """Why Icarus is not asked about a design, or None."""
    inputs = {name.text for name in design.inputs}
    if any(item.net.text not in inputs for item in design.resets):
        return "have resets that are no inputs"
    if any(item.side.operator in ("/", "%") and design.width(item.target) > 64
           for item in design.assigns):
        return "divide wide nets"
    return None


def is_installed():
    return bool(shutil.which("iverilog") and shutil.which("vvp"))


def shown_by_icarus(folder, text, bench):
    """What Icarus shows of the text in the bench, or what it says where it refuses them."""
    (folder / "t.v").write_bytes(text)
    (folder / "bench.v").write_text("\n".join(bench.lines()) + "\n")
    words = ["iverilog", "-g2005", "-gno-xtypes", "-o", "t.vvp", "t.v", "bench.v"]
    built = subprocess.run(words, cwd=folder, capture_output=True)
    if built.returncode:
        return built.stderr
    words = ["vvp", "-n", "t.vvp"]
    return subprocess.run(words, cwd=folder, capture_output=True, check=True).stdout
