#!/usr/bin/env python3
"""Gives texts of the Verilog subset, made at random, to Icarus Verilog, Verilator and Yosys. Each
has to take them, but for those with what KNOWN says of it; every second text is made without most of
that. A tool that is not installed is skipped.

usage: verilog_tools.py COUNT [SEED]
"""
import pathlib
import random
import re
import shutil
import subprocess
import sys
import tempfile

from verilog_reading import Reading
from verilog_text_maker import TextMaker, Writer

COMMANDS = {
    "iverilog": ["-g2005", "-gno-xtypes", "-t", "null", "t.v"],
    "verilator": ["--lint-only", "-Wno-fatal", "-Wno-lint", "--default-language", "1364-2005",
                  "t.v"],
    "yosys": ["-q", "-p", "read_verilog t.v; hierarchy -check; proc; check"],
}
# what a tool says where it refuses a text of the subset, and what that text has
KNOWN = [
    ("verilator", r"Error: .*Variable has same name as (?:instance|CELLINLINE)",
     "a port with the module's name"),
    ("verilator", r"Error: .*Value too wide for 32-bits|Error: .*shift.* 32",
     "a constant past 32 bits as an amount or an index"),
    ("verilator", r"Error: .*syntax error, unexpected '\(', expecting '\['",
     "a newline behind the (* of an attribute"),
]
MOST_SHOWN = 1000


def refusal(tool, folder):
    """What a tool says of the text where it refuses it, or None."""
    done = subprocess.run([tool, *COMMANDS[tool]], cwd=folder, capture_output=True,
                          stdin=subprocess.DEVNULL)
    says = (done.stdout + done.stderr).decode("latin-1")
    return says if done.returncode else None


def known(tool, says):
    """Why a tool refuses the text, where that is known."""
    for of, form, why in KNOWN:
        if of == tool and re.search(form, says):
            return why
    return None


def made_text(seed, number):
    """A valid text; every second one is made for these tools."""
    chance, for_tools = random.Random(f"{seed} tools {number}"), number % 2 == 1
    text = Writer(chance, for_tools).text(TextMaker(chance, for_tools).groups())
    if Reading(text).line:
        sys.exit(f"verilog tools: text {number} of seed {seed} has {Reading(text).line}")
    return text


class Refusals:
    """Counts what tools refuse: by the tool and the reason where that is known, else in `failed`."""

    def __init__(self, tools):
        self.tools, self.known, self.failed = tools, {}, 0

    def give(self, folder, what, text):
        """Gives a text to all tools."""
        (folder / "t.v").write_bytes(text)
        for tool in self.tools:
            says = refusal(tool, folder)
            why = says and known(tool, says)
            if why:
                self.known[tool, why] = self.known.get((tool, why), 0) + 1
            elif says:
                print(f"verilog tools: {tool} refuses {what}:\n{says[:MOST_SHOWN]}")
                self.failed += 1


def main():
    if not 2 <= len(sys.argv) <= 3:
        sys.exit(__doc__)
    count, seed = int(sys.argv[1]), int((sys.argv[2:] or [1])[0])
    tools = [tool for tool in COMMANDS if shutil.which(tool)]
    for tool in COMMANDS.keys() - tools:
        print(f"verilog tools: {tool} is not installed, skipped")
    refusals = Refusals(tools)
    with tempfile.TemporaryDirectory() as work:
        for number in range(count):
            what = f"text {number} of seed {seed}"
            refusals.give(pathlib.Path(work), what, made_text(seed, number))
    for (tool, why), times in sorted(refusals.known.items()):
        print(f"verilog tools: {tool} refused {times} texts with {why}")
    print(f"verilog tools: {count} texts were given to {', '.join(tools) or 'no tool'},"
          f" {refusals.failed} refusals are not known")
    sys.exit(1 if refusals.failed else 0)


if __name__ == "__main__":
    main()
