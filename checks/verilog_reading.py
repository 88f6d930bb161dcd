#!/usr/bin/env python3
"""A second reading of the Verilog subset: the line of a text's first fault, or nothing.

Of faults of the text (V01, V02, V07) the first that is read is told. In a text without them it is
the first of V03, V04 and V05, then the first V08, then a closed walk (V06).

usage: verilog_reading.py FILE
"""
import pathlib
import sys

from verilog_faults import Checker
from verilog_grammar import Parser, Refused
from verilog_walks import Walks

# an atom of a text may have 256 braces around it
sys.setrecursionlimit(10000)


class Reading:
    """What the rules say of a text, which is given as bytes. `line` is that of its fault, and empty
    where it has none. Of a closed walk it is one of several: `takes` judges them all."""

    def __init__(self, content):
        self.walks, self.line = None, ""
        try:
            items = Parser(content.decode("latin-1")).items
        except Refused as refused:
            self.line = str(refused.args[0])
            return
        fault = Checker(items).fault
        if fault:
            self.line = str(fault)
            return
        walks = Walks(items)
        line = walks.line()
        if line:
            self.walks, self.line = walks, line

    def takes(self, says):
        """Whether this may be told."""
        return self.walks.is_told(says) if self.walks else says == self.line


def main():
    if len(sys.argv) != 2:
        sys.exit(__doc__)
    line = Reading(pathlib.Path(sys.argv[1]).read_bytes()).line
    if line:
        print(line)


if __name__ == "__main__":
    main()
