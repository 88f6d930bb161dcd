#!/usr/bin/env python3
"""Writes rows of texts of the Verilog subset, whose lines are known by how a text is made:

- cuts.rows: each form of the grammar cut behind each of its tokens is V02 at the end of the text;
- reserved.rows: each reserved word where a name has to stand is V02 at it;
- pairs.rows: texts with two faults, in both orders. Of a bad byte, a token out of place and a brace
  too deep, the first in the text is told; then the first name or width that does not fit; then a net
  that nothing drives; then a closed walk.

usage: verilog_rows.py [--check]

With --check it compares with the files that are there.
"""
import pathlib
import sys

from verilog_grammar import BINARY, SIGNED
from verilog_tokens import RESERVED, tokens

FOLDER = pathlib.Path(__file__).resolve().parent / "rows" / "verilog_texts"
HEAD = "module T(input a);\n"
MODULES = [
    "module T();\nendmodule",
    "module T(input a, output b, input [3:0] c, (* clock *) input d, (* clock *) output e);",
]
SIDES = ["a", "4'h9", "4'd9", "4'b1001", "a[2]", "a[2:1]", "{a}", "{a, 4'h9, b[0]}", "{4{a}}",
         "{04{{a, b}}}", "~a", "&a", "|a", "^a", *(f"a {sign} b" for sign in BINARY),
         *(f"$signed(a) {sign} $signed(b)" for sign in SIGNED), "$signed(a) >>> b", "a ? b : c",
         "m[a]", "m[4'h9]", "m[{a, b}]", "4'h9 + a", "{a} ? {b} : {c}", "a[2] - b",
         "$signed({a}) / $signed(4'h9)"]
ITEMS = ["wire b;", "wire [3:0] b;", "reg b;", "reg [3:0] b;", "reg b [0:7];", "reg [3:0] b [0:7];",
         *(f"assign b = {side};" for side in SIDES),
         "always @(posedge a) b <= c;",
         "always @(posedge a or posedge b) if (b) c <= 4'h9; else c <= d;",
         "always @(posedge a) if (a) b <= 4'h9;",
         "always @(posedge a) begin end",
         "always @(posedge a) begin if (b) m[c] <= d; if (4'h9) m[{a}] <= b[0]; end"]
# faults by their codes: a line that has it, and what is told of it in a line of that number
FAULTS = {
    "V01": (".", "V01 {0}:1 byte 2e"),
    "V02": (";", "V02 {0}:1 syntax"),
    "V03": ("wire x; assign x = z;", "V03 {0}:20 undeclared z"),
    "V04": ("wire y; assign y = a;", "V04 {0}:20 width 1 4"),
    "V05": ("wire a;", "V05 {0}:6 twice a 1:22"),
    "V06": ("wire w; assign w = ~w;", "V06 {0}:9 loop w <- w"),
    "V07": ("wire d; assign d = \\{257 {\\}a\\{257 }\\};", "V07 {0}:276 depth 257"),
    "V08": ("wire u;", "V08 {0}:6 undriven u"),
}
HEAD_OF_PAIRS = "module T(input [3:0] a);"
RANKS = [("V01", "V02", "V07"), ("V03", "V04", "V05"), ("V08",), ("V06",)]


def row(name, lines, line):
    """The row of a text, given as lines of a row, that is refused with that line."""
    return "\n".join([f"row: {name}", "vsim", *(f"| {part}" for part in lines), "status 7",
                      f"err {line}", ""])


def cuts():
    """Each form, cut behind each of its tokens but the last `endmodule`."""
    seen = set()
    for text in MODULES + [HEAD + item for item in ITEMS]:
        for token in tokens(text)[:-1]:
            end = token.at.behind(token.spelling)
            lines = text.split("\n")[:end.line]
            lines[-1] = lines[-1][:end.column - 1]
            if token.spelling == "endmodule" or "\n".join(lines) in seen:
                continue
            seen.add("\n".join(lines))
            name = lines[-1] if len(lines) == 1 or text not in MODULES else " ".join(lines)
            yield row(f"behind {name}", lines[:-1] + [lines[-1] + "\\"], f"V02 {end} syntax")


def reserved():
    for word in sorted(RESERVED):
        yield row(word, [f"module T(input {word});", "endmodule"], "V02 1:16 syntax")


def rank(code):
    return next(k for k, codes in enumerate(RANKS) if code in codes)


def pairs():
    for first in FAULTS:
        for second in FAULTS:
            if first != second:
                told = min((rank(code), at, code) for at, code in [(2, first), (3, second)])
                lines = [HEAD_OF_PAIRS, FAULTS[first][0], FAULTS[second][0], "endmodule"]
                yield row(f"{first} and then {second}", lines, FAULTS[told[2]][1].format(told[1]))


FILES = {
    "cuts": ("Each form of the grammar, cut behind each of its tokens.", cuts),
    "reserved": ("Each reserved word where a name has to stand.", reserved),
    "pairs": ("Texts with two faults.", pairs),
}


def main():
    check = sys.argv[1:] == ["--check"]
    if sys.argv[1:] and not check:
        sys.exit(__doc__)
    differs = False
    for name, (remark, rows) in FILES.items():
        target = FOLDER / f"{name}.rows"
        text = "\n".join([f"# {remark} Written by checks/verilog_rows.py.\n", *rows()])
        if not check:
            target.write_text(text)
        elif not target.exists() or target.read_text() != text:
            print(f"{target.name} differs from what verilog_rows.py writes")
            differs = True
    sys.exit(1 if differs else 0)


if __name__ == "__main__":
    main()
