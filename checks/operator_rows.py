#!/usr/bin/env python3
"""Writes checks/rows/operators/OPERATOR.rows: rows of each operator, of mux and of validif.

Each file has a row for each kind and for each of some widths, over the corners of the operands (the
least number, -1, 0, 1 and the greatest), and circuits that are refused. The lines that are wanted
are those of Python's integers (operators.py, tick_rules.py) and of the second reading of the faults
(readings.py), without firc.

usage: operator_rows.py [--check]

With --check it compares with the files that are there.
"""
import itertools
import pathlib
import sys

import expected
import operators
from operators import Type
from readings import Reading
from source_rules import Source

FOLDER = pathlib.Path(__file__).resolve().parent / "rows" / "operators"
HEAD = "circuit T :\n  module T :\n"
ALL = [0, 1, 64, 127, 128]
SAME = [(width, width) for width in ALL]
SUMS = [(0, 0), (1, 1), (64, 1), (64, 64), (127, 127)]
PRODUCTS = [(0, 0), (1, 1), (64, 64), (127, 1), (1, 127), (128, 0)]
SHIFTS_UP = [(0, 7), (1, 7), (64, 6), (127, 1), (128, 0)]
SHIFTS_DOWN = [(0, 1), (1, 1), (64, 7), (127, 7), (128, 8)]
# the widths of two operands, where they are not all widths twice
PAIRS = {
    "add": SUMS, "sub": SUMS, "mul": PRODUCTS, "cat": PRODUCTS,
    "dshl": SHIFTS_UP, "dshr": SHIFTS_DOWN, "rem": SAME + [(64, 1), (1, 64)],
    "div": SAME + [(64, 1), (1, 64)], "mux": SAME + [(64, 1), (0, 64)],
    "and": SAME + [(64, 1)], "or": SAME + [(64, 1)], "xor": SAME + [(64, 1)],
}
# whose results are a bit wider than their first operand, of an SInt or not
GROWS = {("div", True), ("neg", True), ("neg", False), ("cvt", False)}


def amounts(op, width):
    """The integers of an operator beside an operand of that width."""
    if op == "bits":
        ends = [(width - 1, 0), (width - 1, width - 1), (0, 0), (width // 2, width // 4)]
        return list(dict.fromkeys(end for end in ends if width))
    return [(n,) for n in dict.fromkeys({
        "pad": [0, width, min(width + 1, 128), 128],
        "shl": [0, min(1, 128 - width), 128 - width],
        "shr": [0, 1, max(width - 1, 0), width, width + 1, 2**128 - 1],
        "head": [0, min(1, width), max(width - 1, 0), width],
        "tail": [0, min(1, width), max(width - 1, 0), width],
    }[op])]


def row(name, command, lines, rest):
    return "\n".join([f"row: {name}", command, *(f": {line}" for line in lines), *rest, ""])


def text_of(lines):
    return HEAD + "".join(f"    {line}\n" for line in lines)


def taken(name, lines, choices):
    """The row of a circuit that is run on these choices of values for its inputs."""
    source = Source(text_of(lines))
    ticks = [([], [value.bits() for value in values if value.type.width]) for values in choices]
    rest = [" ".join(["trace -", *(f"{bits:x}" for bits in inputs)]) for _, inputs in ticks]
    shown = (line.split("|")[0] for line in expected.shown_lines(source, [], ticks))
    rest += ["status 0", *(f"out {line}".rstrip() for line in shown)]
    return row(name, "sim", lines, rest)


def refused(name, code, lines):
    """The row of a circuit that has a fault of that code."""
    fault = Reading(text_of(lines)).line
    if not fault or not fault.startswith(code):
        sys.exit(f"of\n{text_of(lines)}the fault is {fault!r}, and {code} was wanted")
    return row(name, "emit", lines, ["status 1", f"err {fault}"])


def corners_of(given):
    """The values of a type at its corners."""
    return [given.value(number) for number in given.corners()]


def circuit(inputs, results):
    """The lines of a circuit with these inputs, and an output for each of these results."""
    lines = [f"input {name} : {given}" for name, given in inputs]
    names = [f"r{k}" for k in range(len(results))] if len(results) > 1 else ["r"]
    lines += [f"output {name} : {given}" for name, (given, _) in zip(names, results)]
    return lines + [f"{name} <= {text}" for name, (_, text) in zip(names, results)]


def of_two(op, is_signed, widths):
    """The row of an operator on two operands of these widths."""
    kind = Type(is_signed, 0).kind()
    types = [Type(is_signed, widths[0])]
    types.append(Type(is_signed and op not in operators.SHIFTS, widths[1]))
    if op in operators.SHIFTS:
        name = f"{kind} of {bits(widths[0])} by an amount of {bits(widths[1])}"
    elif widths[0] == widths[1]:
        name = f"{kind} of {bits(widths[0])}"
    else:
        name = f"{kind} of {bits(widths[0])} and of {bits(widths[1])}"
    result = operators.result_type(op, types, [])
    lines = circuit(zip("ab", types), [(result, f"{op}(a, b)")])
    return taken(name, lines, itertools.product(*map(corners_of, types)))


def bits(width):
    return {0: "no bits", 1: "1 bit"}.get(width, f"{width} bits")


def of_one(op, given):
    """The row of an operator on one operand, with each of its integers."""
    results = []
    for integers in amounts(op, given.width) if operators.counts(op)[1] else [()]:
        parts = ", ".join(["a", *map(str, integers)])
        results.append((operators.result_type(op, [given], integers), f"{op}({parts})"))
    lines = circuit([("a", given)], results)
    choices = itertools.product(corners_of(given))
    return taken(f"{given.kind()} of {bits(given.width)}", lines, choices)


def of_choice(word, is_signed, widths):
    """The row of a mux or a validif, whose condition is the input c."""
    condition, types = Type(False, 1), [Type(is_signed, width) for width in widths]
    if word == "validif":
        types = types[:1]
    width = max(given.width for given in types)
    names = "ab"[:len(types)]
    result = (Type(is_signed, width), f"{word}(c, {', '.join(names)})")
    lines = circuit([("c", condition), *zip(names, types)], [result])
    name = f"{result[0].kind()} of " + " and of ".join(dict.fromkeys(map(bits, widths)))
    # each corner of the first arm, with another of the second
    first, second = corners_of(types[0]), corners_of(types[-1])
    arms = [(a, second[(k + 1) % len(second)])[:len(types)] for k, a in enumerate(first)]
    arms = [(condition.value(c), *values) for c in (0, 1) for values in arms]
    return taken(name, lines, arms)


def taken_rows(op):
    """The rows of circuits that are taken, of UInt and then of SInt."""
    for is_signed in (False, True):
        if op in ("mux", "validif"):
            for widths in PAIRS["mux"] if op == "mux" else SAME:
                yield of_choice(op, is_signed, widths)
        elif operators.counts(op)[0] == 2:
            for widths in PAIRS.get(op, SAME):
                if (op, is_signed) not in GROWS or widths[0] < 128:
                    yield of_two(op, is_signed, widths)
        else:
            for width in ALL:
                too_wide = width == 128 and (op, is_signed) in GROWS
                if not too_wide and (op != "bits" or width):
                    yield of_one(op, Type(is_signed, width))


def refused_circuit(name, code, types, text, output="UInt<4>"):
    """The row of an output that has that source, over inputs of these types."""
    lines = [f"input {name} : {given}" for name, given in zip("abc", types)]
    return refused(name, code, lines + [f"output o : {output}", f"o <= {text}"])


def refused_pairs(op):
    """What is refused of two operands."""
    if op in operators.SHIFTS:
        yield refused_circuit("an amount that is an SInt", "E12", ["UInt<4>", "SInt<2>"],
                              f"{op}(a, b)")
    else:
        yield refused_circuit("a UInt and an SInt", "E12", ["UInt<4>", "SInt<3>"], f"{op}(a, b)")
        yield refused_circuit("an SInt and a UInt", "E12", ["SInt<4>", "UInt<3>"], f"{op}(a, b)")
    over = {"add": ("UInt", 128, 1), "sub": ("SInt", 1, 128), "mul": ("UInt", 64, 65),
            "div": ("SInt", 128, 4), "cat": ("SInt", 65, 64)}
    if op in over:
        kind, w, v = over[op]
        name = f"{kind} of {bits(w)} and of {bits(v)}"
        output = kind if op != "cat" else "UInt"
        yield refused_circuit(name, "E19", [f"{kind}<{w}>", f"{kind}<{v}>"], f"{op}(a, b)",
                              f"{output}<4>")
    if op == "dshl":
        yield refused_circuit("UInt of 2 bits by an amount of 7", "E19", ["UInt<2>", "UInt<7>"],
                              "dshl(a, b)")


def refused_singles(op):
    """What is refused of one operand."""
    kind = Type(operators.gives_sint(op, False), 0).kind()
    over = {"neg": ("SInt<128>", "neg(a)"), "cvt": ("UInt<128>", "cvt(a)"),
            "pad": ("UInt<4>", "pad(a, 129)"), "shl": ("UInt<4>", "shl(a, 125)"),
            "head": ("UInt<4>", "head(a, 129)"), "bits": ("UInt<4>", "bits(a, 128, 0)")}
    if op in over:
        given, text = over[op]
        yield refused_circuit("a result of 129 bits", "E19", [given], text, f"{kind}<4>")
    illegal = {"head": ["5"], "tail": ["5", str(2**128 - 1)], "bits": ["4, 2", "1, 3"]}
    for integers in illegal.get(op, []):
        name = f"{'integers' if op == 'bits' else 'the integer'} {integers} beside 4 bits"
        yield refused_circuit(name, "E21", ["UInt<4>"], f"{op}(a, {integers})")
    if op == "bits":
        yield refused_circuit("a bit of no bits", "E21", ["SInt<0>"], "bits(a, 0, 0)")
    given, other = ("SInt", "UInt") if kind == "SInt" else ("UInt", "SInt")
    operand = "UInt" if op in ("cvt", "asSInt", "neg") else "SInt"
    if op in operators.KEEP_THE_KIND:
        operand = given
    text = f"{op}(a, 2)" if operators.counts(op)[1] == 1 else f"{op}(a)"
    if op == "bits":
        text = "bits(a, 2, 1)"
    yield refused_circuit(f"the result is no {other}", "E13", [f"{operand}<4>"], text,
                          f"{other}<4>")


def refused_choices(word):
    """What is refused of a mux or a validif."""
    arms = "a, a" if word == "mux" else "a"
    yield refused_circuit("a condition that is an SInt", "E12", ["UInt<4>", "SInt<1>"],
                          f"{word}(b, {arms})")
    yield refused_circuit("a condition of two bits", "E22", ["UInt<4>", "UInt<2>"],
                          f"{word}(b, {arms})")
    yield refused_circuit("a condition of no bits", "E22", ["UInt<4>", "UInt<0>"],
                          f"{word}(b, {arms})")
    yield refused_circuit("a condition over 128 bits", "E19", ["UInt<4>", "UInt<128>"],
                          f"{word}(cat(b, b), {arms})")
    if word == "mux":
        yield refused_circuit("a UInt and an SInt", "E13", ["UInt<4>", "SInt<3>", "UInt<1>"],
                              "mux(c, a, b)")
        yield refused_circuit("an SInt and a UInt", "E13", ["SInt<4>", "UInt<3>", "UInt<1>"],
                              "mux(c, a, b)", "SInt<4>")
    else:
        yield refused_circuit("a value that is an SInt is no UInt", "E13", ["UInt<1>", "SInt<4>"],
                              "validif(a, b)")


def file_of(op):
    if op in ("mux", "validif"):
        refusals = refused_choices(op)
    else:
        refusals = refused_pairs(op) if operators.counts(op)[0] == 2 else refused_singles(op)
    remark = f"# {op}, at corners and out of form. Written by checks/operator_rows.py.\n"
    return "\n".join([remark, *taken_rows(op), *refusals])


def main():
    check = sys.argv[1:] == ["--check"]
    if sys.argv[1:] and not check:
        sys.exit(__doc__)
    differs = False
    for op in operators.OPERATORS + ["mux", "validif"]:
        target, text = FOLDER / f"{op}.rows", file_of(op)
        if not check:
            target.write_text(text)
        elif not target.exists() or target.read_text() != text:
            print(f"{target.name} differs from what operator_rows.py writes")
            differs = True
    sys.exit(1 if differs else 0)


if __name__ == "__main__":
    main()
