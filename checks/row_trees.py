#!/usr/bin/env python3
"""Writes the trees of small texts as definitions, from which proofs compute what circuits mean.

Each text checks/row_trees/NAME.fir becomes the circuit NAME of the file TextTrees.antt in
crates/fir_leaf/proofs, with all its places. The forms are those of the data of fir_ast (specs/),
and the short names those of SmallTrees.antt (fir_meaning) and TreeForms.antt (fir_leaf).

    row_trees.py          writes the file
    row_trees.py --check  fails where the file is another
"""
import itertools
import pathlib
import re
import sys

from grammar_rules import fault
from grammar_trees import Tree

ROOT = pathlib.Path(__file__).resolve().parent.parent
TEXTS = ROOT / "checks/row_trees"
WRITTEN = ROOT / "crates/fir_leaf/proofs/TextTrees.antt"
WIDTH = 160

FIRST_LINE = "-- Made by checks/row_trees.py: the trees of the texts in checks/row_trees."

# The names of forms, by the files in which they are defined.
SOURCES = {
    "std.proofs.Common": "[] ◌∷◌ true false Some None",
    "std.specs.Prelude": "codes",
    "fir_base.specs.declared.direction.Direction.TheVariants": "Input Output",
    "fir_bits.specs.declared.operators.PrimOp.TheVariants as op": "",
    "fir_ast.specs.declared.statements.ReadUnderWrite.TheVariants": "Old New Undefined",
    "fir_ast.specs.Types":
        "uint sint clock reset async_reset bundle vector no_fields field",
    "fir_ast.specs.Expressions":
        "reference operation mux validif no_parts subfield subindex subaccess"
        " no_expressions expression",
    "fir_ast.specs.Statements":
        "data_type depth read_latency write_latency reader writer readwriter read_under_write"
        " wire register node instance memory when connect partial_connect invalid skip",
    "fir_ast.specs.Circuits": "CircuitTree",
    "fir_meaning.proofs.SmallTrees": "at name_at block",
    "fir_leaf.proofs.TreeForms":
        "circuit_tree module_tree port_tree sink with_reset unsigned signed",
}
GROUND = {"Clock": "clock", "Reset": "reset", "AsyncReset": "async_reset"}
CONNECTS = {"<=": "connect", "<-": "partial_connect"}


def applied(form, *given):
    """A form and what is given to it, of which more than a word stands in parentheses."""
    texts = (text if re.fullmatch(r"[\w.]+|\[\]", text) else f"({text})" for text in given)
    return " ".join((form, *texts))


def on_lines(form, *given):
    """The same, where each of the lists given begins a line."""
    return "\n".join((form, *(f"({text})" for text in given)))


def listed(items):
    return "\n∷ ".join((*items, "[]"))


def folded(links, last):
    """Each link with what follows it given to it, where a last one follows."""
    return applied(links[0], folded(links[1:], last)) if links else last


def at(place):
    return f"at {place.line} {place.column}"


def codes(spelling):
    return f'codes "{spelling}"'


def named(name):
    return f"name_at {name.place.line} {name.place.column} ({codes(name.spelling)})"


def truth(is_so):
    return "true" if is_so else "false"


def optional(number):
    return "None" if number is None else f"Some {number}"


class Definitions:
    """What the parts of a text are as definitions."""

    def circuit(self, name, modules):
        return on_lines(applied("circuit_tree", named(name)), listed(modules))

    def module(self, place, name, ports, block):
        head = applied("module_tree", at(place), named(name))
        return on_lines(head, listed(ports), listed(block))

    def port(self, direction, name, typed):
        return applied("port_tree", direction.title(), named(name), at(typed.place), typed.type)

    def wire(self, place, name, typed):
        return applied("wire", at(place), named(name), at(typed.place), typed.type)

    def register(self, place, name, typed, clock, reset):
        head = applied("register", at(place), named(name), at(typed.place), typed.type)
        return applied(head, clock, reset or "None")

    def reset(self, place, condition, init):
        return applied("with_reset", at(place), condition, init)

    def node(self, place, name, expression):
        return applied("node", at(place), named(name), expression)

    def instance(self, place, name, module):
        return applied("instance", at(place), named(name), named(module))

    def memory(self, place, name, fields):
        return on_lines(applied("memory", at(place), named(name)), listed(fields))

    def data_type(self, place, typed):
        return applied("data_type", at(place), at(typed.place), typed.type)

    def memory_number(self, place, word, number):
        return applied(word.replace("-", "_"), at(place), str(number))

    def memory_ports(self, place, word, names):
        return applied(word, at(place), " ∷ ".join((*map(named, names), "[]")))

    def read_under_write(self, place, which):
        return applied("read_under_write", at(place), which.title())

    def when(self, place, condition, block, otherwise):
        blocks = (applied("block", listed(statements)) for statements in (block, otherwise))
        return on_lines(applied("when", at(place), condition), *blocks)

    def connect(self, place, sign, sink, expression):
        return applied(CONNECTS[sign], at(place), sink, expression)

    def invalid(self, place, sink):
        return applied("invalid", at(place), sink)

    def skip(self, place):
        return applied("skip", at(place))

    def ground(self, kind, width):
        return GROUND.get(kind) or applied(kind.lower(), optional(width))

    def vector(self, element, length):
        return applied("vector", element, str(length))

    def bundle(self, fields):
        return applied("bundle", folded(fields, "no_fields"))

    def field(self, is_flipped, name, typed):
        head = applied("field", at(name.place), truth(is_flipped), codes(name.spelling))
        return applied(head, at(typed.place), typed.type)

    def reference(self, name, parts):
        return applied("reference", at(name.place), codes(name.spelling), folded(parts, "no_parts"))

    def sink(self, name, parts):
        return applied("sink", at(name.place), codes(name.spelling), folded(parts, "no_parts"))

    def subfield(self, place, name):
        return applied("subfield", at(place), at(name.place), codes(name.spelling))

    def subindex(self, place, number_place, number):
        return applied("subindex", at(place), at(number_place), str(number))

    def subaccess(self, place, expression):
        return applied("subaccess", at(place), expression)

    def literal(self, kind, width, number):
        place, width, magnitude = at(kind.place), optional(width), str(abs(number))
        if kind.spelling == "UInt":
            return applied("unsigned", place, width, magnitude)
        return applied("signed", place, width, truth(number < 0), magnitude)

    def operation(self, word, operands, integers):
        place = at(word.place)
        if word.spelling in ("mux", "validif"):
            return applied(word.spelling, place, *operands)
        operator = f"op.{word.spelling[0].upper()}{word.spelling[1:]}"
        links = [applied("expression", operand) for operand in operands]
        numbers = " ∷ ".join((*map(str, integers), "[]"))
        return applied("operation", place, operator, folded(links, "no_expressions"), numbers)


def wrapped(line):
    """A line as lines that are not too long. It ends before what is given to its outermost form."""
    if len(line) <= WIDTH - 4:
        return line
    depths = itertools.accumulate((char == "(") - (char == ")") for char in line[:WIDTH - 4])
    breaks = [(depth, -k) for k, depth in enumerate(depths) if k and line[k:k + 2] == " ("]
    end = -min(breaks)[1]
    return f"{line[:end]}\n    {wrapped(line[end + 1:])}"


def definition(path):
    """The circuit of a text."""
    text = path.read_text(encoding="ascii")
    if fault(text):
        sys.exit(f"{path.relative_to(ROOT)}: {fault(text)}")
    lines = f"{path.stem} = {Tree(text, Definitions()).form}".split("\n")
    return f"abbrev pub {path.stem} : CircuitTree\n" + "\n    ".join(map(wrapped, lines))


def imports(body):
    """The lines that import what stands in the definitions."""
    body = re.sub(r'"\w*"', "", body)
    words = set(re.findall(r"[\w.]+|\[\]", body)) | {"◌∷◌"}
    for source, names in SOURCES.items():
        used = [name for name in names.split() if name in words]
        if used:
            yield f"use Rattle.{source}.{{{', '.join(used)}}}"
        elif not names and f"{source.split()[-1]}." in body:
            yield f"use Rattle.{source}"


def written():
    body = "\n\n".join(definition(path) for path in sorted(TEXTS.glob("*.fir")))
    return "\n".join((FIRST_LINE, *imports(body), "", body, ""))


def main():
    if sys.argv[1:] == ["--check"]:
        if WRITTEN.read_text(encoding="utf-8") != written():
            sys.exit(f"row_trees: {WRITTEN.relative_to(ROOT)} is another: run checks/row_trees.py")
        print("row_trees: the trees are those of the texts")
    elif sys.argv[1:]:
        sys.exit(__doc__)
    else:
        WRITTEN.write_text(written(), encoding="utf-8")


if __name__ == "__main__":
    main()
