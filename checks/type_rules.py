"""A second reading of the rules of types and flows, for texts of the grammar whose names are right.

It reads line by line and stops at the first fault. What stands before that has types, so none has
to be thought of that has no type.
"""
import sys
from typing import NamedTuple

from grammar_rules import tokens
from name_rules import begins_with_reference, is_sign, lines_of, place
from type_forms import (NUMBERS, Bundle, Field, Ground, Vector, alike, all_leaves, fits,
                        has_numbers, is_passive, memory_port, pairs, partly_alike, printed,
                        same_kind, turned, without_widths)

# Texts are nested 256 deep at most, and each level takes a few calls.
sys.setrecursionlimit(20000)

LOGIC = "lt leq gt geq eq neq not and or xor andr orr xorr cat bits head tail".split()
RESULTS = {**{op: "UInt" for op in [*LOGIC, "asUInt"]}, "cvt": "SInt", "neg": "SInt",
           "asSInt": "SInt", "asAsyncReset": "AsyncReset"}
CONVERSIONS = ("asUInt", "asSInt", "asAsyncReset")
LATENCIES = {"read-latency": (0, 1), "write-latency": (1,)}


class Shown(Exception):
    """The line of the first fault."""


class Reached(NamedTuple):
    """What an expression is: its type; of a reference its flow, and its path, which is None where
    it names no leaf."""
    type: object
    flow: str = "source"
    path: str = None


def show(code, at, evidence, *types):
    raise Shown(f"{code} {at} {evidence} {'; '.join(map(printed, types))}".rstrip())


def is_ground(given, *kinds):
    return isinstance(given, Ground) and given.kind in kinds


class Line:
    """The tokens of a line, read from the left, and what is visible there."""

    def __init__(self, ts, visible):
        self.ts, self.i, self.visible = ts, 0, visible

    def peek(self, ahead=0):
        return self.ts[self.i + ahead] if self.i + ahead < len(self.ts) else None

    def take(self):
        self.i += 1
        return self.ts[self.i - 1].spelling

    def skip(self, count):
        self.i += count
        return self

    def at(self):
        return place(self.peek())

    def is_next(self, *signs):
        return is_sign(self.peek(), *signs)

    def number(self):
        return int(self.take())

    def width(self):
        """A width in its brackets, or None where there is none."""
        if not self.is_next("<"):
            return None
        width = self.skip(1).number()
        self.skip(1)
        return width

    def type(self):
        if self.is_next("{"):
            given = self.bundle()
        else:
            given = Ground(self.take(), self.width())
        while self.is_next("["):
            given = Vector(given, self.skip(1).number())
            self.skip(1)
        return given

    def bundle(self):
        self.skip(1)
        fields = []
        while not self.is_next("}"):
            is_flipped = self.peek().spelling == "flip" and not is_sign(self.peek(1), ":")
            name = self.skip(is_flipped).take()
            fields.append(Field(name, is_flipped, self.skip(1).type()))
            self.skip(self.is_next(","))
        self.skip(1)
        return Bundle(tuple(fields))

    def reference(self):
        """A reference, whose own faults stand at its name."""
        at, name = self.at(), self.take()
        reached = self.visible[name]._replace(path=name)
        while self.is_next(".", "["):
            if self.take() == ".":
                reached = field_of(at, reached, self.take())
                continue
            if self.peek().kind == "integer":
                reached = element_of(at, reached, self.number())
            else:
                self.of_kind("UInt")
                reached = any_element_of(at, reached)
            self.skip(1)
        return reached

    def expression(self):
        word, is_call = self.peek().spelling, is_sign(self.peek(1), "(")
        if word in NUMBERS and (is_call or is_sign(self.peek(1), "<")):
            width = self.skip(1).width()
            self.skip(3)
            return Reached(Ground(word, width))
        if not is_call:
            return self.reference()
        at = self.at()
        self.skip(2)
        if word in ("mux", "validif"):
            given = self.choice(at, word)
        else:
            given = operation(at, word, self.operands())
        self.skip(1)
        return Reached(given)

    def operands(self):
        """The types of an operator's operands. The integers behind them say nothing of types."""
        types = []
        while not self.is_next(")"):
            if self.peek().kind == "integer":
                self.skip(1)
            else:
                types.append(self.expression().type)
            self.skip(self.is_next(","))
        return types

    def of_kind(self, *kinds):
        """An expression of one of these kinds."""
        at, given = self.at(), self.expression().type
        if not is_ground(given, *kinds):
            show("E12", at, "kinds", given)

    def passive(self):
        """The type of an expression that has no flips."""
        at, given = self.at(), self.expression().type
        if not is_passive(given):
            show("E15", at, "not passive", given)
        return given

    def choice(self, at, word):
        """A mux or a validif, from its condition on."""
        self.of_kind("UInt")
        arms = [self.skip(1).passive() for _ in range(2 if word == "mux" else 1)]
        if not all(map(has_numbers, arms)):
            show("E12", at, "kinds", *arms)
        if not alike(arms[0], arms[-1], same_kind):
            show("E13", at, "types", *arms)
        return without_widths(arms[0])


def field_of(at, reached, name):
    fields = reached.type.fields if isinstance(reached.type, Bundle) else []
    for field in fields:
        if field.name == name:
            path = None if reached.path is None else f"{reached.path}.{name}"
            return Reached(field.type, turned(reached.flow, field.is_flipped), path)
    return show("E12", at, f"field {name}")


def vector_of(at, reached):
    if not isinstance(reached.type, Vector):
        show("E12", at, "kinds", reached.type)
    return reached.type


def element_of(at, reached, index):
    vector = vector_of(at, reached)
    if index >= vector.length:
        show("E16", at, f"index {index} of {vector.length}")
    path = None if reached.path is None else f"{reached.path}[{index}]"
    return Reached(vector.element, reached.flow, path)


def any_element_of(at, reached):
    """What a dynamic index reaches: for its path the first element, if there is one."""
    vector = vector_of(at, reached)
    has_leaf = vector.length > 0 and reached.path is not None
    return Reached(vector.element, reached.flow, f"{reached.path}[0]" if has_leaf else None)


def operation(at, op, types):
    """The type of an operator's result."""
    others = ("Reset", "AsyncReset") if op in CONVERSIONS else ()
    are_right = all(is_ground(given, *NUMBERS, *others) for given in types)
    if are_right and op in ("dshl", "dshr"):
        are_right = types[1].kind == "UInt"
    elif are_right and len(types) == 2:
        are_right = types[0].kind == types[1].kind
    if not are_right:
        show("E12", at, "kinds", *types)
    return Ground(RESULTS.get(op, types[0].kind))


def nested(lines):
    """Lines, each with those of the block behind it."""
    tree = []
    blocks = [tree]
    for depth, ts in lines:
        del blocks[depth + 1:]
        block = []
        blocks[depth].append((ts, block))
        blocks.append(block)
    return tree


def is_port(ts):
    return ts[0].spelling in ("input", "output") and is_sign(ts[2:3][0], ":")


def port_field(ts):
    """A port as a field of its module's instances."""
    return Field(ts[1].spelling, ts[0].spelling == "input", Line(ts[3:], {}).type())


class Types:
    """The first fault of types and flows of a text: `fault` is its line, or None."""

    def __init__(self, text):
        modules = nested(lines_of(tokens(text)[0]))[-1][1]
        self.instances = {}
        for ts, block in modules:
            fields = tuple(port_field(line) for line, _ in block if is_port(line))
            self.instances.setdefault(ts[1].spelling, Reached(Bundle(fields)))
        try:
            for _, block in modules:
                self.block(block, {})
            self.fault = None
        except Shown as shown:
            self.fault = str(shown)

    def block(self, block, visible):
        """The statements of a block, in which no more is visible than before it and of its own."""
        visible = dict(visible)
        for ts, inner in block:
            self.statement(ts, inner, visible)

    def statement(self, ts, inner, visible):
        word, line = ts[0].spelling, Line(ts, visible)
        if begins_with_reference(ts):
            self.connect(line)
        elif word in ("when", "else"):
            if "when" in (word, ts[1].spelling):
                line.skip(1 if word == "when" else 2).of_kind("UInt")
            self.block(inner, visible)
        elif word != "skip":
            given = getattr(self, "port" if is_port(ts) else word)(line, inner)
            visible[ts[1].spelling] = given

    def port(self, line, _):
        is_input = line.take() == "input"
        return Reached(line.skip(2).type(), "source" if is_input else "sink")

    def wire(self, line, _):
        return Reached(line.skip(3).type(), "both")

    def node(self, line, _):
        at, given = line.skip(1).at(), line.skip(2).expression().type
        if not is_passive(given):
            show("E15", at, "not passive", given)
        return Reached(given)

    def inst(self, line, _):
        return self.instances[line.skip(3).take()]

    def reg(self, line, inner):
        at, name, given = line.skip(1).at(), line.take(), line.skip(1).type()
        if not has_numbers(given):
            show("E12", at, "kinds", given)
        if not is_passive(given):
            show("E15", at, "not passive", given)
        line.skip(1).of_kind("Clock")
        line.visible[name] = Reached(given, "both")
        if inner:
            self.reset(Line(inner[0][0], line.visible), given)
        elif line.peek():
            self.reset(line.skip(3), given)
        return line.visible[name]

    def reset(self, line, given):
        """The reset of a register of that type."""
        line.skip(3).of_kind("UInt", "AsyncReset", "Reset")
        at, init = line.skip(1).at(), line.expression().type
        if not alike(given, init, same_kind):
            show("E13", at, "types", given, init)

    def mem(self, line, inner):
        """A memory, whose faults stand at its name."""
        at, name = line.skip(1).at(), line.peek().spelling
        lines = [(ts[0].spelling, Line(ts[2:], {})) for ts, _ in inner]
        types = [field.type() for word, field in lines if word == "data-type"]
        numbers = {word: [field.number() for other, field in lines if other == word]
                   for word in ("depth", *LATENCIES)}
        if types and not is_passive(types[0]):
            show("E15", at, "not passive", types[0])
        if len(types) != 1 or not all_leaves(types[0], lambda ground: (
                ground.kind in NUMBERS and ground.width is not None)):
            show("E17", at, f"memory {name} data-type")
        if len(numbers["depth"]) != 1 or numbers["depth"] == [0]:
            show("E17", at, f"memory {name} depth")
        for word, allowed in LATENCIES.items():
            if len(numbers[word]) != 1 or numbers[word][0] not in allowed:
                show("E17", at, f"memory {name} {word}")
        if [word for word, _ in lines].count("read-under-write") > 1:
            show("E17", at, f"memory {name} read-under-write")
        ports = [Field(port.spelling, True, memory_port(word, types[0], numbers["depth"][0]))
                 for word, field in lines if word in ("reader", "writer", "readwriter")
                 for port in field.ts]
        return Reached(Bundle(tuple(ports)))

    def connect(self, line):
        """A statement that begins with a reference."""
        at, left, how = line.at(), line.reference(), line.take()
        if how == "is":
            return
        right = line.expression()
        if how == "<=":
            are_right = alike(left.type, right.type, fits)
        else:
            are_right = partly_alike(left.type, right.type)
        if not are_right:
            show("E13", at, "types", left.type, right.type)
        for path, is_flipped in pairs(left.type, right.type):
            driven = right if is_flipped else left
            if turned(driven.flow, is_flipped) == "source" and driven.path is not None:
                show("E14", at, f"flow {driven.path}{path}")
