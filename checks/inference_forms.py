"""What the modules of a text declare, connect and ask, in the order of the text, for texts whose
names and types are right. Each width that is not written is an unknown of its own there.

It is what the readings of the rules of resets and of widths stand on.
"""
from typing import NamedTuple

import type_rules
from grammar_rules import spelled_number, tokens
from name_rules import begins_with_reference, is_sign, lines_of, place
from type_forms import NUMBERS, Bundle, Field, Ground, Vector, common, memory_port, without_widths
from type_rules import RESULTS, is_port, nested

CHOICES = ("mux", "validif")


class Unknown:
    """A width that is not written, and the least that it has to be as far as is known."""

    def __init__(self):
        self.least = 0


class Literal(NamedTuple):
    at: str
    kind: str
    width: object
    number: int


class Elements:
    """The elements of a vector that a dynamic index may pick, as texts, of which none is made before
    it is asked for."""

    def __init__(self, length):
        self.length = length

    def __bool__(self):
        return self.length > 0

    def __getitem__(self, k):
        if k >= self.length:
            raise IndexError(k)
        return f"[{k}]"


class Reference(NamedTuple):
    """A reference to what has a type. Each of its steps is a list of texts: the name, a field or a
    plain index alone, or the elements of a vector that a dynamic index may pick."""
    at: str
    steps: tuple
    indices: tuple
    type: object

    def path(self):
        """The path of what it reaches, by the first elements."""
        return "".join(step[0] if step else "[0]" for step in self.steps)

    def paths(self):
        """The paths of all that it may reach."""
        paths = [""]
        for step in self.steps:
            paths = [path + text for path in paths for text in step]
        return paths


class Call(NamedTuple):
    """An operator, a mux or a validif."""
    at: str
    word: str
    operands: tuple
    integers: tuple


# What stands in a module, step by step.

class Declared(NamedTuple):
    """A declaration with its word; of a memory without ports also the type of its data."""
    word: str
    at: str
    name: str
    type: object
    data: object = None

    def reference(self):
        return Reference(self.at, ([self.name],), (), self.type)


class Stands(NamedTuple):
    """An expression, or a reference that is driven."""
    expression: object


class Asked(NamedTuple):
    """A condition: of a when, or of a register's reset."""
    expression: object


class Entered(NamedTuple):
    """A when."""


class Words(NamedTuple):
    """The words of a memory: how many, and their type."""
    depth: int
    data: object


class Port(NamedTuple):
    """A port of a memory, with the word of its kind."""
    word: str
    name: str


class Memory(NamedTuple):
    """What the fields of a memory say: the type of its words and how many they are, the latency of
    reads, whether these see what is written at the same edge, and the ports in their order."""
    data: object
    depth: int
    latency: int
    is_new: bool
    ports: tuple

    def type(self):
        return Bundle(tuple(Field(port.name, True, memory_port(port.word, self.data, self.depth))
                            for port in self.ports))


class Joined(NamedTuple):
    """What a connect, a node or an init (`how`) joins."""
    how: str
    driven: Reference
    giving: object


def opened(given, has_leaf=True):
    """The type with an unknown for each number's width that is not written. In a vector of length 0
    there is no leaf, and such a width is 0."""
    if isinstance(given, Vector):
        return given._replace(element=opened(given.element, has_leaf and given.length > 0))
    if isinstance(given, Bundle):
        return Bundle(tuple(field._replace(type=opened(field.type, has_leaf))
                            for field in given.fields))
    if given.kind not in NUMBERS or given.width is not None:
        return given
    return given._replace(width=Unknown() if has_leaf else 0)


def without_found_widths(given):
    """The type of a node without the widths that are found anew: all but those below vectors of
    length 0, where no leaf stands."""
    if isinstance(given, Vector):
        return given if given.length == 0 else given._replace(
            element=without_found_widths(given.element))
    if isinstance(given, Bundle):
        return Bundle(tuple(field._replace(type=without_found_widths(field.type))
                            for field in given.fields))
    return Ground(given.kind)


def type_of(expression):
    """The type of an expression; widths of operators, muxes and validifs are left out."""
    if isinstance(expression, Reference):
        return expression.type
    if isinstance(expression, Literal):
        return Ground(expression.kind, expression.width)
    if expression.word in CHOICES:
        return without_widths(type_of(expression.operands[1]))
    return Ground(RESULTS.get(expression.word) or type_of(expression.operands[0]).kind)


def leaves(given, most=None):
    """The path, type and orientation of each leaf, in order; of each vector's elements that many
    alone, if a number is given."""
    return [(path, one, is_flipped) for path, one, _, is_flipped in matched(given, given, most)]


def matched(one, other, most=None):
    """What a connect of types that fit pairs, in order: the path within both, the two ground types,
    and whether the pair is flipped; of each vector's elements that many alone, if a number is
    given."""
    if isinstance(one, Vector):
        length = min(one.length, other.length)
        for k in range(length if most is None else min(length, most)):
            for path, *rest in matched(one.element, other.element, most):
                yield (f"[{k}]{path}", *rest)
    elif isinstance(one, Bundle):
        for field, beside in common(one, other):
            for path, left, right, is_flipped in matched(field.type, beside.type, most):
                yield f".{field.name}{path}", left, right, is_flipped != field.is_flipped
    else:
        yield "", one, other, False


class Line(type_rules.Line):
    """The tokens of a line, read from the left into trees. What is visible are types by names."""

    def reference(self):
        at, name = self.at(), self.take()
        given, steps, indices = self.visible[name], [[name]], []
        while self.is_next(".", "["):
            if self.take() == ".":
                name = self.take()
                given = next(field.type for field in given.fields if field.name == name)
                steps.append([f".{name}"])
                continue
            if self.peek().kind == "integer":
                steps.append([f"[{self.number()}]"])
            else:
                indices.append(self.expression())
                steps.append(Elements(given.length))
            given = given.element
            self.skip(1)
        return Reference(at, tuple(steps), tuple(indices), given)

    def expression(self):
        at, word, is_call = self.at(), self.peek().spelling, is_sign(self.peek(1), "(")
        if word in NUMBERS and (is_call or is_sign(self.peek(1), "<")):
            width = self.skip(1).width()
            number = spelled_number(self.skip(1).peek())
            self.skip(2)
            return Literal(at, word, width, number)
        if not is_call:
            return self.reference()
        self.skip(2)
        operands, integers = [], []
        while not self.is_next(")"):
            if self.peek().kind == "integer":
                integers.append(self.number())
            else:
                operands.append(self.expression())
            self.skip(self.is_next(","))
        self.skip(1)
        return Call(at, word, tuple(operands), tuple(integers))


class Module:
    """A module: its ports, its steps in the order of the text, those of whens in theirs, the modules
    of its instances, and its memories."""

    def __init__(self, name, block):
        self.name, self.instances, self.memories = name, {}, {}
        self.ports = [self.port(Line(ts, {})) for ts, _ in block if is_port(ts)]
        self.steps = list(self.ports)

    def port(self, line):
        word, at, name = line.take(), line.at(), line.take()
        return Declared(word, at, name, opened(line.skip(1).type()))

    def face(self):
        """The type of its instances, whose leaves have the widths of the ports."""
        return Bundle(tuple(Field(port.name, port.word == "input", port.type)
                            for port in self.ports))

    def take_body(self, block, modules):
        """Takes the statements behind the ports."""
        self.modules = modules
        visible = {port.name: port.type for port in self.ports}
        self.block([(ts, inner) for ts, inner in block if not is_port(ts)], visible)

    def block(self, block, visible):
        visible = dict(visible)
        for ts, inner in block:
            word, line = ts[0].spelling, Line(ts, visible)
            if begins_with_reference(ts):
                self.connect(line)
            elif word in ("when", "else"):
                self.branch(line, inner, visible)
            elif word != "skip":
                getattr(self, word)(line.skip(1), line.at(), line.take(), inner)

    def branch(self, line, inner, visible):
        """A block of a when, behind a condition or an `else` alone."""
        line.skip(line.peek().spelling == "else")
        if line.peek().spelling == "when":
            self.steps += [Entered(), Asked(line.skip(1).expression())]
        self.block(inner, visible)

    def connect(self, line):
        left, how = line.reference(), line.take()
        self.steps.append(Stands(left))
        if how != "is":
            right = line.expression()
            self.steps += [Stands(right), Joined(how, left, right)]

    def declare(self, line, word, at, name, given, data=None):
        """Declares a name, which is visible from here on."""
        line.visible[name] = given
        self.steps.append(Declared(word, at, name, given, data))
        return self.steps[-1].reference()

    def wire(self, line, at, name, _):
        self.declare(line, "wire", at, name, opened(line.skip(1).type()))

    def node(self, line, at, name, _):
        value = line.skip(1).expression()
        given = opened(without_found_widths(type_of(value)))
        driven = self.declare(line, "node", at, name, given)
        self.steps += [Stands(value), Joined("node", driven, value)]

    def inst(self, line, at, name, _):
        of = line.skip(1).take()
        self.instances[name] = of
        self.declare(line, "inst", at, name, self.modules[of].face())

    def reg(self, line, at, name, inner):
        given = opened(line.skip(1).type())
        clock = line.skip(1).expression()
        driven = self.declare(line, "reg", at, name, given)
        self.steps.append(Stands(clock))
        if inner or line.peek():
            reset = Line(inner[0][0], line.visible) if inner else line.skip(3)
            condition = reset.skip(3).expression()
            init = reset.skip(1).expression()
            self.steps += [Asked(condition), Stands(init), Joined("init", driven, init)]

    def mem(self, line, at, name, inner):
        memory = self.memories[name] = memory_of(inner)
        self.steps.append(Words(memory.depth, memory.data))
        self.declare(line, "mem", at, name, memory.type(), None if memory.ports else memory.data)


def memory_of(inner):
    """The memory of these fields."""
    fields = [(ts[0].spelling, Line(ts[2:], {})) for ts, _ in inner]
    first = dict(reversed(fields))
    ports = tuple(Port(word, port.spelling) for word, field in fields
                  if word in ("reader", "writer", "readwriter") for port in field.ts)
    under = first["read-under-write"].take() if "read-under-write" in first else "old"
    return Memory(opened(first["data-type"].type()), first["depth"].number(),
                  first["read-latency"].number(), under == "new", ports)


class Circuit:
    """The modules of a text, by their names and in its order, and the name of the main one. Each is
    read as that class says."""

    def __init__(self, text, read=Module):
        ts, modules = nested(lines_of(tokens(text)[0]))[-1]
        self.main, self.at = ts[1].spelling, place(ts[1])
        self.modules = {line[1].spelling: read(line[1].spelling, block)
                        for line, block in modules}
        for line, block in modules:
            self.modules[line[1].spelling].take_body(block, self.modules)
