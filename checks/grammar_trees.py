"""The tree of a text, and its short form, which has all that has a place with it, as `a@3:5`."""
import sys
from typing import NamedTuple

from grammar_rules import OPS, spelled_number, tokens

# Texts are nested 256 deep at most, and each level takes a few calls.
sys.setrecursionlimit(10000)


class Place(NamedTuple):
    line: int
    column: int

    def __str__(self):
        return f"{self.line}:{self.column}"


class Name(NamedTuple):
    """A word with its place."""
    spelling: str
    place: Place

    def __str__(self):
        return f"{self.spelling}@{self.place}"


class Typed(NamedTuple):
    """A type with the place where it begins."""
    type: object
    place: Place

    def __str__(self):
        return f":{self.type}@{self.place}"


class ShortForms:
    """What the parts of a text are in the short form. A block is the list of its statements, and a
    reference the parts behind a name."""

    def circuit(self, name, modules):
        return f"{name}{{{' '.join(modules)}}}"

    def module(self, place, name, ports, block):
        return f"{place} {name}({','.join(ports)})[{';'.join(block)}]"

    def port(self, direction, name, typed):
        return f"{direction} {name}{typed}"

    def wire(self, place, name, typed):
        return f"{place} wire {name}{typed}"

    def register(self, place, name, typed, clock, reset):
        return f"{place} reg {name}{typed},{clock}{reset or ''}"

    def reset(self, place, condition, init):
        return f",reset@{place}({condition},{init})"

    def node(self, place, name, expression):
        return f"{place} node {name}={expression}"

    def instance(self, place, name, module):
        return f"{place} inst {name} of {module}"

    def memory(self, place, name, fields):
        return f"{place} mem {name}{{{';'.join(fields)}}}"

    def data_type(self, place, typed):
        return f"{place} data-type{typed}"

    def memory_number(self, place, word, number):
        return f"{place} {word} {number}"

    def memory_ports(self, place, word, names):
        return f"{place} {word} {' '.join(map(str, names))}"

    def read_under_write(self, place, which):
        return f"{place} read-under-write {which}"

    def when(self, place, condition, block, otherwise):
        return f"{place} when {condition}[{';'.join(block)}][{';'.join(otherwise)}]"

    def connect(self, place, sign, sink, expression):
        return f"{place} {sink}{sign}{expression}"

    def invalid(self, place, sink):
        return f"{place} {sink} is invalid"

    def skip(self, place):
        return f"{place} skip"

    def ground(self, kind, width):
        return kind if width is None else f"{kind}<{width}>"

    def vector(self, element, length):
        return f"{element}[{length}]"

    def bundle(self, fields):
        return f"{{{','.join(fields)}}}"

    def field(self, is_flipped, name, typed):
        return f"{'~' if is_flipped else ''}{name}{typed}"

    def reference(self, name, parts):
        return f"{name}{''.join(parts)}"

    sink = reference

    def subfield(self, place, name):
        return f".@{place} {name}"

    def subindex(self, place, number_place, number):
        return f"[@{place} {number}@{number_place}]"

    def subaccess(self, place, expression):
        return f"[@{place} {expression}]"

    def literal(self, kind, width, number):
        return f"{kind}{'' if width is None else f'<{width}>'}({number})"

    def operation(self, word, operands, integers):
        return f"{word}({','.join(operands + [str(k) for k in integers])})"


class Tree:
    """A text of the grammar. `form` is what the forms make of it."""

    def __init__(self, text, forms=ShortForms()):
        self.ts, self.i, self.forms = tokens(text)[0], 0, forms
        self.form = self.text()

    def peek(self, ahead=0):
        return self.ts[self.i + ahead][:2] if self.i + ahead < len(self.ts) else ("end", "")

    def take(self, *spellings):
        """The spelling of the next token, which is one of these or of this kind."""
        token = self.ts[self.i]
        assert not spellings or {token.spelling, token.kind} & set(spellings), (token, spellings)
        self.i += 1
        return token.spelling

    def place(self):
        return Place(*self.ts[self.i][2:])

    def named(self):
        place = self.place()
        return Name(self.take(), place)

    def number(self):
        return int(self.take("integer"))

    def text(self):
        if self.peek()[1] == "FIRRTL":
            while self.take() != "":
                pass
        self.take("circuit")
        name = self.named()
        self.take(":")
        if self.peek()[0] == "annotations":
            self.take()
        self.take("nl")
        self.take("in")
        modules = []
        while self.peek()[0] != "out":
            modules.append(self.module())
        return self.forms.circuit(name, modules)

    def module(self):
        place = self.place()
        self.take("module")
        name = self.named()
        self.take(":")
        self.take("nl")
        ports, block = [], []
        if self.peek()[0] == "in":
            self.take()
            while self.peek()[1] in ("input", "output") and self.peek(2) == ("sign", ":"):
                ports.append(self.port())
            block = self.statements()
        return self.forms.module(place, name, ports, block)

    def port(self):
        direction, name = self.take(), self.named()
        typed = self.typed()
        self.take("nl")
        return self.forms.port(direction, name, typed)

    def statements(self):
        out = []
        while self.peek()[0] != "out":
            out.append(self.statement())
        self.take()
        return out

    def block(self):
        self.take("nl")
        if self.peek()[0] != "in":
            return []
        self.take()
        return self.statements()

    def statement(self):
        place, first, (kind, second) = self.place(), self.peek()[1], self.peek(1)
        is_invalidated = (second, self.peek(2)[1]) == ("is", "invalid")
        if is_invalidated or kind == "sign" and second in ("<=", "<-", ".", "["):
            return self.driven(place)
        if first == "skip":
            self.take()
            self.take("nl")
            return self.forms.skip(place)
        return getattr(self, first)(place)

    def driven(self, place):
        """A statement that begins with a reference."""
        sink = self.forms.sink(*self.ref())
        sign = self.take("<=", "<-", "is")
        if sign == "is":
            self.take("invalid")
            out = self.forms.invalid(place, sink)
        else:
            out = self.forms.connect(place, sign, sink, self.expr())
        self.take("nl")
        return out

    def wire(self, place):
        self.take("wire")
        name, typed = self.named(), self.typed()
        self.take("nl")
        return self.forms.wire(place, name, typed)

    def node(self, place):
        self.take("node")
        name = self.named()
        self.take("=")
        expression = self.expr()
        self.take("nl")
        return self.forms.node(place, name, expression)

    def inst(self, place):
        self.take("inst")
        name = self.named()
        self.take("of")
        module = self.named()
        self.take("nl")
        return self.forms.instance(place, name, module)

    def reg(self, place):
        self.take("reg")
        name, typed = self.named(), self.typed()
        self.take(",")
        clock = self.expr()
        return self.forms.register(place, name, typed, clock, self.reset())

    def reset(self):
        """What resets a register, or None."""
        if self.peek()[0] == "nl":
            self.take()
            return None
        place = self.place()
        self.take("with")
        self.take(":")
        is_level = self.peek()[0] == "nl"
        self.take("nl", "(")
        for spelling in ["in"] * is_level + ["reset", "=>", "("]:
            self.take(spelling)
        condition = self.expr()
        self.take(",")
        init = self.expr()
        for spelling in [")", "nl", "out"] if is_level else [")", ")", "nl"]:
            self.take(spelling)
        return self.forms.reset(place, condition, init)

    def when(self, place):
        self.take("when")
        condition = self.expr()
        self.take(":")
        block, otherwise = self.block(), []
        if self.peek()[1] == "else" and self.peek(1)[1] in (":", "when"):
            self.take()
            if self.peek()[1] == ":":
                self.take()
                otherwise = self.block()
            else:
                otherwise = [self.when(self.place())]
        return self.forms.when(place, condition, block, otherwise)

    def mem(self, place):
        self.take("mem")
        name = self.named()
        self.take(":")
        self.take("nl")
        fields = []
        if self.peek()[0] == "in":
            self.take()
            while self.peek()[0] != "out":
                fields.append(self.field())
            self.take()
        return self.forms.memory(place, name, fields)

    def field(self):
        place, word = self.place(), self.take()
        if word == "data-type":
            out = self.forms.data_type(place, self.typed(sign="=>"))
            self.take("nl")
            return out
        self.take("=>")
        if word in ("reader", "writer", "readwriter"):
            names = []
            while self.peek()[0] != "nl":
                names.append(self.named())
            out = self.forms.memory_ports(place, word, names)
        elif word == "read-under-write":
            out = self.forms.read_under_write(place, self.take())
        else:
            out = self.forms.memory_number(place, word, self.number())
        self.take("nl")
        return out

    def typed(self, sign=":"):
        """A type behind a sign, with its place."""
        self.take(sign)
        place = self.place()
        return Typed(self.type(), place)

    def type(self):
        out = self.bundle() if self.peek()[1] == "{" else self.ground()
        while self.peek()[1] == "[":
            self.take()
            out = self.forms.vector(out, self.number())
            self.take("]")
        return out

    def ground(self):
        kind, width = self.take(), None
        if self.peek()[1] == "<":
            self.take()
            width = self.number()
            self.take(">")
        return self.forms.ground(kind, width)

    def bundle(self):
        self.take("{")
        fields = []
        while self.peek()[1] != "}":
            if fields:
                self.take(",")
            is_flipped = self.peek()[1] == "flip" and self.peek(1)[1] != ":"
            if is_flipped:
                self.take()
            name = self.named()
            fields.append(self.forms.field(is_flipped, name, self.typed()))
        self.take()
        return self.forms.bundle(fields)

    def ref(self):
        """A name, and the parts behind it."""
        name, parts = self.named(), []
        while self.peek() in (("sign", "."), ("sign", "[")):
            place = self.place()
            if self.take() == ".":
                parts.append(self.forms.subfield(place, self.named()))
                continue
            if self.peek()[0] == "integer":
                number_place = self.place()
                parts.append(self.forms.subindex(place, number_place, self.number()))
            else:
                parts.append(self.forms.subaccess(place, self.expr()))
            self.take("]")
        return name, parts

    def expr(self):
        word, behind = self.peek()[1], self.peek(1)
        if word in ("UInt", "SInt") and behind in (("sign", "("), ("sign", "<")):
            return self.literal()
        if behind == ("sign", "(") and (word in OPS or word in ("mux", "validif")):
            return self.operation()
        return self.forms.reference(*self.ref())

    def literal(self):
        kind, width = self.named(), None
        if self.take("<", "(") == "<":
            width = self.number()
            self.take(">")
            self.take("(")
        number = spelled_number(self.ts[self.i])
        self.take("integer", "string")
        self.take(")")
        return self.forms.literal(kind, width, number)

    def operation(self):
        word = self.named()
        self.take("(")
        operands, integers = [self.expr()], []
        while self.peek()[1] == ",":
            self.take()
            if self.peek()[0] == "integer":
                integers.append(self.number())
            else:
                operands.append(self.expr())
        self.take(")")
        return self.forms.operation(word, operands, integers)
