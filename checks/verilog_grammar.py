"""A second reading of the grammar of the Verilog subset: a text's tree with places, or the first
token with which no text goes on (V02), a byte that is in no token (V01), or the 257th brace that is
open (V07), whichever is read first."""
from typing import NamedTuple, Optional

from verilog_tokens import Place, tokens

MOST_BRACES = 256
REDUCTIONS = ("&", "|", "^")
COMPARISONS = ("==", "!=", "<", "<=", ">", ">=")
SHIFTS = ("<<", ">>", ">>>")
BINARY = ("+", "-", "*", "/", "%", "&", "|", "^", "<<", ">>", *COMPARISONS)
SIGNED = ("/", "%", "<", "<=", ">", ">=")
# past every limit
LARGE = 10**60


class Fault(NamedTuple):
    """A fault. Of two the lesser one is told."""
    at: Place
    code: str
    evidence: str

    def __str__(self):
        return f"{self.code} {self.at} {self.evidence}"


class Refused(Exception):
    """A text that is none of the grammar; its one argument is the fault."""


class Name(NamedTuple):
    text: str
    at: Place


class Num(NamedTuple):
    number: int
    at: Place


class Const(NamedTuple):
    width: int
    number: int
    at: Place


class Select(NamedTuple):
    """Bits of a name, from the high one to the low one; at the name."""
    name: Name
    high: int
    low: int
    at: Place


class Concat(NamedTuple):
    parts: list
    at: Place


class Repeat(NamedTuple):
    times: int
    part: object
    at: Place


class Declared(NamedTuple):
    """A port, wire or reg. `high` is the num of its range and `range_at` the range's place; `depth`
    the second num of an array's range."""
    word: str
    name: Name
    is_clock: bool
    high: Optional[Num]
    range_at: Optional[Place]
    depth: Optional[Num]


class Operand(NamedTuple):
    """An atom; at its `$signed` where it has one."""
    atom: object
    at: Place


class Side(NamedTuple):
    """A right side. Its operator is a sign, `atom` for an atom alone, `?` or `read`, and the last
    has the array's name."""
    operator: str
    operands: list
    at: Place
    array: Optional[Name] = None


class Assign(NamedTuple):
    target: Name
    side: Side
    at: Place


class Clocked(NamedTuple):
    clock: Name
    target: Name
    atom: object
    at: Place


class Resetting(NamedTuple):
    """An asynchronous block, alone or with a clock, a second target and what that one takes."""
    clock: Optional[Name]
    net: Name
    condition: Name
    target: Name
    const: Const
    other: Optional[Name]
    atom: object
    at: Place


class Write(NamedTuple):
    condition: object
    array: Name
    address: object
    data: object


class Writing(NamedTuple):
    clock: Name
    writes: list
    at: Place


def number(digits):
    """The number of decimal digits; one past every limit where there are many."""
    digits = digits.lstrip("0") or "0"
    return int(digits) if len(digits) < 60 else LARGE


def constant(token):
    size, _, rest = token.spelling.partition("'")
    digits = rest[1:]
    value = number(digits) if rest[0] == "d" else int(digits, 16 if rest[0] == "h" else 2)
    return Const(number(size), value, token.at)


class Parser:
    """Reads a text by recursive descent, with one token at hand. `items` are its declarations,
    those of ports first, assigns and blocks, in order."""

    def __init__(self, text):
        self.tokens, self.here, self.braces, self.items = tokens(text), 0, 0, []
        self.module()

    @property
    def token(self):
        return self.tokens[self.here]

    def sees(self, *spellings):
        return self.token.spelling in spellings and self.token.kind not in ("digit", "bad", "end")

    def step(self):
        token = self.token
        self.here += 1
        return token

    def refuse(self):
        kind, spelling, at = self.token
        if kind == "bad":
            raise Refused(Fault(at, "V01", f"byte {ord(spelling):02x}"))
        raise Refused(Fault(at, "V02", "syntax"))

    def take(self, *spellings):
        """Takes these tokens one behind the other, and gives the place of the first."""
        begin = self.token.at
        for spelling in spellings:
            if not self.sees(spelling):
                self.refuse()
            self.step()
        return begin

    def take_kind(self, kind):
        if self.token.kind != kind:
            self.refuse()
        return self.step()

    def takes(self, spelling):
        """Whether the next token is that one; then it is taken."""
        if not self.sees(spelling):
            return False
        self.step()
        return True

    def name(self):
        token = self.take_kind("name")
        return Name(token.spelling, token.at)

    def num(self):
        token = self.take_kind("num")
        return Num(number(token.spelling), token.at)

    def const(self):
        return constant(self.take_kind("const"))

    def module(self):
        self.take("module")
        self.name_of_module = self.name()
        self.take("(")
        if not self.sees(")"):
            self.port()
            while self.takes(","):
                self.port()
        self.take(")", ";")
        while not self.takes("endmodule"):
            self.items.append(self.item())
        if self.token.kind != "end":
            self.refuse()

    def port(self):
        is_clock = self.takes("(*")
        if is_clock:
            self.take("clock", "*)")
        if not self.sees("input", "output"):
            self.refuse()
        word = self.step().spelling
        self.items.append(self.declared(word, is_clock))

    def declared(self, word, is_clock=False):
        """What follows the word of a declaration, up to the name of a port or wire."""
        range_at = high = depth = None
        if self.sees("["):
            range_at = self.take("[")
            high = self.num()
            self.take(":", "0", "]")
        name = self.name()
        if word == "reg" and self.takes("["):
            self.take("0", ":")
            depth = self.num()
            self.take("]")
        return Declared(word, name, is_clock, high, range_at, depth)

    def item(self):
        at = self.token.at
        if self.sees("wire", "reg"):
            item = self.declared(self.step().spelling)
            self.take(";")
        elif self.takes("assign"):
            target = self.name()
            self.take("=")
            item = Assign(target, self.side(), at)
            self.take(";")
        elif self.takes("always"):
            item = self.block(at)
        else:
            self.refuse()
        return item

    def block(self, at):
        self.take("@", "(", "posedge")
        first = self.name()
        if self.takes("or"):
            self.take("posedge")
            net = self.name()
            self.take(")")
            return self.resetting(first, net, at)
        self.take(")")
        if self.sees("if"):
            return self.resetting(None, first, at)
        if self.takes("begin"):
            return self.writing(first, at)
        target = self.name()
        self.take("<=")
        atom = self.atom()
        self.take(";")
        return Clocked(first, target, atom, at)

    def resetting(self, clock, net, at):
        self.take("if", "(")
        condition = self.name()
        self.take(")")
        target = self.name()
        self.take("<=")
        const = self.const()
        self.take(";")
        other = atom = None
        if clock:
            self.take("else")
            other = self.name()
            self.take("<=")
            atom = self.atom()
            self.take(";")
        return Resetting(clock, net, condition, target, const, other, atom, at)

    def writing(self, clock, at):
        writes = []
        while not self.takes("end"):
            self.take("if", "(")
            condition = self.atom()
            self.take(")")
            array = self.name()
            self.take("[")
            address = self.atom()
            self.take("]", "<=")
            writes.append(Write(condition, array, address, self.atom()))
            self.take(";")
        return Writing(clock, writes, at)

    def side(self):
        at = self.token.at
        if self.sees("~", *REDUCTIONS):
            operator = self.step().spelling
            return Side(operator, [self.operand()], at)
        if self.sees("$signed"):
            return self.signed_side(at)
        if self.token.kind == "name":
            name = self.name()
            if self.takes("["):
                if self.token.kind != "num":
                    address = self.operand()
                    self.take("]")
                    return Side("read", [address], at, name)
                first = Operand(self.select(name), at)
            else:
                first = Operand(name, at)
        else:
            first = self.operand()
        return self.behind_first(first, at)

    def behind_first(self, first, at):
        """The right side that begins with that atom."""
        if self.sees(*BINARY):
            operator = self.step().spelling
            return Side(operator, [first, self.operand()], at)
        if self.takes("?"):
            second = self.operand()
            self.take(":")
            return Side("?", [first, second, self.operand()], at)
        return Side("atom", [first], at)

    def signed_side(self, at):
        first = self.signed()
        if self.takes(">>>"):
            return Side(">>>", [first, self.operand()], at)
        if not self.sees(*SIGNED):
            self.refuse()
        operator = self.step().spelling
        return Side(operator, [first, self.signed()], at)

    def signed(self):
        at = self.take("$signed", "(")
        atom = self.atom()
        self.take(")")
        return Operand(atom, at)

    def operand(self):
        at = self.token.at
        return Operand(self.atom(), at)

    def atom(self):
        if self.token.kind == "const":
            return self.const()
        if self.sees("{"):
            return self.braced()
        name = self.name()
        return self.select(name) if self.takes("[") else name

    def select(self, name):
        """The bits behind a name and its bracket."""
        high = low = self.num().number
        if self.takes(":"):
            low = self.num().number
        self.take("]")
        return Select(name, high, low, name.at)

    def braced(self):
        at = self.brace()
        if self.token.kind == "num":
            times = self.num().number
            self.brace()
            atom = Repeat(times, self.atom(), at)
            self.take("}")
            self.braces -= 1
        else:
            parts = [self.atom()]
            while self.takes(","):
                parts.append(self.atom())
            atom = Concat(parts, at)
        self.take("}")
        self.braces -= 1
        return atom

    def brace(self):
        if self.sees("{") and self.braces == MOST_BRACES:
            raise Refused(Fault(self.token.at, "V07", f"depth {MOST_BRACES + 1}"))
        self.braces += 1
        return self.take("{")
