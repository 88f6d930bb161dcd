"""Makes texts of the Verilog subset at random: valid ones, which have each form of the grammar, and
the same with some changes."""
import dataclasses

from verilog_grammar import BINARY, COMPARISONS, SHIFTS, SIGNED
from verilog_tokens import tokens

FIRST_NAMES = """a b c d e x y z o p q r s t u v w clk clock reset en data addr mem count state sum
next _ _n0 _n1 A Z9 a$ b$1 i_ __ Wire posedges end_ ifx clk2 valid ready word bits""".split()
# words that are reserved in later standards of the language and not in this one
LATER_WORDS = "logic bit int do final byte bool type string".split()
ARITHMETIC = [sign for sign in BINARY if sign not in COMPARISONS + SHIFTS]
BLANKS = [" ", " ", " ", "\n", "\n  ", "\t", "  ", "\r\n", "\n\n"]
REMARKS = ["/**/", "/* a */", "/***/", "/*/*/", "// wire b;\n", "//\n", "/* ;\n */", "// /*\n",
           "/* // */", "/* 4'h */"]
STRANGE_REMARKS = ["/* \x80\xff\x0c */", "// \xe9 \x07\n"]
WIDTHS = [1, 1, 1, 2, 3, 4, 4, 4, 5, 8, 8, 16, 32, 33, 64, 65, 127, 128]


@dataclasses.dataclass
class Net:
    """What is declared. An array has a depth, which is its last index; a rank is the place in the
    order in which nets may read others, and None where all may read it."""
    word: str
    name: str
    width: int = 1
    depth: int = None
    is_clock: bool = False
    rank: int = None


class TextMaker:
    """Makes the tokens of a module: `head` is a list of ports, and `items` a list of items, each a
    list of spellings. With `for_tools` it leaves out what other tools take otherwise; with
    `has_walks` nets may read each other in a ring; with `has_input_resets` resets are inputs."""

    def __init__(self, chance, for_tools=False, has_walks=False, has_input_resets=False):
        self.chance, self.for_tools, self.has_walks = chance, for_tools, has_walks
        self.has_input_resets = has_input_resets
        self.nets, self.free = [], list(FIRST_NAMES)
        if not for_tools:
            self.free += LATER_WORDS
        chance.shuffle(self.free)
        self.widths = chance.choice([WIDTHS, [1, 1, 2, 4], [1, 1, 8, 32, 128], [1, 4]])
        self.deep = chance.choice([1, 2, 2, 4])
        size = chance.choice([5, 8, 12, 20, 30, 45, 60])
        self.ports = [self.port() for _ in range(chance.randint(3, 4 + size // 5))]
        inner = [self.inner() for _ in range(1 + size // 3)]
        self.rank()
        self.items = self.ordered(inner, [*self.drives()])
        self.module = chance.choice(FIRST_NAMES) if not for_tools else "top_module"

    # what is declared

    def name(self):
        return self.free.pop() if self.free else f"n{len(self.nets)}"

    def port(self):
        word = self.chance.choice(["input", "input", "output"])
        is_clock = not self.nets or self.chance.random() < 0.15
        if is_clock and not self.nets:
            word = "input"
        width = 1 if is_clock else self.chance.choice(self.widths)
        net = Net(word, self.name(), width, None, is_clock)
        self.nets.append(net)
        return (["(*", "clock", "*)"] if is_clock else []) + [word, *self.range(width), net.name]

    def inner(self):
        """A wire, register or array, with its declaration."""
        word = self.chance.choice(["wire", "wire", "wire", "reg", "reg", "array"])
        depth = None
        if word == "array":
            word = "reg"
            depth = self.chance.choice([0, 1, 2, 3, 7, 15, 99])
        net = Net(word, self.name(), self.chance.choice(self.widths), depth)
        self.nets.append(net)
        end = ["[", "0", ":", self.num(depth), "]"] if depth is not None else []
        return net, [word, *self.range(net.width), net.name, *end, ";"]

    def rank(self):
        """Puts what is assigned, and the registers with an asynchronous block, in an order."""
        self.asynchronous = [net for net in self.nets if net.word == "reg" and net.depth is None
                             and self.chance.random() < 0.3]
        ranked = [net for net in self.nets if net.word in ("wire", "output")] + self.asynchronous
        self.chance.shuffle(ranked)
        for rank, net in enumerate(ranked):
            net.rank = rank

    def range(self, width):
        return ["[", self.num(width - 1), ":", "0", "]"] if width > 1 else []

    def num(self, number):
        return self.chance.choice(["", "", "", "", "0", "00"]) + str(number)

    # items

    def drives(self):
        """The assigns and blocks, each with the names that it has."""
        for net in self.nets:
            if net.word in ("wire", "output"):
                yield self.assign(net)
            elif net in self.asynchronous:
                yield self.resetting(net)
            elif net.word == "reg" and self.chance.random() < 0.8:
                yield self.writing(net) if net.depth is not None else self.clocked(net)
        for _ in range(self.chance.choice([0, 0, 1])):
            yield ["always", "@", "(", "posedge", self.clock(), ")", "begin", "end"]

    def ordered(self, inner, drives):
        """All items in an order in which names are declared before they stand in another item."""
        items = [(net.name, item) for net, item in inner]
        for drive in drives:
            names = set(drive)
            last = max((k for k, (name, _) in enumerate(items) if name in names), default=-1)
            items.insert(self.chance.randint(last + 1, len(items)), (None, drive))
        return [item for _, item in items]

    def clock(self):
        return self.chance.choice([net.name for net in self.nets
                                   if net.is_clock and net.word == "input"])

    def clocked(self, net):
        return ["always", "@", "(", "posedge", self.clock(), ")", net.name, "<=",
                *self.atom(net.width, None), ";"]

    def reset(self, net):
        """A net of one bit that the register may have as its reset."""
        return self.chance.choice([other.name for other in self.readable(net)
                                   if other.width == 1
                                   and (other.word == "input" or not self.has_input_resets)] or [""])

    def resetting(self, net):
        reset = self.reset(net)
        if not reset:
            return self.clocked(net)
        taken = ["if", "(", reset, ")", net.name, "<=", self.const(net.width), ";"]
        if self.chance.random() < 0.3:
            return ["always", "@", "(", "posedge", reset, ")", *taken]
        return ["always", "@", "(", "posedge", self.clock(), "or", "posedge", reset, ")", *taken,
                "else", net.name, "<=", *self.atom(net.width, None), ";"]

    def writing(self, net):
        item = ["always", "@", "(", "posedge", self.clock(), ")", "begin"]
        for _ in range(self.chance.choice([0, 1, 1, 2, 3])):
            item += ["if", "(", *self.atom(1, None), ")", net.name, "[",
                     *self.atom(self.chance.choice(self.widths), None), "]", "<=",
                     *self.atom(net.width, None), ";"]
        return item + ["end"]

    def assign(self, net):
        return ["assign", net.name, "=", *self.side(net), ";"]

    def side(self, net):
        if net.is_clock:
            spelled = ["1'h0", "1'b0", "1'd0", "01'h00"]
            return [self.chance.choice([self.clock(), self.chance.choice(spelled)])]
        forms = [self.alone, self.inverted, self.arithmetic, self.shift, self.signed,
                 self.signed_shift, self.choice, self.read]
        if net.width == 1:
            forms += [self.reduction, self.comparison, self.comparison]
        return self.chance.choice(forms)(net)

    def alone(self, net):
        return self.atom(net.width, net)

    def inverted(self, net):
        return ["~", *self.atom(net.width, net)]

    def reduction(self, net):
        return [self.chance.choice("&|^"), *self.some_atom(net)]

    def arithmetic(self, net):
        return [*self.atom(net.width, net), self.chance.choice(ARITHMETIC),
                *self.atom(net.width, net)]

    def shift(self, net):
        return [*self.atom(net.width, net), self.chance.choice(["<<", ">>"]), *self.amount(net)]

    def amount(self, net):
        """What a shift goes by. Verilator takes no constant past 32 bits there."""
        if not self.for_tools:
            return self.some_atom(net)
        return self.atom(self.chance.choice([1, 2, 4, 8]), net)

    def comparison(self, net):
        width = self.chance.choice(self.widths)
        sign = self.chance.choice(COMPARISONS)
        first, second = self.atom(width, net), self.atom(width, net)
        if sign in SIGNED and self.chance.random() < 0.5:
            return ["$signed", "(", *first, ")", sign, "$signed", "(", *second, ")"]
        return [*first, sign, *second]

    def signed(self, net):
        return ["$signed", "(", *self.atom(net.width, net), ")", self.chance.choice("/%"),
                "$signed", "(", *self.atom(net.width, net), ")"]

    def signed_shift(self, net):
        return ["$signed", "(", *self.atom(net.width, net), ")", ">>>", *self.amount(net)]

    def choice(self, net):
        return [*self.atom(1, net), "?", *self.atom(net.width, net), ":",
                *self.atom(net.width, net)]

    def read(self, net):
        arrays = [other for other in self.nets
                  if other.depth is not None and other.width == net.width]
        if not arrays:
            return self.alone(net)
        return [self.chance.choice(arrays).name, "[", *self.some_atom(net), "]"]

    # atoms

    def readable(self, reader):
        """The nets and registers that an atom in the item of that net may read."""
        return [net for net in self.nets if net.depth is None and not net.is_clock
                and (reader is None or net.rank is None or self.has_walks
                     or net.rank < reader.rank)]

    def some_atom(self, reader):
        return self.atom(self.chance.choice(self.widths), reader)

    def atom(self, width, reader, depth=None):
        """An atom of that width, which stands in the item of that net; in a block of None."""
        depth = self.deep if depth is None else depth
        named = [net.name for net in self.readable(reader) if net.width == width]
        if named and self.chance.random() < 0.6:
            return [self.chance.choice(named)]
        makes = [lambda: [self.const(width)], lambda: self.select(width, reader)]
        if depth and width > 1:
            makes += [lambda: self.concatenation(width, reader, depth - 1)] * 2
        if depth:
            makes.append(lambda: self.repetition(width, reader, depth - 1))
        return self.chance.choice(makes)()

    def select(self, width, reader):
        wide = [net for net in self.readable(reader) if net.width > 1 and net.width >= width]
        if not wide:
            return [self.const(width)]
        net = self.chance.choice(wide)
        low = self.chance.randint(0, net.width - width)
        if width == 1 and self.chance.random() < 0.8:
            return [net.name, "[", self.num(low), "]"]
        return [net.name, "[", self.num(low + width - 1), ":", self.num(low), "]"]

    def concatenation(self, width, reader, depth):
        cut = self.chance.randint(1, width - 1)
        parts = [self.atom(cut, reader, depth), self.atom(width - cut, reader, depth)]
        if self.chance.random() < 0.1:
            parts = [self.atom(width, reader, depth)]
        return ["{", *parts[0], *(token for part in parts[1:] for token in [",", *part]), "}"]

    def repetition(self, width, reader, depth):
        times = self.chance.choice([n for n in range(1, width + 1) if width % n == 0])
        return ["{", self.num(times), "{", *self.atom(width // times, reader, depth), "}", "}"]

    def const(self, width):
        number = self.chance.choice([0, 1, (1 << width) - 1, self.chance.randrange(1 << width),
                                     self.chance.randrange(1 << width)])
        base = self.chance.choice("hhdb")
        digits = {"h": f"{number:x}", "d": f"{number}", "b": f"{number:b}"}[base]
        if self.chance.random() < 0.2:
            digits = digits.upper()
        return f"{self.num(width)}'{base}{self.chance.choice(['', '', '0', '00'])}{digits}"

    # the text

    def groups(self):
        """All tokens: those of the head, and those of each item."""
        ports = []
        for port in self.ports:
            ports += [",", *port] if ports else port
        return [["module", self.module, "(", *ports, ")", ";"], *self.items, ["endmodule"]]


class Writer:
    """Writes tokens with blanks and remarks between them."""

    def __init__(self, chance, for_tools=False):
        self.chance = chance
        self.remarks = REMARKS + ([] if for_tools else STRANGE_REMARKS)
        self.style = chance.choice(["neat", "neat", "free", "close", "mixed"])

    def between(self):
        """What stands between two tokens, where something may."""
        draw = self.chance.random()
        if self.style == "neat":
            return " " if draw < 0.97 else self.chance.choice(self.remarks)
        if self.style == "close" or self.style == "mixed" and draw < 0.5:
            return ""
        remark = self.chance.choice(self.remarks) if self.chance.random() < 0.2 else ""
        return self.chance.choice(["", *BLANKS]) + remark + self.chance.choice(["", *BLANKS])

    def text(self, groups):
        out, last = [self.between()], ""
        for group in groups:
            for spelling in group:
                between = self.between() if last else ""
                if last and not between and merges(last, spelling):
                    between = self.chance.choice(BLANKS)
                if between[:1] == "/" and last == "/":
                    between = " " + between
                out += [between, spelling]
                last = spelling
            out.append("\n" if self.style == "neat" or self.chance.random() < 0.3 else "")
        out.append(self.between())
        return "".join(out).encode("latin-1")


KNOWN = {}


def merges(first, second):
    """Whether two tokens, one directly behind the other, are no longer these two."""
    if (first, second) not in KNOWN:
        read = tokens(first + second)
        KNOWN[first, second] = ([token.spelling for token in read] != [first, second, ""]
                                or "digit" in [token.kind for token in read])
    return KNOWN[first, second]
