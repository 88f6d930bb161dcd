"""Makes circuits at random, over the whole language, whose names and types are right, and many of
whose widths and resets are left to be inferred. How often a circuit may come to which fault of
these is its own, so that each fault comes often, and none too."""
from grammar_rules import OPS
from inference_forms import matched
from name_texts import Line
from type_forms import NUMBERS, Bundle, Ground, Vector, fits, mapped, same_kind
from type_maker import CONVERSIONS, GIVE, KEEP_THE_KIND, Maker, called, tokens_of
from type_slips import Slips

GROW = "add sub mul shl dshl cat cvt neg div pad".split()
ONE_BIT = "lt leq gt geq eq neq andr orr xorr".split()
# how often a circuit slips, where it may
RATES = [0, 0, 0.05, 0.2, 0.6]
BOTH = ("UInt", "AsyncReset")
OTHERS = ["UInt"] * 6 + ["SInt"] * 2 + ["Clock"]


def with_widths(given, is_flipped, width):
    """The type with a width at each leaf of that orientation that is a number and has none."""
    if isinstance(given, Vector):
        return given._replace(element=with_widths(given.element, is_flipped, width))
    if isinstance(given, Bundle):
        return Bundle(tuple(
            field._replace(type=with_widths(field.type, is_flipped != field.is_flipped, width))
            for field in given.fields))
    if is_flipped or given.kind not in NUMBERS or given.width is not None:
        return given
    return given._replace(width=width())


class InferenceMaker(Maker):
    """Makes a circuit, which slips as often as one of the rates says. `shown` has for each module
    the names that are visible at its end, and `sizes` how many statements one may have."""

    sizes = [4, 8, 12, 20]

    def __init__(self, chance, rates=RATES):
        self.main, self.shown = None, {}
        self.settle(chance, rates)
        super().__init__(chance, Slips())

    def settle(self, chance, rates):
        """Settles what is often made in this circuit, and what is not."""
        # how often a width is written; and how often an operator may grow what it is given without
        # an end, have integers that do not fit, a condition be of any width, a port of the main
        # module be open, a width be over, and a width be asked for, which a fault then tells
        self.written = chance.choice([0.1, 0.3, 0.3, 0.6])
        self.grows, self.strays, self.loose, self.open, self.over, self.asks = (
            chance.choice(rates) for _ in range(6))
        self.over /= 10
        if chance.random() < 0.4:
            self.strays = self.loose = self.open = self.over = 0
        self.widest = chance.choice([3, 5, 9, 9, 60, 100])
        # with what Resets are joined, how many there are, and how often they are sought
        self.partners = chance.choice([("UInt",), ("AsyncReset",), BOTH, BOTH])
        count = chance.choice([0, 1, 3, 6, 6])
        self.kinds = OTHERS + ["Reset", "AsyncReset"] * count
        self.meets = count / 8
        # of which kinds the conditions of resets are
        self.reset_kinds = ["UInt", "AsyncReset", "Reset"]

    def line(self):
        return Line(["circuit", self.main, ":"], self.modules)

    # Types.

    def some_width(self):
        if self.chance.random() < self.over:
            return self.chance.choice([128, 129, 200, 2 ** 128 - 1])
        return self.chance.choice([0, 1, 1, 1, 2, self.chance.randrange(1, self.widest)])

    def width(self, word):
        is_written = word in NUMBERS and self.chance.random() < self.written
        return self.some_width() if is_written else None

    def ground(self, kinds=None):
        return super().ground(kinds or self.kinds)

    def type(self):
        given = super().type()
        is_turned = self.chance.random() < self.meets
        return mapped(given, self.other_kind) if is_turned else given

    def other_kind(self, ground):
        """Now and then a Reset in place of a kind that it may be joined with, or the other way."""
        if self.chance.random() < 0.5:
            return ground
        if ground.kind == "Reset":
            return self.ground(self.partners)
        return Ground("Reset") if ground.kind in self.partners else ground

    def port(self, head, direction=None, given=None):
        self.main = self.main or self.chance.choice(self.heads)
        line, spot = super().port(head, direction, given)
        if head == self.main and self.chance.random() >= self.open:
            given = with_widths(spot.type, line.tokens[0] == "output", self.some_width)
            spot = spot._replace(type=given)
            line.tokens[3:] = tokens_of(given)
        return line, spot

    # Expressions.

    def joins(self, one, other):
        """Whether ground types may meet in a connect here."""
        return fits(one, other) and (one.kind == other.kind or {one.kind, other.kind} <= {
            "Reset", *self.partners})

    def expression(self, given, depth, meets=same_kind):
        return super().expression(given, depth, self.joins if meets is fits else meets)

    def literal(self, word):
        width = self.chance.choice([None, self.some_width()])
        fits_in = (1 if width is None else width) - (word == "SInt")
        if self.chance.random() < self.strays / 4:
            fits_in = self.chance.choice([fits_in + 1, 3, 9, 127])
        number = self.chance.randrange(2 ** max(0, min(fits_in, 127)))
        if word == "SInt" and fits_in >= 0 and self.chance.random() < 0.5:
            number = ~number
        width = [] if width is None else ["<", width, ">"]
        return [word, *width, "(", self.spelled(number), ")"]

    def spelled(self, number):
        sign = "-" if number < 0 else self.chance.choice(["", "", "", "+"])
        base = self.chance.choice(["", "", "h", "h", "o", "b"])
        digits = format(abs(number), {"": "d", "h": "x", "o": "o", "b": "b"}[base])
        if not base:
            return sign + digits
        return '"' + self.chance.choice([sign + base, base + sign]) + digits + '"'

    def bit(self, depth):
        """A UInt of width 1."""
        op = self.chance.choice(ONE_BIT)
        kind = self.chance.choice(NUMBERS)
        return called(op, [self.number(kind, depth - 1) for _ in range(OPS[op][0])])

    def wanted(self, way, kind, depth):
        if way.startswith("condition") and self.chance.random() >= self.loose:
            return self.bit(depth)
        return super().wanted(way, kind, depth)

    def operator(self, kind):
        """An operator that gives the kind."""
        return self.chance.choice(GIVE[kind] + KEEP_THE_KIND * (kind in NUMBERS))

    def operation(self, kind, depth):
        op = self.operator(kind)
        kinds = [kind if op in KEEP_THE_KIND else self.chance.choice(NUMBERS)] * OPS[op][0]
        if op in CONVERSIONS:
            kinds = self.chance.choice([["UInt"], ["SInt"], ["AsyncReset"], ["Reset"]])
        elif op in ("dshl", "dshr"):
            kinds[1] = "UInt"
        parts = [self.operand(op, kind, depth - 1) for kind in kinds]
        if op in GROW and not self.may_grow(op):
            integers = [[self.chance.randrange(4)] for _ in range(OPS[op][1])]
            return self.cut(kind, called(op, self.narrow(op, parts) + integers))
        if op in ("bits", "head", "tail", "asAsyncReset") and self.chance.random() >= self.strays:
            return self.legal(op, parts[0], kinds[0])
        return called(op, parts + [[self.integer()] for _ in range(OPS[op][1])])

    def may_grow(self, op):
        """Whether an operator on what has just been made may stay as wide as it is."""
        return self.chance.random() < self.grows

    def operand(self, op, kind, depth):
        """Where there is no reset it is a bit."""
        if kind in NUMBERS:
            return super().operand(op, kind, depth)
        return self.expression(Ground(kind), depth) or self.bit(depth)

    def integer(self):
        return self.chance.choice([0, 1, 1, 2, self.chance.randrange(self.widest), 70])

    def narrow(self, op, parts):
        """The operands, of which none is a wide amount of a shift."""
        if op == "dshl":
            parts[1] = called("bits", [called("pad", [parts[1], [3]]), [2], [0]])
        return parts

    def cut(self, kind, grown):
        """Some low bits of what has grown."""
        return self.low_bits(kind, grown, self.chance.randrange(1, self.widest))

    def low_bits(self, kind, grown, count):
        low = called("bits", [called("pad", [grown, [count]]), [count - 1], [0]])
        return called("asSInt", [low]) if kind == "SInt" else low

    def legal(self, op, part, kind):
        """The operator, with integers that fit."""
        if op == "asAsyncReset":
            if kind in NUMBERS:
                part = called("orr", [part])
            return called(op, [part])
        count = self.chance.randrange(1, self.widest)
        high = self.chance.randrange(count)
        integers = [high, self.chance.randint(0, high)] if op == "bits" else [high + 1]
        return called(op, [called("pad", [part, [count]]), *([number] for number in integers)])

    # Statements.

    def module(self, head):
        ports = self.faces[head]
        self.head, self.visible = head, [[spot for _, spot in ports]]
        self.shown[head] = {spot.steps[0] for _, spot in ports}
        body = self.block(self.chance.choice(self.sizes), 2)
        return Line(["module", head, ":"], [line for line, _ in ports] + body)

    def connect(self, sign="<="):
        met = self.meeting(sign) if self.chance.random() < self.meets else None
        return met or super().connect(sign)

    def show(self, name, given, flow):
        super().show(name, given, flow)
        if len(self.visible) == 2:
            self.shown[self.head].add(name)

    def unknown(self, test):
        """A number without a written width that passes a test, or None."""
        return self.pick(spot for spot in self.spots() if isinstance(spot.type, Ground)
                         and spot.type.kind in NUMBERS and spot.type.width is None and test(spot))

    def node(self):
        return self.asking() if self.chance.random() < self.asks else super().node()

    def asking(self):
        """A node that asks for bits of an unknown or of an operator's result."""
        chance, asked = self.chance, self.unknown(bool)
        if asked and chance.random() < 0.5:
            value = self.reference(asked, 1)
        else:
            value = self.bare(chance.choice(list(OPS)), 2)
        few = [[chance.randrange(9)], [chance.randrange(9)]]
        word, integers = chance.choice([*[("bits", [[127], [127]])] * 3, ("bits", few),
                                        ("head", few[1:]), ("tail", few[1:])])
        name = self.declare(self.head)
        self.show(name, Ground("UInt"), "source")
        return [Line(["node", name, "=", *called(word, [value, *integers])])]

    def bare(self, op, depth):
        """The operator as a number, of whatever width and legality."""
        operands, integers = OPS[op]
        kinds = [self.chance.choice(NUMBERS)] * operands
        if op in ("dshl", "dshr"):
            kinds[1] = "UInt"
        parts = [self.operand(op, kind, depth - 1) for kind in kinds]
        parts = self.narrow(op, parts) + [[self.chance.randrange(9)] for _ in range(integers)]
        made = called(op, parts)
        return called("asUInt", [made]) if op == "asAsyncReset" else made

    def invalid(self):
        """More often an unknown is driven."""
        driven = self.unknown(lambda spot: spot.flow != "source")
        if not driven or self.chance.random() < 0.2:
            return super().invalid()
        return [Line([*self.reference(driven, 1), "<=", *self.number(driven.type.kind, 3)])]

    def skip(self):
        return self.connect() if self.chance.random() < self.meets else super().skip()

    def meeting(self, sign):
        """A connect of a Reset leaf with one that it may be joined with, if there are such."""
        grounds = [spot for spot in self.spots() if isinstance(spot.type, Ground)]
        resets = [spot for spot in grounds if spot.type.kind == "Reset"]
        one = self.pick(resets[:self.chance.choice([1, 3, 99])])
        other = one and self.pick(spot for spot in grounds if self.joins(one.type, spot.type))
        sinks = [spot for spot in (one, other) if spot and spot.flow != "source"]
        if not sinks:
            return None
        driven = self.chance.choice(sinks)
        giving = self.reference(other if driven is one else one, 1)
        if driven is one and self.chance.random() < 0.3:
            giving = self.expression(self.ground(self.partners), 2) or giving
        return [Line([*self.reference(driven, 1), sign, *giving])]

    def pair(self, test):
        def is_wanted(one, other):
            return test(one, other) and all(
                self.joins(left, right) for _, left, right, _ in matched(one.type, other.type))

        return super().pair(is_wanted)

    def reset(self, given):
        condition, init = self.reset_condition(), self.init(given)
        return ["reset", "=>", *called("", [condition, init])[1:]] if condition and init else None

    def reset_condition(self):
        kind = self.chance.choice(self.reset_kinds)
        is_bit = kind == "UInt" and self.chance.random() >= self.loose
        return self.bit(1) if is_bit else self.expression(Ground(kind), 2)

    def init(self, given):
        return self.expression(given, 2)
