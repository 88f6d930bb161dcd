"""Makes circuits at random, over the whole language, whose names, types and flows are right but
where they are to slip (type_slips.py)."""
from typing import NamedTuple

from grammar_rules import OPS
from name_maker import FIELDS, MODULES, NAMES
from name_texts import Line
from type_forms import (NUMBERS, Bundle, Field, Ground, Vector, alike, fits, has_numbers,
                        is_passive, mapped, memory_port, pairs, partly_alike, same_kind, turned)

KEEP_THE_KIND = "add sub mul div rem pad shl shr dshl dshr".split()
CONVERSIONS = ("asUInt", "asSInt", "asAsyncReset")
GIVE = {"UInt": """lt leq gt geq eq neq not and or xor andr orr xorr cat bits head tail
asUInt""".split(), "SInt": ["cvt", "neg", "asSInt"], "AsyncReset": ["asAsyncReset"] * 3}
KINDS = "UInt UInt UInt UInt SInt SInt Clock Reset AsyncReset".split()
SIMPLE = """wire wire node node reg reg inst mem connect connect connect connect partial partial
invalid skip""".split()


class Spot(NamedTuple):
    """A reference that may be made: its name, its steps, each a field's name or a vector's length,
    and its type and flow."""
    steps: tuple
    type: object
    flow: str


def tokens_of(given):
    """The tokens of a written type."""
    if isinstance(given, Vector):
        return [*tokens_of(given.element), "[", given.length, "]"]
    if isinstance(given, Bundle):
        fields = [[","] + ["flip"] * field.is_flipped + [field.name, ":", *tokens_of(field.type)]
                  for field in given.fields]
        return ["{", *[token for field in fields for token in field][1:], "}"]
    return [given.kind] if given.width is None else [given.kind, "<", given.width, ">"]


def within(spot):
    """The spot, and those of its fields and elements, at any depth."""
    yield spot
    if isinstance(spot.type, Vector):
        yield from within(Spot((*spot.steps, spot.type.length), spot.type.element, spot.flow))
    elif isinstance(spot.type, Bundle):
        for field in spot.type.fields:
            flow = turned(spot.flow, field.is_flipped)
            yield from within(Spot((*spot.steps, field.name), field.type, flow))


def is_legal(left, right):
    """Whether a connect of these drives no source."""
    return all(turned((right if is_flipped else left).flow, is_flipped) != "source"
               for _, is_flipped in pairs(left.type, right.type))


def is_plain(given):
    """Whether a mux or a register may have the type."""
    return has_numbers(given) and is_passive(given)


def sized(ground):
    """The ground type with a width, if it is a number."""
    return ground._replace(width=ground.width or 3) if ground.kind in NUMBERS else ground


def called(word, parts):
    between = [token for part in parts for token in [",", *part]]
    return [word, "(", *between[1:], ")"]


class Maker:
    """Makes a circuit. `slips` tells where it is to be wrong, and `resets` how often a register has
    a reset, where there is one that it may have."""

    resets = 0.7

    def __init__(self, chance, slips):
        self.chance, self.slips = chance, slips
        self.types = [self.new_type(3) for _ in range(chance.randrange(2, 6))]
        self.heads = chance.sample(MODULES, self.module_count())
        # a module instantiates those alone that come later in this order
        self.order = chance.sample(self.heads, len(self.heads))
        spare = [f"n{k}" for k in range(99)]
        self.fresh = {head: spare + chance.sample(NAMES, len(NAMES)) for head in self.heads}
        self.faces = {head: self.ports(head) for head in self.heads}
        self.modules = [self.module(head) for head in self.heads]

    def line(self):
        return Line(["circuit", self.chance.choice(self.heads), ":"], self.modules)

    def module_count(self):
        return self.chance.choice([1, 1, 2, 3])

    def declare(self, head):
        return self.fresh[head].pop()

    def pick(self, some):
        """One of these, or None."""
        some = list(some)
        return self.chance.choice(some) if some else None

    # Types: some are made, and what is declared has one of these or one that is near to it.

    def width(self, word):
        is_written = word in NUMBERS and self.chance.random() < 0.7
        return self.chance.randrange(1, 9) if is_written else None

    def ground(self, kinds=KINDS):
        word = self.chance.choice(kinds)
        return Ground(word, self.width(word))

    def new_type(self, depth):
        way = self.chance.random()
        if depth == 0 or way < 0.25:
            return self.ground()
        if way < 0.5:
            return Vector(self.new_type(depth - 1), self.chance.choice([0, 1, 2, 2, 3, 4]))
        names = self.chance.sample(FIELDS[:6] + FIELDS[-6:], self.chance.randrange(5))
        return Bundle(tuple(Field(name, self.chance.random() < 0.3, self.new_type(depth - 1))
                            for name in names))

    def near(self, given):
        """A type that differs from another a little."""
        chance = self.chance
        if isinstance(given, Vector):
            if chance.random() < 0.5:
                return given._replace(length=chance.randrange(4))
            return given._replace(element=self.near(given.element))
        if isinstance(given, Ground):
            return self.ground()
        fields, way = list(given.fields), chance.randrange(5)
        if not fields or way == 0:
            free = [name for name in FIELDS if name not in [field.name for field in fields]]
            fields.append(Field(chance.choice(free), chance.random() < 0.3, self.ground()))
        elif way == 1:
            fields.remove(chance.choice(fields))
        elif way == 2:
            chance.shuffle(fields)
        else:
            at = chance.randrange(len(fields))
            field = fields[at]
            fields[at] = field._replace(is_flipped=not field.is_flipped) if way == 3 else \
                field._replace(type=self.near(field.type))
        return Bundle(tuple(fields))

    def type(self):
        way = self.chance.random()
        if way < 0.4:
            return self.ground()
        given = self.chance.choice(self.types)
        given = self.near(given) if way > 0.8 else given
        return mapped(given, lambda ground: Ground(ground.kind, self.width(ground.kind)))

    def plain_type(self):
        """A type of passive numbers."""
        given = self.type()
        return given if is_plain(given) else self.ground(NUMBERS)

    # What is visible, and expressions over it.

    def spots(self):
        return [spot for level in self.visible for root in level for spot in within(root)]

    def reference(self, spot, depth):
        """The tokens of a reference to the spot."""
        tokens = [spot.steps[0]]
        for step in spot.steps[1:]:
            if self.slips.here("E12", "step"):
                tokens += self.chance.choice([[".", "zz"], ["[", 0, "]"], [".", 7]])
            if isinstance(step, str):
                tokens += [".", step]
            else:
                tokens += ["[", *self.index(step, depth), "]"]
        if self.slips.here("E12", "step"):
            last = [".", "zz"], ["[", 0, "]"], ["[", *self.number("UInt", 0), "]"]
            tokens += self.chance.choice(last)
        return tokens

    def index(self, length, depth):
        if depth <= 0 and length or length and self.chance.random() < 0.5:
            if self.slips.here("E16", "range"):
                return [length + self.chance.randrange(3)]
            return [self.chance.randrange(length)]
        if length == 0 and self.slips.here("E16", "range of none"):
            return [self.chance.randrange(2)]
        return self.wanted("index", "UInt", depth - 1)

    def wanted(self, way, kind, depth):
        """An expression of the kind, or of another where it slips."""
        if self.slips.here("E12", way):
            return self.other(lambda given: isinstance(given, Ground) and given.kind == kind)
        return self.number(kind, depth) if depth >= 0 else self.literal(kind)

    def other(self, is_right):
        """An expression of a type that is not right."""
        spot = self.pick(spot for spot in self.spots() if not is_right(spot.type))
        if spot and self.chance.random() < 0.7:
            return self.reference(spot, 0)
        kinds = [kind for kind in (*NUMBERS, "AsyncReset") if not is_right(Ground(kind))]
        return self.number(self.chance.choice(kinds), 1) if kinds else self.number("UInt", 1)

    def literal(self, word):
        number = self.chance.choice(["0", "1", '"h1"', "-1" if word == "SInt" else "+1"])
        width = ["<", self.chance.randrange(1, 9), ">"] if self.chance.random() < 0.6 else []
        return [word, *width, "(", number, ")"]

    def number(self, kind, depth):
        """An expression of one of the kinds that operators give."""
        return self.expression(Ground(kind), depth) or self.operation(kind, 0)

    def expression(self, given, depth, meets=same_kind):
        """The tokens of an expression that is equivalent to a type, or None where there is none."""
        spots = [spot for spot in self.spots() if alike(given, spot.type, meets)]
        ways = ["reference"] * 2 * bool(spots)
        ways += ["operation"] * (depth > 0 and isinstance(given, Ground) and given.kind in GIVE)
        ways += ["choice"] * (depth > 0 and is_plain(given))
        way = self.pick(ways)
        if way == "reference":
            return self.reference(self.chance.choice(spots), depth)
        if way == "operation":
            return self.operation(given.kind, depth)
        found = self.choice(given, depth) if way else None
        if not found and isinstance(given, Ground) and given.kind in NUMBERS:
            return self.literal(given.kind)
        return found

    def operation(self, kind, depth):
        op = self.chance.choice(GIVE[kind] + KEEP_THE_KIND * (kind in NUMBERS))
        count, integers = OPS[op]
        kinds = [kind if op in KEEP_THE_KIND else self.chance.choice(NUMBERS)] * count
        if op in CONVERSIONS:
            kinds = self.chance.choice([["UInt"], ["SInt"], ["AsyncReset"], ["Reset"]])
        elif op in ("dshl", "dshr"):
            kinds[1] = "UInt"
        parts = [self.operand(op, kind, depth - 1) for kind in kinds]
        return called(op, parts + [[self.chance.randrange(9)] for _ in range(integers)])

    def operand(self, op, kind, depth):
        ways = {"dshl": "shift", "dshr": "shift", **{op: op for op in CONVERSIONS}}
        if self.slips.here("E12", f"operand of {ways.get(op, 'numbers')}"):
            return self.other(lambda given: isinstance(given, Ground) and given.kind == kind)
        found = self.expression(Ground(kind), depth)
        return found or self.literal(kind if kind in NUMBERS else "UInt")

    def choice(self, given, depth):
        """A mux or a validif of the type."""
        word = self.chance.choice(["mux", "validif"])
        parts = [self.wanted(f"condition of {word}", "UInt", depth - 1)]
        for at in range(2 if word == "mux" else 1):
            parts.append(self.arm(f"{word} {at + 1}", given, depth - 1))
        return called(word, parts) if all(parts) else None

    def arm(self, way, given, depth):
        if self.slips.here("E15", f"flips of {way}"):
            return self.other(is_passive)
        if self.slips.here("E12", f"kinds of {way}"):
            return self.other(lambda other: has_numbers(other) or not is_passive(other))
        if way[:3] == "mux" and self.slips.here("E13", "arms"):
            return self.other(lambda other: not is_plain(other) or alike(given, other, same_kind))
        return self.expression(given, depth)

    # Statements.

    def ports(self, head):
        """The lines of the ports, and what they are in their module."""
        return [self.port(head) for _ in range(self.chance.randrange(2, 6))]

    def port(self, head, direction=None, given=None):
        name, given = self.declare(head), given or self.type()
        direction = direction or self.chance.choice(["input", "output"])
        flow = "source" if direction == "input" else "sink"
        return Line([direction, name, ":", *tokens_of(given)]), Spot((name,), given, flow)

    def module(self, head):
        ports = self.faces[head]
        self.head, self.visible = head, [[spot for _, spot in ports]]
        body = self.block(self.chance.choice([4, 8, 12]), 2)
        return Line(["module", head, ":"], [line for line, _ in ports] + body)

    def block(self, most, depth):
        block = []
        self.visible.append([])
        for _ in range(self.chance.randint(most // 2, most)):
            if depth > 0 and self.chance.random() < 0.15:
                block += self.when(depth - 1)
            else:
                block += getattr(self, self.chance.choice(SIMPLE))()
        self.visible.pop()
        return block

    def condition(self):
        return self.wanted("condition of when", "UInt", 2)

    def when(self, depth):
        lines = [Line(["when", *self.condition(), ":"], self.block(3, depth))]
        while self.chance.random() < 0.3:
            lines.append(Line(["else", "when", *self.condition(), ":"], self.block(3, depth)))
        if self.chance.random() < 0.4:
            lines.append(Line(["else", ":"], self.block(3, depth)))
        return lines

    def show(self, name, given, flow):
        """From here on the name is visible in its block."""
        self.visible[-1].append(Spot((name,), given, flow))

    def wire(self):
        name, given = self.declare(self.head), self.type()
        self.show(name, given, "both")
        return [Line(["wire", name, ":", *tokens_of(given)])]

    def node_type(self):
        given = self.pick(spot.type for spot in self.spots() if is_passive(spot.type))
        if given is None or self.chance.random() < 0.4:
            given = self.ground([*NUMBERS, "AsyncReset"])
        return given

    def node(self):
        given = self.node_type()
        value = self.expression(given, 3)
        if self.slips.here("E15", "node"):
            value = self.other(is_passive)
        if value is None:
            return self.skip()
        name = self.declare(self.head)
        self.show(name, given, "source")
        return [Line(["node", name, "=", *value])]

    def clock(self):
        if self.slips.here("E12", "clock"):
            return self.other(lambda given: given == Ground("Clock"))
        return self.expression(Ground("Clock"), 1)

    def register_type(self):
        if self.slips.here("E12", "register of kinds"):
            return self.pick(given for given in self.types if not has_numbers(given)) or \
                self.ground(["Clock", "Reset", "AsyncReset"])
        if self.slips.here("E15", "register of flips"):
            return self.pick(given for given in self.types if not is_passive(given)) or \
                Bundle((Field("x", True, self.ground(NUMBERS)),))
        return self.plain_type()

    def reg(self):
        given, clock = self.register_type(), self.clock()
        if clock is None:
            return self.skip()
        name = self.declare(self.head)
        self.show(name, given, "both")
        line = Line(["reg", name, ":", *tokens_of(given), ",", *clock])
        reset = self.reset(given) if self.chance.random() < self.resets else None
        if reset:
            is_block = self.chance.random() < 0.5
            line.tokens += ["with", ":"] + ([] if is_block else ["(", *reset, ")"])
            line.block = [Line(reset)] if is_block else None
        return [line]

    def reset(self, given):
        kind = self.chance.choice(["UInt", "AsyncReset", "Reset"])
        condition = self.expression(Ground(kind), 2)
        if self.slips.here("E12", "reset"):
            condition = self.other(lambda given: isinstance(given, Ground) and given.kind in (
                "UInt", "AsyncReset", "Reset"))
        init = self.expression(given, 2)
        if self.slips.here("E13", "init"):
            init = self.other(lambda other: alike(given, other, same_kind))
        return ["reset", "=>", *called("", [condition, init])[1:]] if condition and init else None

    def inst(self):
        later = self.order[self.order.index(self.head) + 1:]
        if not later:
            return self.mem()
        of, name = self.chance.choice(later), self.declare(self.head)
        fields = tuple(Field(spot.steps[0], spot.flow == "source", spot.type)
                       for _, spot in self.faces[of])
        self.show(name, Bundle(fields), "source")
        return [Line(["inst", name, "of", of])]

    def data(self):
        if self.slips.here("E15", "data of flips"):
            return self.pick(given for given in self.types if not is_passive(given)) or \
                Bundle((Field("x", True, Ground("UInt", 1)),))
        given = mapped(self.plain_type(), sized)
        if self.slips.here("E17", "data without widths"):
            return mapped(given, lambda ground: ground._replace(width=None))
        if self.slips.here("E17", "data of kinds"):
            return self.pick(given for given in self.types if not has_numbers(given)) or \
                self.ground(["Clock", "Reset", "AsyncReset"])
        return given

    def field(self, word, right, wrong):
        """The lines of a field with a number."""
        if self.slips.here("E17", f"no {word}"):
            return []
        value = wrong if self.slips.here("E17", f"range of {word}") else right
        lines = [[word, "=>", self.chance.choice(value)]]
        return lines + [[word, "=>", value[0]]] * self.slips.here("E17", f"{word} twice")

    def mem(self):
        chance, data = self.chance, self.data()
        fields = [["data-type", "=>", *tokens_of(data)]]
        if self.slips.here("E17", "data-type absent or twice"):
            fields = fields * 2 if chance.random() < 0.5 else []
        fields += self.field("depth", [1, 2, 3, 4, 5, 9], [0])
        depth = next((field[2] for field in fields if field[0] == "depth"), 1)
        fields += self.field("read-latency", [0, 1], [2, 7])
        fields += self.field("write-latency", [1], [0, 2])
        ways = [["read-under-write", "=>", way] for way in ("old", "new", "undefined")]
        fields += chance.sample(ways, chance.randrange(2))
        fields += ways[:1] * 2 * self.slips.here("E17", "read-under-write twice")
        ports, face = chance.sample(NAMES, chance.randrange(4)), []
        for port in ports:
            word = chance.choice(["reader", "writer", "readwriter"])
            fields.append([word, "=>", port])
            face.append(Field(port, True, memory_port(word, data, depth)))
        order = sorted(fields, key=lambda field: field[0] in ("reader", "writer", "readwriter"))
        name = self.declare(self.head)
        self.show(name, Bundle(tuple(face)), "source")
        return [Line(["mem", name, ":"], [Line(field) for field in order])]

    def connect(self, sign="<="):
        def meet(one, other):
            return alike(one, other, fits) if sign == "<=" else partly_alike(one, other)

        left = self.pick(self.spots())
        is_source = self.slips.here("E14", f"flow of {sign}")
        if left and self.slips.here("E13", f"types of {sign}"):
            value = self.other(lambda given: meet(left.type, given))
            return [Line([*self.reference(left, 1), sign, *value])]
        left, right = self.pair(lambda one, other: (
            meet(one.type, other.type) and is_legal(one, other) != is_source))
        if left is None:
            return self.skip()
        value = None
        is_open = is_passive(left.type) and is_legal(left, left) != is_source
        if is_open and self.chance.random() < 0.5:
            value = self.expression(left.type, 3, fits)
        value = value or self.reference(right, 1)
        return [Line([*self.reference(left, 1), sign, *value])]

    def pair(self, test):
        """Two spots that pass a test, more often of bundles and vectors; or two Nones."""
        spots, grounds_last = self.spots(), self.chance.random() < 0.7
        lefts = self.chance.sample(spots, min(len(spots), 12))
        lefts.sort(key=lambda spot: grounds_last and isinstance(spot.type, Ground))
        for left in lefts:
            right = self.pick(spot for spot in spots if test(left, spot))
            if right:
                return left, right
        return None, None

    def partial(self):
        return self.connect("<-")

    def invalid(self):
        spot = self.pick(self.spots())
        return [Line([*self.reference(spot, 1), "is", "invalid"])] if spot else self.skip()

    def skip(self):
        return [Line(["skip"])]
