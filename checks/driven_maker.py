"""Makes circuits at random, over the whole language, in which no fault stands that comes before
E24, but for resets and widths that do not fit, which are rare. Each sink is driven, in one of many
ways; in some circuits now and then something is forgotten."""
from cost_rules import leaf_count
from inference_maker import InferenceMaker
from name_texts import Line
from type_forms import Bundle, Field, Ground, Vector, fits, is_passive
from type_maker import Spot, tokens_of, within

STATEMENTS = """wire node reg inst mem connect connect connect connect partial partial partial
invalid invalid skip""".split()
# how often something is forgotten
FORGETS = [0, 0, 0.02, 0.05, 0.2]
# how many leaves are driven one by one at most
MOST_PARTED = 16
# how deep whens and wires stand in each other that drive what is declared
DEPTH = 2


class Element(int):
    """As a step: the number of an element."""


class Picked(int):
    """As a step: the length of a vector of which an index picks an element."""


def parts(spot):
    """The spots of its fields or elements."""
    if isinstance(spot.type, Vector):
        return [Spot((*spot.steps, Element(k)), spot.type.element, spot.flow)
                for k in range(spot.type.length)]
    count = len(spot.steps) + 1
    return [part for part in within(spot) if len(part.steps) == count]


def has_sinks(spot):
    return any(part.flow != "source" and isinstance(part.type, Ground) for part in within(spot))


class DrivenMaker(InferenceMaker):
    """Makes a circuit. `forgets` tells how often something is not driven that has to be; where that
    is 0 all is. `words` are the statements that it makes. `pays` tells how often one that drives
    what is owed stands between them, `holds` how often no such stands for a register, and `clears`
    how often what is touched is invalid."""

    words, pays, holds, clears = STATEMENTS, 0.4, 0.7, 0.3

    def __init__(self, chance, forgets=FORGETS, rates=(0,)):
        self.forgets = chance.choice(forgets)
        # of each open block what is to be driven there, and how deep; and of the one that is opened
        self.owed, self.due = [], []
        super().__init__(chance, rates)

    def declare(self, head):
        fresh = self.fresh[head]
        if len(fresh) == 1:
            fresh.insert(0, f"{fresh[0]}_")
        return fresh.pop()

    def index(self, length, depth):
        if isinstance(length, Picked):
            return self.number("UInt", 1)
        return [int(length)] if isinstance(length, Element) else super().index(length, depth)

    # Blocks, at whose end all that is declared in them is driven.

    def module(self, head):
        self.due = [spot for _, spot in self.faces[head]]
        return super().module(head)

    def block(self, most, depth):
        return self.opened(lambda: self.statements(most, depth))

    def opened(self, lines):
        """The lines of a block: these, and what drives all that is still owed behind them."""
        self.visible.append([])
        self.owed.append([])
        for spot in self.due:
            self.owe(spot, DEPTH)
        self.due = []
        block = lines()
        while self.owed[-1]:
            block += self.pay()
        self.owed.pop()
        self.visible.pop()
        return block

    def statements(self, most, depth):
        lines = []
        for _ in range(self.chance.randint(most // 2, most)):
            if depth > 0 and self.chance.random() < 0.2:
                lines += self.when(depth - 1)
            else:
                lines += getattr(self, self.chance.choice(self.words))()
            if self.owed[-1] and self.chance.random() < self.pays:
                lines += self.pay()
        return lines

    def owe(self, spot, depth):
        if has_sinks(spot):
            self.owed[-1].append((spot, depth))

    def pay(self):
        owed = self.owed[-1]
        return self.drive(*owed.pop(self.chance.randrange(len(owed))))

    def show(self, name, given, flow, depth=DEPTH):
        super().show(name, given, flow)
        self.owe(Spot((name,), given, flow), depth)

    def reg(self):
        """A register holds where nothing drives it."""
        owed = list(self.owed[-1])
        lines = super().reg()
        if self.chance.random() < self.holds:
            self.owed[-1] = owed
        return lines

    # What drives the sinks of a spot.

    def is_forgotten(self):
        return self.chance.random() < self.forgets

    def drive(self, spot, depth):
        """Lines that drive all sinks of a spot, unless something is forgotten."""
        is_vector = isinstance(spot.type, Vector) and spot.type.length > 0
        if self.is_forgotten():
            return self.touch(spot) if self.chance.random() < 0.7 else []
        if is_vector and self.is_forgotten():
            first = self.chance.random() < 0.5
            lines = self.drive(parts(spot)[0], 0) if first else []
            return lines + self.drive_by_index(spot, depth)
        before = []
        if self.chance.random() < 0.1:
            before = self.drive_by_index(spot, 0) if is_vector else self.touch(spot)
        lines = before + self.chance.choice(self.ways(spot, depth))(spot, depth)
        return lines + self.touch(spot) if self.chance.random() < 0.1 else lines

    def ways(self, spot, depth):
        """The ways in which a spot may be driven, some more than once."""
        is_small = leaf_count(spot.type) <= MOST_PARTED
        ways = [self.drive_by_invalid, self.drive_by_value]
        ways += [self.drive_parts] * (4 * is_small * (not isinstance(spot.type, Ground)))
        ways += [self.drive_by_wire] * (2 * (depth > 0))
        return ways + [self.drive_in_when] * (4 * (depth > 0 and is_small))

    def drive_by_invalid(self, spot, _):
        return [Line([*self.reference(spot, 1), "is", "invalid"])]

    def drive_by_value(self, spot, depth):
        value = self.value(spot.type)
        if value is None:
            return self.drive_by_invalid(spot, depth)
        return [Line([*self.reference(spot, 1), self.chance.choice(["<=", "<-"]), *value])]

    def drive_by_index(self, spot, depth):
        """Some times an element that an index picks."""
        picked = Spot((*spot.steps, Picked(spot.type.length)), spot.type.element, spot.flow)
        ways = [self.drive_by_invalid, self.drive_by_value] + [self.drive_by_wire] * 2
        return [line for _ in range(self.chance.randint(1, 3))
                for line in self.chance.choice(ways)(picked, depth)]

    def value(self, given):
        """An expression of a type, or None where there is none."""
        return self.expression(given, 2, fits) if is_passive(given) else None

    def drive_parts(self, spot, depth):
        chosen = [part for part in parts(spot) if has_sinks(part) and not self.is_forgotten()]
        self.chance.shuffle(chosen)
        return [line for part in chosen for line in self.drive(part, depth - 1)]

    def drive_in_when(self, spot, depth):
        """In each block of a when."""
        heads = [["when", *self.condition(), ":"]]
        while self.chance.random() < 0.3:
            heads.append(["else", "when", *self.condition(), ":"])
        if not self.is_forgotten():
            heads.append(["else", ":"])
        return [Line(head, self.opened(lambda: self.drive(spot, depth - 1))) for head in heads]

    def drive_by_wire(self, spot, depth):
        """By a wire, of its type or of one with more fields and elements; one that lacks some is
        forgotten something of."""
        sign, given = "<=", spot.type
        if self.is_forgotten():
            sign, given = "<-", self.lesser(given)
        elif self.chance.random() < 0.4:
            sign, given = "<-", self.greater(given)
        name = self.declare(self.head)
        self.show(name, given, "both", depth - 1)
        wire = Spot((name,), given, "both")
        lines = [Line(["wire", name, ":", *tokens_of(given)])]
        if spot.flow != "source":
            lines.append(Line([*self.reference(spot, 1), sign, *self.reference(wire, 1)]))
        if spot.flow != "sink":
            lines.append(Line([*self.reference(wire, 1), sign, *self.reference(spot, 1)]))
        return lines

    def greater(self, given):
        """The type with more fields and elements, in another order."""
        if isinstance(given, Vector):
            return Vector(self.greater(given.element), given.length + self.chance.randrange(3))
        if isinstance(given, Ground):
            return given
        fields = [field._replace(type=self.greater(field.type)) for field in given.fields]
        if self.chance.random() < 0.5 and "more" not in [field.name for field in fields]:
            fields.append(Field("more", self.chance.random() < 0.5, Ground("UInt", 1)))
        self.chance.shuffle(fields)
        return Bundle(tuple(fields))

    def lesser(self, given):
        """The type with less fields and elements."""
        if isinstance(given, Vector):
            return Vector(self.lesser(given.element), self.chance.randint(0, given.length))
        if isinstance(given, Ground):
            return given
        return Bundle(tuple(field._replace(type=self.lesser(field.type)) for field in given.fields
                            if self.chance.random() < 0.8))

    def touch(self, spot):
        """Lines that drive some sinks of a spot, under some choices: of elements one, which often
        an index picks."""
        some = [part for part in within(spot) if part.flow != "source"]
        picked = [part for part in some if any(type(step) is int for step in part.steps)]
        part = self.pick(picked if picked and self.chance.random() < 0.7 else some)
        if part is None:
            return []
        is_cleared = self.chance.random() < self.clears
        line = (self.drive_by_invalid if is_cleared else self.drive_by_value)(part, 0)
        if self.chance.random() < 0.5:
            return line
        heads = [["when", *self.condition(), ":"]]
        if self.chance.random() < 0.4:
            heads = [*heads, ["else", ":"]]
        at = self.chance.randrange(len(heads))
        return [Line(head, line if k == at else []) for k, head in enumerate(heads)]
