"""A second reading of which names, widths and kinds fit in a text of the Verilog subset's grammar:
the first fault V03, V04 or V05 in the order of the text, and else the first V08."""
from verilog_grammar import (COMPARISONS, LARGE, REDUCTIONS, SHIFTS, Assign, Clocked, Concat, Const,
                             Declared, Fault, Name, Repeat, Resetting, Select)

WIDEST = 128
MOST_WORDS = 4194304


class Checker:
    """Looks through the items. `fault` is the first fault, or None."""

    def __init__(self, items):
        # by name: its declaration; and the place of the name in its first assign or block
        self.declared, self.driven = {}, {}
        self.words, self.found = 0, []
        self.fault = self.first(items)

    def first(self, items):
        for item in items:
            self.look(item)
            if self.found:
                return min(self.found)
        for item in self.declared.values():
            wants = item.word in ("wire", "output")
            if wants and item.name.text not in self.driven:
                return Fault(item.name.at, "V08", f"undriven {item.name.text}")
        return None

    def look(self, item):
        if isinstance(item, Declared):
            self.declare(item)
        elif isinstance(item, Assign):
            self.assign(item)
        elif isinstance(item, Clocked):
            self.clock(item.clock)
            self.register(item.target)
            self.atom(item.atom, self.width_of(item.target))
        elif isinstance(item, Resetting):
            self.resetting(item)
        else:
            self.clock(item.clock)
            for write in item.writes:
                self.write(write, item.writes[0].array)

    # what is found

    def add(self, at, code, evidence):
        self.found.append(Fault(at, code, evidence))

    def kind(self, at):
        self.add(at, "V04", "kind")

    def misfit(self, at, needed, width):
        """What has that width stands where another one is needed."""
        if width <= WIDEST:
            self.add(at, "V04", f"width {needed} {width}")
        else:
            self.kind(at)

    def twice(self, name, first):
        self.add(name.at, "V05", f"twice {name.text} {first}")

    # names

    def looked_up(self, name):
        """The declaration of a name; where there is none that is a fault."""
        item = self.declared.get(name.text)
        if item is None:
            self.add(name.at, "V03", f"undeclared {name.text}")
        return item

    def declare(self, item):
        if item.high:
            if item.is_clock:
                self.kind(item.range_at)
            elif not 1 <= item.high.number < WIDEST:
                self.kind(item.high.at)
        before = self.declared.setdefault(item.name.text, item)
        if before is not item:
            self.twice(item.name, before.name.at)
        if item.depth:
            self.words += item.depth.number + 1
            if self.words > MOST_WORDS:
                self.kind(item.depth.at)

    def width_of(self, name):
        """The width of a name that is declared, and else None."""
        item = self.declared.get(name.text)
        if item is None:
            return None
        return item.high.number + 1 if item.high else 1

    def is_value(self, item):
        """Whether it is a net or register that an atom may read."""
        return not item.is_clock and not item.depth

    def drive(self, name):
        first = self.driven.setdefault(name.text, name.at)
        if first != name.at:
            self.twice(name, first)

    def clock(self, name):
        item = self.looked_up(name)
        if item and not (item.is_clock and item.word == "input"):
            self.kind(name.at)

    def register(self, name):
        item = self.looked_up(name)
        if item and (item.word != "reg" or item.depth):
            self.kind(name.at)
        elif item:
            self.drive(name)

    def same(self, name, first):
        """The second of two names that have to be one."""
        if self.looked_up(name) and name.text != first.text:
            self.kind(name.at)

    # items

    def assign(self, item):
        target, side = item.target, item.side
        found = self.looked_up(target)
        if found and found.word == "reg":
            self.kind(target.at)
        elif found:
            self.target(found, target, side)
        if found and found.is_clock:
            self.clock_side(side)
        else:
            self.side(side, self.width_of(target))

    def target(self, found, target, side):
        """The wire or port that is assigned."""
        width = self.width_of(target)
        if side.operator in COMPARISONS or side.operator in REDUCTIONS and len(side.operands) == 1:
            if width != 1:
                self.misfit(target.at, 1, width)
        if found.word == "input":
            self.twice(target, found.name.at)
        else:
            self.drive(target)

    def clock_side(self, side):
        """A clock takes a clock input, or none."""
        [first, *_], is_alone = side.operands, side.operator == "atom"
        name = side.array or (first.atom.name if isinstance(first.atom, Select) else first.atom)
        if is_alone and isinstance(first.atom, Const):
            is_taken = first.atom[:2] == (1, 0)
        elif isinstance(name, Name) and name.at == side.at:
            item = self.looked_up(name)
            is_taken = is_alone and name is first.atom and item and item.is_clock
            is_taken = is_taken and item.word == "input"
        else:
            is_taken = False
        if not is_taken:
            # the tree has the places of operands, and none of an operator before one
            is_unary = len(side.operands) == 1 and side.operator not in ("atom", "read")
            self.kind(first.at if is_unary else side.at)

    def side(self, side, target):
        """A right side, where the target has that width."""
        operator, operands = side.operator, side.operands
        needed = [target] * len(operands)
        if operator == "read":
            self.read(side, target)
            needed = [None]
        elif operator in REDUCTIONS and len(operands) == 1:
            needed = [None]
        elif operator in SHIFTS:
            needed = [target, None]
        elif operator in COMPARISONS:
            needed = [None, self.width(operands[0].atom)]
        elif operator == "?":
            needed = [1, target, target]
        for operand, width in zip(operands, needed):
            self.atom(operand.atom, width, operand.at)

    def read(self, side, target):
        item = self.looked_up(side.array)
        width = self.width_of(side.array)
        if item and not item.depth:
            self.kind(side.array.at)
        elif item and target and width != target:
            self.misfit(side.array.at, target, width)

    def resetting(self, item):
        if item.clock:
            self.clock(item.clock)
        net = self.looked_up(item.net)
        if net and not self.is_value(net):
            self.kind(item.net.at)
        elif net and self.width_of(item.net) != 1:
            self.misfit(item.net.at, 1, self.width_of(item.net))
        self.same(item.condition, item.net)
        self.register(item.target)
        width = self.width_of(item.target)
        self.atom(item.const, width)
        if item.other:
            self.same(item.other, item.target)
            self.atom(item.atom, width)

    def write(self, write, first):
        """A write of a block whose first one is to that array."""
        self.atom(write.condition, 1)
        item = self.looked_up(write.array)
        if item and (not item.depth or write.array.text != first.text):
            self.kind(write.array.at)
        elif item and write.array is first:
            self.drive(write.array)
        self.atom(write.address, None)
        self.atom(write.data, self.width_of(write.array))

    # atoms

    def atom(self, atom, needed, at=None):
        """An atom, where one of that width is needed, or where that is None one of any."""
        width = self.width(atom)
        if width is not None and needed is not None and width != needed:
            self.misfit(at or atom.at, needed, width)
        elif width is not None and not 1 <= width <= WIDEST:
            self.kind(atom.at)
        else:
            self.within(atom)
        for part in getattr(atom, "parts", None) or [getattr(atom, "part", None)]:
            if part is not None:
                self.atom(part, None)

    def within(self, atom):
        """What is wrong of an atom whose width fits, its parts aside."""
        if isinstance(atom, Const):
            if atom.number >> min(atom.width, WIDEST):
                self.kind(atom.at)
        elif isinstance(atom, Name):
            item = self.looked_up(atom)
            if item and not self.is_value(item):
                self.kind(atom.at)
        elif isinstance(atom, Select):
            item = self.looked_up(atom.name)
            if item and not (self.is_value(item) and item.high
                             and atom.low <= atom.high <= item.high.number):
                self.kind(atom.at)

    def width(self, atom):
        """The width of an atom; None where a part of it is not declared, is no net or register of
        bits, or has its ends turned round."""
        if isinstance(atom, Const):
            return atom.width
        if isinstance(atom, Concat):
            widths = [self.width(part) for part in atom.parts]
            return None if None in widths else min(sum(widths), LARGE)
        if isinstance(atom, Repeat):
            width = self.width(atom.part)
            return width if width is None else min(width * atom.times, LARGE)
        name = atom if isinstance(atom, Name) else atom.name
        item = self.declared.get(name.text)
        if item is None or not self.is_value(item):
            return None
        if isinstance(atom, Name):
            return self.width_of(name)
        return atom.high - atom.low + 1 if atom.high >= atom.low else None
