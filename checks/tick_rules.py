"""A second reading of what a design does tick by tick, for texts in which no fault stands that comes
before E28.

The value of a leaf is found when it is asked for: of the statements that may drive it the last one
whose whens count and whose indices pick it. A clock's value is the number of the clock input of the
main module at which its drivers end, or None. A register shows its state; but while an asynchronous
reset of it is 1 it shows its init, and takes that at the tick, whether its clock rises or not. What
a memory's port reads is the word at its address, or zero past the depth and where it is not enabled:
at once, or from the edge of its clock on, at which it read what stood there before all writes of
the tick, or, of a memory with `new`, behind them.
"""
import sys

import operators
from inference_forms import CHOICES, Elements, Literal, Reference, leaves
from operators import Type
from source_rules import parted, whens_from
from width_rules import held, literal_width

sys.setrecursionlimit(1000000)


class Tick:
    """The values of a source's leaves at one tick. A path that is given is one in a copy."""

    def __init__(self, source, state, inputs):
        self.source, self.state, self.known = source, dict(zip(source.words, state)), {}
        self.array_words = list(state[len(source.words):])
        for path, number in zip(source.inputs, inputs):
            self.known[path] = source.leaves[path].type().value(number)

    def value(self, path):
        """What a leaf shows, by its path in the design."""
        if path not in self.known:
            self.known[path] = self.found(path, self.source.leaves[path])
        return self.known[path]

    def found(self, path, leaf):
        if leaf.is_input():
            return leaf.type().value(0)
        if leaf.word == "reg":
            if leaf.is_async() and self.is_reset(leaf):
                return self.init(leaf)
            return leaf.type().value(self.state.get(path, 0))
        if leaf.word == "pipe":
            return leaf.type().value(self.state.get(path, 0))
        if leaf.word == "reading":
            return self.word_read(leaf, self.array_words)
        if leaf.word == "node":
            given = self.evaluated(leaf.copy, leaf.copy.module.nodes[leaf.name], leaf.path)
            return leaf.type().value(given.number)
        return self.stored(leaf)

    def word_read(self, leaf, words):
        """What a memory's port reads, where the arrays have these words."""
        ones, zeros = leaf.needs()
        is_read = (all(self.port_value(leaf.port(), field) == 1 for field in ones)
                   and all(self.port_value(leaf.port(), field) == 0 for field in zeros))
        address = self.port_value(leaf.port(), "addr")
        array = self.source.arrays.get((leaf.copy, leaf.name, leaf.within()))
        is_there = array and address < leaf.memory().depth
        return leaf.type().value(words[array.begin + address] if is_read and is_there else 0)

    def port_value(self, port, field):
        return self.value(f"{port}.{field}").number

    def last_drive(self, leaf):
        """The side that drives a leaf at this tick, with the path of the leaf in what gives; or
        None."""
        for drive, given in self.source.drives_of(leaf):
            if self.counts(leaf.copy, whens_from(drive, leaf)) and self.picks(drive.driven, leaf):
                return drive, given
        return None

    def stored(self, leaf):
        """What the statements leave at a leaf, or None."""
        found = self.last_drive(leaf)
        if found is None:
            return None
        drive, given = found
        if drive.giving is None:
            return leaf.type().value(0)
        return leaf.type().value(self.evaluated(leaf.copy, drive.giving, given).number)

    def is_reset(self, leaf):
        """Whether the reset of a register is 1."""
        condition = leaf.register().condition
        return condition is not None and self.evaluated(leaf.copy, condition).number == 1

    def init(self, leaf):
        """The init of a register's leaf."""
        return leaf.type().value(self.evaluated(leaf.copy, leaf.register().init, leaf.path).number)

    def clock(self, path):
        """The number of a clock leaf's clock, by its path in the design."""
        while path in self.source.leaves:
            leaf = self.source.leaves[path]
            if leaf.is_input():
                return self.source.clocks.index(path)
            if leaf.word == "node":
                giving, given = leaf.copy.module.nodes[leaf.name], leaf.path
            else:
                drive, given = self.last_drive(leaf)
                giving = drive.giving
            if giving is None:
                return None
            path = leaf.copy.prefix + giving.path() + given
        return None

    def counts(self, copy, whens):
        return all(bool(self.evaluated(copy, when.condition).number) == when.outcome
                   for when in whens)

    def picks(self, reference, leaf):
        """Whether the dynamic indices of a reference pick this leaf."""
        numbers = [self.evaluated(leaf.copy, index).number for index in reference.indices]
        picked = [part for step, part in zip(reference.steps, parted(leaf.local()))
                  if isinstance(step, Elements)]
        return [f"[{number}]" for number in numbers] == picked

    def evaluated(self, copy, expression, path=""):
        """The value of a leaf of an expression in a copy."""
        if isinstance(expression, Literal):
            given = Type(expression.kind == "SInt", literal_width(expression))
            return given.value(expression.number)
        if isinstance(expression, Reference):
            return self.read(copy, expression, path)
        if expression.word in CHOICES:
            condition = self.evaluated(copy, expression.operands[0])
            arms = [self.evaluated(copy, arm, path) for arm in expression.operands[1:]]
            return getattr(operators, expression.word)(condition, *arms)
        operands = [self.evaluated(copy, operand) for operand in expression.operands]
        if expression.word == "asAsyncReset":
            return Type(False, 1).value(operands[0].number)
        return operators.applied(expression.word, operands, list(expression.integers))

    def read(self, copy, reference, path):
        numbers = [self.evaluated(copy, index).number for index in reference.indices]
        text = ""
        for step in reference.steps:
            if isinstance(step, Elements):
                number = numbers.pop(0)
                if number >= step.length:
                    ground = next(one for inner, one, _ in leaves(reference.type) if inner == path)
                    return Type(ground.kind == "SInt", held(ground)).value(0)
                text += f"[{number}]"
            else:
                text += step[0]
        return self.value(copy.prefix + text + path)

    def after(self, rising):
        """The state behind the tick, at which the clocks of these numbers rise."""
        left = self.array_words_after(rising)
        return [self.next_word(path, self.source.leaves[path], rising, left).bits()
                for path in self.source.words] + left

    def array_words_after(self, rising):
        """The words of the arrays behind the tick, which the ports write one after the other."""
        words = list(self.array_words)
        for array in self.source.arrays.values():
            for port, ones, given in array.writes():
                is_written = (self.clock(f"{port}.clk") in rising
                              and all(self.port_value(port, field) == 1 for field in ones))
                address = self.port_value(port, "addr")
                if is_written and address < array.memory().depth:
                    words[array.begin + address] = self.value(f"{port}.{given}").bits()
        return words

    def next_word(self, path, leaf, rising, left):
        if leaf.word == "reg":
            return self.next_value(path, leaf, rising)
        if self.clock(f"{leaf.port()}.clk") not in rising:
            return self.value(path)
        return self.word_read(leaf, left if leaf.memory().is_new else self.array_words)

    def next_value(self, path, leaf, rising):
        clock = self.clock(leaf.copy.prefix + leaf.register().clock.path())
        if self.is_reset(leaf) and (leaf.is_async() or clock in rising):
            return self.init(leaf)
        stored = self.stored(leaf) if clock in rising else None
        return self.value(path) if stored is None else stored


def tick(source, state, rising, inputs):
    """The bits of the outputs, and the state after a tick."""
    now = Tick(source, state, inputs)
    return [now.value(path).bits() for path in source.outputs], now.after(rising)
