"""Makes circuits at random in which no leaf hangs on itself within a tick, unless ranks slip.

Each leaf that statements drive has a rank, and is driven by what has less alone. All but constants
may read inputs and registers, and registers may read all. A node has the rank of what it reads.
What has less rank than inputs is a constant. A register whose reset may be asynchronous hangs on
it: what reads the register has more rank than what the reset reads, and its init is a constant. What
a memory gives at once has more rank than what picks it."""
import re

from driven_maker import DEPTH, DrivenMaker, parts
from name_texts import Line
from type_forms import Ground, Vector, fits, is_passive, pairs
from type_maker import Spot, is_legal, within

# the ranks of what reads nothing, of what all but constants may read, and of what may read all; and
# one above all
LEAST, FIRST, LAST, ABOVE = -2, -1, 2, 3
# how much more than the rank of an instance's inputs its outputs have
HIGHER = 0.001
# between 0 and 1: the least rank of a port's leaf, and below which rank stands what a condition of
# a when, or a node, reads
PORTS, CONDITIONS, NODES = 0.7, [0, 0, 0.5, ABOVE], [0, 0.5, 0.8, ABOVE]


class RankedMaker(DrivenMaker):
    """Makes a circuit. `slips_of_rank` tells how often a rank is not looked at."""

    slips_of_rank, node_limits = 0, NODES

    def __init__(self, chance, *rates):
        # of each leaf, and of each aggregate of its leaves, the least rank at which it is driven
        # and the greatest at which it is read, by the name and the fields
        self.ranks = {}
        # what is read now has less rank than `limit`; the conditions of whens around have read
        # `floor` at most, and all that has been read lately `read`
        self.limit, self.floor, self.read = ABOVE, LEAST, LEAST
        # the rank at which a register is read that is declared; that of the inputs of an instance
        # that is declared; what is known of a memory that is declared; of a vector that is driven in
        # turn the elements before
        self.register, self.inputs, self.memory, self.before = None, None, None, []
        super().__init__(chance, *rates)

    # Ranks.

    def module(self, head):
        self.ranks, self.read = {}, FIRST
        for _, spot in self.faces[head]:
            self.rank(spot, PORTS)
        return super().module(head)

    def show(self, name, given, flow, depth=DEPTH):
        super().show(name, given, flow, depth)
        self.rank(Spot((name,), given, flow), 0)

    def rank(self, spot, least):
        """Gives ranks to a spot that is declared, and to all within it."""
        for part in within(spot):
            path = path_of(part)
            self.ranks.setdefault(path, (ABOVE, LEAST))
            if isinstance(part.type, Ground):
                driven, read = self.ranks_of_leaf(part, least)
                for count in range(1, len(path) + 1):
                    low, high = self.ranks[path[:count]]
                    self.ranks[path[:count]] = min(low, driven), max(high, read)

    def ranks_of_leaf(self, part, least):
        if self.register is not None:
            return LAST, self.register
        if self.inputs is not None:
            is_input = part.flow == "sink"
            return (self.inputs, self.inputs) if is_input else (ABOVE, self.inputs + HIGHER)
        if self.memory is not None:
            return self.memory.ranks(part)
        if part.flow == "source":
            return ABOVE, self.read
        rank = self.some_rank(least)
        return rank, rank

    def some_rank(self, least, most=1):
        """One below the limit: a constant where all that may be read are constants."""
        return self.chance.uniform(LEAST if self.limit <= FIRST else least, min(self.limit, most))

    def low(self, spot, path=()):
        return self.ranks[(*path_of(spot), *path)][0]

    def high(self, spot, path=()):
        return self.ranks[(*path_of(spot), *path)][1]

    def spots(self):
        found = super().spots()
        if self.slips_of_rank and self.chance.random() < self.slips_of_rank:
            return found
        return [spot for spot in found if self.high(spot) < self.limit] + self.before

    def reference(self, spot, depth):
        self.read = max(self.read, self.high(spot))
        return super().reference(spot, depth)

    # Statements. Where one stands alone the limit is above all.

    def condition(self):
        limit, self.read = self.limit, LEAST
        if limit == ABOVE:
            self.limit = self.chance.choice(CONDITIONS)
        made = super().condition()
        self.limit, self.floor = limit, max(self.floor, self.read)
        return made

    def when(self, depth):
        floor = self.floor
        lines = super().when(depth)
        self.floor = floor
        return lines

    def node(self):
        self.limit, self.read = self.chance.choice(self.node_limits), LEAST
        lines = super().node()
        self.limit = ABOVE
        return lines

    def reg(self):
        self.register = self.some_rank(0, 0.9) if self.may_act_at_once() else FIRST
        lines = super().reg()
        self.register = None
        return lines

    def may_act_at_once(self):
        """Whether the reset of a register may be asynchronous."""
        return self.reset_kinds != ["UInt"]

    def reset_condition(self):
        self.limit = self.register if self.may_act_at_once() else ABOVE
        made = super().reset_condition()
        self.limit = ABOVE
        return made

    def init(self, given):
        self.limit = FIRST if self.may_act_at_once() else ABOVE
        made = super().init(given)
        self.limit = ABOVE
        return made

    def inst(self):
        """An output of an instance may hang on each of its inputs."""
        self.inputs = self.some_rank(0, 0.9)
        lines = super().inst()
        self.inputs = None
        return lines

    def is_ordered(self, one, other):
        """Whether a connect of these may stand here."""
        return self.low(one) > self.floor and all(
            self.low(driven, path) > max(self.floor, self.high(giving, path))
            for driven, giving, path in sides(one, other))

    def pair(self, test):
        """Behind it the limit is that of what is driven."""
        left, right = super().pair(
            lambda one, other: test(one, other) and self.is_ordered(one, other))
        if left:
            lows = [self.low(driven, path) for driven, _, path in sides(left, right)]
            self.limit = min([self.low(left), *lows])
        return left, right

    def connect(self, sign="<="):
        lines = super().connect(sign)
        self.limit = ABOVE
        return lines

    def meeting(self, sign):
        left, right = self.pair(lambda one, other: (
            isinstance(one.type, Ground) and isinstance(other.type, Ground)
            and "Reset" in (one.type.kind, other.type.kind) and fits(one.type, other.type)
            and is_legal(one, other)))
        return left and [Line([*self.reference(left, 1), sign, *self.reference(right, 1)])]

    def invalid(self):
        spot = self.pick(spot for spot in self.spots() if self.low(spot) > self.floor)
        if spot is None:
            return self.skip()
        self.limit = self.low(spot)
        lines = self.drive_by_invalid(spot, 0)
        self.limit = ABOVE
        return lines

    # What drives the sinks of a spot.

    def drive(self, spot, depth):
        limit, floor, self.limit = self.limit, self.floor, self.low(spot)
        lines = super().drive(spot, depth)
        self.limit, self.floor = limit, floor
        return lines

    def ways(self, spot, depth):
        ways = super().ways(spot, depth)
        if is_passive(spot.type):
            is_long = isinstance(spot.type, Vector) and spot.type.length > 1
            return ways + [self.drive_in_turn] * (4 * is_long)
        return [way for way in ways if way != self.drive_by_wire or spot.flow == "sink"]

    def drive_by_wire(self, spot, depth):
        """What is driven and read alike does not drive the wire."""
        lines = super().drive_by_wire(spot, depth)
        return lines[:2] if spot.flow == "both" else lines

    def drive_in_turn(self, spot, _):
        """Element by element, each by those before."""
        before, lines = self.before, []
        for part in parts(spot):
            lines += self.drive_by_value(part, 0)
            self.before = [*self.before, part]
        self.before = before
        return lines


def path_of(spot):
    """The name and the fields of a spot."""
    return tuple(step for step in spot.steps if isinstance(step, str))


def sides(one, other):
    """What a connect of two spots drives and what gives, with the fields of each leaf in both."""
    for path, is_flipped in pairs(one.type, other.type):
        fields = tuple(re.findall(r"\.([^.\[\]]+)", path))
        yield (other, one, fields) if is_flipped else (one, other, fields)
