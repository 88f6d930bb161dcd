"""Makes circuits at random, of which firc takes most; many have instances. Outputs and registers
hang on inputs and on the state, and many have memories. In many each module has an asynchronous
reset, which in most of these is handed on from the main module as it is. Some circuits have a flaw:
a leaf that hangs on itself, memories on several clocks, a leaf that is not driven, clocks that
statements or indices pick, inits that are no constants, or widths that do not fit."""
from cost_rules import leaf_count
from driven_maker import DEPTH, FORGETS
from inference_maker import RATES
from memory_maker import MemoryMaker
from name_maker import FIELDS
from name_texts import Line
from ranked_maker import ABOVE, FIRST, LAST, NODES
from type_forms import NUMBERS, Ground, alike, fits, is_passive, same_kind, without_widths
from type_maker import called, is_plain, tokens_of

FLAWS = ["none"] * 30 + ["loop"] * 4 + """memory memory clock clock clock init init init forgotten
forgotten widths widths""".split()
WORDS = """wire wire node node node reg reg reg reg reg reg connect connect connect connect partial
invalid""".split()
# how many of these words are added for memories
MEMORIES = [0, 0, 1, 2, 4]
KINDS = ["UInt"] * 5 + ["SInt"] * 3
RESETS = ("Reset", "AsyncReset")
MIXING = {"UInt": "add sub mul xor cat not or and".split(),
          "SInt": "add sub mul neg cvt asSInt dshl".split()}
STEPS = ["add", "add", "sub", "xor"]
ENDINGS = FIELDS[-6:] + ["x", "reg"]
# how many leaves are driven by each block of a when, or in whens and by wires one by one, at most
FEW = 4


def is_reset(given):
    return isinstance(given, Ground) and given.kind in RESETS


class CircuitMaker(MemoryMaker):
    """Makes a circuit, whose `flaw` is one of FLAWS, or of those that are given."""

    sizes = [1, 2, 3, 5, 8, 14]
    pays, holds, clears = 0.15, 0.15, 0.1

    def __init__(self, chance, flaws=tuple(FLAWS)):
        self.flaw = chance.choice(flaws)
        self.mixes_clocks = self.flaw == "memory"
        self.own_words = WORDS + ["mem"] * (chance.choice(MEMORIES) + 2 * self.mixes_clocks)
        self.slips_of_rank = chance.choice([0.05, 0.3]) if self.flaw == "loop" else 0
        # whether all widths of what has been read lately are written
        self.is_known = True
        super().__init__(chance, FORGETS[2:] if self.flaw == "forgotten" else [0],
                         RATES[2:] if self.flaw == "widths" else [0])

    def settle(self, chance, rates):
        super().settle(chance, rates)
        self.widest = chance.choice([3, 5, 9, 9, 9, 17, 33, 110])
        self.written = chance.choice([0.3, 0.6, 0.9])
        count = chance.choice([0, 0, 0, 1, 2])
        self.kinds = KINDS + ["Reset", "AsyncReset"] * count
        self.kinds += ["Clock"] * (4 * (self.flaw == "clock"))
        self.meets = count / 8
        if self.flaw != "widths":
            self.partners = chance.choice([("UInt",), ("AsyncReset",)])
        if self.flaw == "init":
            self.partners = "AsyncReset",
        is_async = self.partners == ("AsyncReset",)
        # the kinds of a reset's port, if modules have one; and whether it is handed on as it is
        self.ports_of_resets = [*RESETS, "AsyncReset"] * is_async
        self.hands_on = is_async and chance.random() < 0.8
        self.reset_kinds = ["UInt", *RESETS, *RESETS] if is_async else ["UInt", "UInt", "Reset"]
        self.node_limits = [*NODES, FIRST] if is_async else NODES
        self.resets = 0.9 if is_async else 0.7

    def new_type(self, depth):
        return super().new_type(min(depth, 2))

    def some_width(self):
        if self.chance.random() < self.over:
            return super().some_width()
        drawn = [self.chance.randint(1, self.widest) for _ in range(4)]
        return self.chance.choice([1, 1, *drawn, self.chance.choice([0, 1, self.widest])])

    # Modules, ports and names.

    def module_count(self):
        return self.chance.choice([1, 1, 1, 2, 2, 3, 4])

    def port(self, head, direction=None, given=None):
        """The main module is the first of those that may have instances."""
        self.main = self.order[0]
        return super().port(head, direction, given)

    def module(self, head):
        later = self.order[self.order.index(head) + 1:]
        self.words = self.own_words + ["inst"] * (3 * bool(later))
        return super().module(head)

    def ports(self, head):
        chance = self.chance
        clocks = chance.choice([1, 2, 3] if self.mixes_clocks else [0, 1, 1, 1, 1, 2, 3])
        ports = [self.port(head, "input", Ground("Clock")) for _ in range(clocks)]
        ports += [self.port(head, "input", self.ground(NUMBERS)) for _ in range(3)]
        ports.append(self.port(head, "input", Ground("UInt", 1)))
        if self.ports_of_resets:
            kind = chance.choice(self.ports_of_resets)
            ports.append(self.port(head, "input", Ground(kind)))
        ports += [self.port(head, "input") for _ in range(chance.randint(0, 2))]
        ports += [self.port(head, "output") for _ in range(chance.randint(1, 3))]
        chance.shuffle(ports)
        return ports

    def declare(self, head):
        """Now and then a name that the emitted text may give to a leaf."""
        name = super().declare(head)
        if self.chance.random() < 0.1:
            self.fresh[head].append(f"{name}_{self.chance.choice(ENDINGS)}")
        return name

    def show(self, name, given, flow, depth=DEPTH):
        """Of a node no width is known, whatever its expression was made for."""
        is_node = flow == "source" and self.memory is None
        super().show(name, without_widths(given) if is_node else given, flow, depth)

    # Expressions.

    def reference(self, spot, depth):
        if isinstance(spot.type, Ground) and spot.type.kind in NUMBERS:
            self.is_known &= spot.type.width is not None
        return super().reference(spot, depth)

    def expression(self, given, depth, meets=same_kind):
        """More often an operator than a name, and now and then a literal; a constant more often a
        literal. A reset that is handed on is mostly a name that hangs on no more than an input."""
        if self.hands_on and is_reset(given) and self.chance.random() < 0.9:
            meets = self.joins if meets is fits else meets
            inputs = [spot for spot in self.spots() if self.high(spot) <= FIRST
                      and isinstance(spot.type, Ground) and meets(given, spot.type)]
            if inputs:
                return self.reference(self.chance.choice(inputs), depth)
        if isinstance(given, Ground) and given.kind in NUMBERS:
            if self.limit <= FIRST and self.chance.random() < 0.6:
                return self.literal(given.kind)
            if depth > 1 and self.chance.random() < 0.5:
                return self.operation(given.kind, depth)
            if depth < 2 and self.chance.random() < 0.1:
                return self.literal(given.kind)
        return super().expression(given, depth, meets)

    def operator(self, kind):
        """More often one whose result has much of its operands."""
        mixes = kind in NUMBERS and self.chance.random() < 0.4
        return self.chance.choice(MIXING[kind]) if mixes else super().operator(kind)

    def operation(self, kind, depth):
        around, self.is_known = self.is_known, True
        made = super().operation(kind, depth)
        self.is_known &= around
        return made

    def operand(self, op, kind, depth):
        """What may grow to twice its width is cut where it may be wide."""
        part = super().operand(op, kind, depth)
        is_cut = op in ("mul", "cat", "dshl") and (self.widest > 40 or not self.is_known)
        return self.low_bits(kind, part, min(self.widest, 60)) if is_cut else part

    def may_grow(self, op):
        return op != "dshl" and self.is_known and self.widest < 10 or super().may_grow(op)

    def cut(self, kind, grown):
        counts = [self.chance.randint(1, self.widest) for _ in range(2)]
        return self.low_bits(kind, grown, max(counts))

    def integer(self):
        return self.chance.choice([0, 1, 1, 2, self.chance.randrange(min(self.widest, 9))])

    def bit(self, depth):
        bits = [spot for spot in self.spots() if spot.type == Ground("UInt", 1)]
        if bits and self.chance.random() < 0.4:
            return self.reference(self.chance.choice(bits), depth)
        return super().bit(depth)

    def node_type(self):
        given = super().node_type()
        is_clock = given == Ground("Clock") and self.flaw != "clock"
        return self.ground(KINDS) if is_clock else given

    # Registers.

    def reg(self):
        """Before one whose reset may be asynchronous stands, now and then, a wire that has a
        constant of its type."""
        kinds, lines = self.reset_kinds, []
        is_seen = any(spot.type == Ground("Reset") for spot in self.spots())
        self.reset_kinds = [self.chance.choice([kind for kind in kinds
                                                if is_seen or kind != "Reset"])]
        self.given = self.chance.choice([self.plain_type(), self.own_type()])
        if self.may_act_at_once() and self.chance.random() < self.needs_a_wire():
            lines = self.constant()
        lines += super().reg()
        self.reset_kinds, self.given = kinds, None
        return lines

    def own_type(self):
        """A bundle or a vector of those that other declarations have, if there is one."""
        given = self.pick(given for given in self.types if is_plain(given) and leaf_count(given))
        return given or self.plain_type()

    def register_type(self):
        return self.given

    def may_act_at_once(self):
        [kind] = self.reset_kinds
        return kind == "AsyncReset" or kind == "Reset" and "AsyncReset" in self.partners

    def needs_a_wire(self):
        return 0.2 if isinstance(self.given, Ground) else 0.7

    def constant(self):
        """A wire of the register's type that only constants drive."""
        name, self.limit = self.declare(self.head), FIRST
        self.show(name, self.given, "both")
        self.limit = ABOVE
        return [Line(["wire", name, ":", *tokens_of(self.given)])]

    def init(self, given):
        """With the flaw, now and then whatever there is."""
        if self.flaw == "init" and self.chance.random() < 0.5:
            return self.expression(given, 2)
        return super().init(given)

    # Statements.

    def statements(self, most, depth):
        """In the block of a module more often a register."""
        first = self.reg() if len(self.visible) == 2 and self.chance.random() < 0.7 else []
        return first + super().statements(most, depth)

    def is_ordered(self, one, other):
        """A reset that is handed on is driven by nothing else."""
        is_driven = self.hands_on and (is_reset(one.type) or is_reset(other.type))
        return not is_driven and super().is_ordered(one, other)

    def touch(self, spot):
        return [] if self.hands_on and is_reset(spot.type) else super().touch(spot)

    def ways(self, spot, depth):
        """Seldom an invalid, where there is another way."""
        if self.hands_on and is_reset(spot.type):
            return [self.drive_by_value] * 3 + [self.drive_by_wire] * (depth > 0)
        ways, no_ways = super().ways(spot, depth), [self.drive_by_invalid]
        if is_passive(spot.type):
            ways += [self.drive_by_value] * 4
            is_register = self.low(spot) == LAST and isinstance(spot.type, Ground)
            ways += [self.drive_by_step] * (4 * is_register)
        else:
            no_ways.append(self.drive_by_value)
        if leaf_count(spot.type) > FEW:
            no_ways.append(self.drive_in_when)
        ways = [way for way in ways if way not in no_ways]
        return ways if ways and self.chance.random() < 0.97 else [self.drive_by_invalid]

    def value(self, given):
        return self.expression(given, 3, fits) if is_passive(given) else None

    def drive_by_value(self, spot, depth):
        is_ground = isinstance(spot.type, Ground)
        if is_ground or any(alike(spot.type, other.type, fits) for other in self.spots()):
            return super().drive_by_value(spot, depth)
        return self.drive_parts(spot, depth)

    def drive_parts(self, spot, depth):
        return super().drive_parts(spot, depth if leaf_count(spot.type) <= FEW else 0)

    def drive_by_step(self, spot, _):
        """A register by what it holds and something else."""
        op, kind = self.chance.choice(STEPS), spot.type.kind
        step = called(op, [self.reference(spot, 1), self.operand(op, kind, 2)])
        step = called("asSInt", [step]) if op == "xor" and kind == "SInt" else step
        return [Line([*self.reference(spot, 1), "<=", *self.cut(kind, step)])]
