"""Makes circuits at random, over the whole language: whens, instances, memories and aggregates.

Their texts are right, each name is declared once and used where it is visible, and no module
instantiates itself, at once or by others. Types need not fit.
"""
from grammar_rules import OPS
from name_texts import Line, Name, Use

NAMES = """a b c d e f n o p q r s t v w x y z A B T io clock reset in0 out_1 _n0 x$1 wire reg node
inst of mem when else skip is invalid input output module circuit with flip UInt SInt Clock mux add
not bits validif reader writer depth old read mport stop printf attach FIRRTL version""".split()
FIELDS = NAMES + "0 1 7 07 007 10".split()
MODULES = "T A B C D M N top Top module a wire inst of is _m0".split()
SIMPLE = "wire wire node node reg inst mem connect connect connect partial invalid skip".split()
BIT = ["UInt", "<", 1, ">"], None


class Maker:
    """Makes a circuit. What it is made of stays known: uses; each name with its module; the names
    of each bundle, and of each memory's ports; the uses of modules; and each block with its module.
    """

    def __init__(self, chance):
        self.chance = chance
        self.uses, self.declared, self.bundles, self.ports = [], [], [], []
        self.instances, self.blocks = [], []
        spellings = chance.sample(MODULES, chance.choice([1, 1, 2, 3, 4, 5]))
        self.heads = [Name(spelling) for spelling in spellings]
        # a module instantiates those alone that come later in this order
        self.order = chance.sample(self.heads, len(self.heads))
        self.fresh = {head: chance.sample(NAMES, len(NAMES)) for head in self.heads}
        self.faces = {head: [self.port(head) for _ in range(chance.randrange(5))]
                      for head in self.heads}
        self.circuit = Use(chance.choice(self.heads))
        self.modules = [self.module(head) for head in self.heads]

    def line(self):
        """The line of the circuit, with its modules."""
        return Line(["circuit", self.circuit, ":"], self.modules)

    def declare(self, head):
        """A new name in the module."""
        fresh = self.fresh[head]
        name = Name(fresh.pop() if fresh else f"n{len(self.declared)}")
        self.declared.append((head, name))
        return name

    # A type is a pair of its tokens and its parts: of a bundle the pairs of name and type, of a
    # vector the type of its elements, of a ground type None.

    def ground(self):
        word = self.chance.choice("UInt UInt UInt SInt Clock Reset AsyncReset".split())
        if word in ("UInt", "SInt") and self.chance.random() < 0.8:
            return [word, "<", self.chance.randrange(130), ">"], None
        return [word], None

    def type(self, depth=3):
        way = self.chance.random()
        if depth == 0 or way < 0.5:
            return self.ground()
        if way < 0.75:
            element = self.type(depth - 1)
            return element[0] + ["[", self.chance.randrange(5), "]"], element
        names = [Name(name) for name in self.chance.sample(FIELDS, self.chance.randrange(5))]
        self.bundles.append(names)
        fields = [(name, self.type(depth - 1)) for name in names]
        tokens = []
        for name, (of_field, _) in fields:
            tokens += [","] + ["flip"] * (self.chance.random() < 0.3) + [name, ":", *of_field]
        return ["{", *tokens[1:], "}"], fields

    def port(self, head):
        """The line of a port, and what it shows."""
        name, given = self.declare(head), self.type()
        direction = self.chance.choice(["input", "output"])
        return Line([direction, name, ":", *given[0]]), (name, given)

    def reference(self, depth):
        """The tokens of a reference to something visible, or None where nothing is."""
        visible = [shown for level in self.visible for shown in level]
        if not visible:
            return None
        name, (_, parts) = self.chance.choice(visible)
        self.uses.append(Use(name))
        tokens = [self.uses[-1]]
        while parts and self.chance.random() < 0.8:
            if isinstance(parts, list):
                field, (_, parts) = self.chance.choice(parts)
                tokens += [".", str(field)]
            else:
                is_plain = depth == 0 or self.chance.random() < 0.4
                index = [self.chance.randrange(5)] if is_plain else self.expression(depth - 1)
                tokens, parts = tokens + ["[", *index, "]"], parts[1]
        return tokens

    def literal(self):
        word, number = self.chance.choice(["UInt", "SInt"]), self.chance.randrange(1000)
        sign = self.chance.choice(["", "-" if word == "SInt" else "+"])
        spelling = self.chance.choice([f"{sign}{number}", f'"h{sign}{number:x}"'])
        width = ["<", self.chance.randrange(20), ">"] if self.chance.random() < 0.7 else []
        return [word, *width, "(", spelling, ")"]

    def expression(self, depth=3):
        if depth == 0 or self.chance.random() < 0.5:
            is_name = self.chance.random() < 0.85
            return (is_name and self.reference(depth)) or self.literal()
        word = self.chance.choice(["mux", "validif", *OPS])
        operands, integers = {"mux": (3, 0), "validif": (2, 0)}.get(word) or OPS[word]
        parts = [self.expression(depth - 1) for _ in range(operands)]
        parts += [[self.chance.randrange(9)] for _ in range(integers)]
        between = [token for part in parts for token in [",", *part]]
        return [word, "(", *between[1:], ")"]

    def module(self, head):
        """The lines of a module; its ports stand before its block."""
        ports = self.faces[head]
        self.head, self.visible = head, [[shown for _, shown in ports]]
        body = self.block(self.chance.choice([0, 3, 6, 9]), 3)
        body[:0] = [line for line, _ in ports]
        return Line(["module", head, ":"], body)

    def block(self, most, depth):
        """The statements of a block, with whens `depth` deep at most."""
        block = []
        self.blocks.append((self.head, block))
        self.visible.append([])
        for _ in range(self.chance.randint(0, most)):
            if depth > 0 and self.chance.random() < 0.25:
                block += self.when(depth - 1)
            else:
                block += getattr(self, self.chance.choice(SIMPLE))()
        self.visible.pop()
        return block

    def when(self, depth):
        """The lines of a when and its elses, each with its block."""
        lines = [Line(["when", *self.expression(), ":"], self.block(4, depth))]
        while self.chance.random() < 0.3:
            lines.append(Line(["else", "when", *self.expression(), ":"], self.block(3, depth)))
        if self.chance.random() < 0.5:
            lines.append(Line(["else", ":"], self.block(4, depth)))
        return lines

    def show(self, name, given):
        """From here on the name is visible in its block."""
        self.visible[-1].append((name, given))

    def wire(self):
        name, given = self.declare(self.head), self.type()
        self.show(name, given)
        return [Line(["wire", name, ":", *given[0]])]

    def node(self):
        value, name = self.expression(), self.declare(self.head)
        self.show(name, self.ground())
        return [Line(["node", name, "=", *value])]

    def reg(self):
        name, given, clock = self.declare(self.head), self.type(), self.expression(1)
        self.show(name, given)
        line = Line(["reg", name, ":", *given[0], ",", *clock])
        if self.chance.random() < 0.6:
            reset = ["reset", "=>", "(", *self.expression(2), ",", *self.expression(2), ")"]
            is_block = self.chance.random() < 0.5
            line.tokens += ["with", ":"] + ([] if is_block else ["(", *reset, ")"])
            line.block = [Line(reset)] if is_block else None
        return [line]

    def inst(self):
        later = self.order[self.order.index(self.head) + 1:]
        if not later:
            return self.skip()
        of, name = Use(self.chance.choice(later)), self.declare(self.head)
        self.instances.append(of)
        self.show(name, ([], [shown for _, shown in self.faces[of.name]]))
        return [Line(["inst", name, "of", of])]

    def mem(self):
        chance, name, data = self.chance, self.declare(self.head), self.type(2)
        fields = [["data-type", "=>", *data[0]], ["depth", "=>", chance.randrange(99)],
                  ["read-latency", "=>", chance.randrange(2)], ["write-latency", "=>", 1],
                  ["read-under-write", "=>", chance.choice(["old", "new", "undefined"])]]
        fields = [field for field in fields if chance.random() < 0.9]
        ports = [Name(port) for port in chance.sample(NAMES, chance.randrange(5))]
        self.ports.append(ports)
        for at in range(0, len(ports), 2):
            kind = chance.choice(["reader", "writer", "readwriter"])
            fields.append([kind, "=>", *ports[at:at + 2]])
        chance.shuffle(fields)
        face = [(Name("addr"), BIT), (Name("en"), BIT), (Name("clk"), BIT), (Name("data"), data)]
        self.show(name, ([], [(port, ([], face)) for port in ports]))
        return [Line(["mem", name, ":"], [Line(field) for field in fields])]

    def connect(self, sign="<="):
        sink = self.reference(1)
        return [Line([*sink, sign, *self.expression()])] if sink else self.skip()

    def partial(self):
        return self.connect("<-")

    def invalid(self):
        sink = self.reference(1)
        return [Line([*sink, "is", "invalid"])] if sink else self.skip()

    def skip(self):
        return [Line(["skip"])]
