"""The ways in which a circuit of name_maker.py is made wrong. A slip may leave it right, too."""
from name_texts import Line, Name, Use

WAYS = """use use use use own own again move move move field port heads instance instance ring ring
circuit circuit""".split()
# no statement, but a part of one, or a port
FIXED = ("when", "else", "input", "output")


class Slips:
    """Puts slips in a circuit that is made."""

    def __init__(self, made, chance):
        self.made, self.chance = made, chance

    def put(self, count):
        for _ in range(count):
            getattr(self, self.chance.choice(WAYS))()

    def any_name(self, head):
        """A name of the module, which may be visible or not, or of elsewhere, or of nowhere."""
        ours = [name for module, name in self.made.declared if module is head]
        others = self.made.heads + [name for _, name in self.made.declared]
        others += [Name(spelling) for spelling in ("zz", "a0", "Clk")]
        return self.chance.choice(ours if ours and self.chance.random() < 0.7 else others)

    def same(self, names):
        """Gives two of the names one spelling. What uses them goes with them."""
        if len(names) > 1:
            first, second = self.chance.sample(names, 2)
            second.spelling = first.spelling

    def use(self):
        """One use names something else."""
        if self.made.uses:
            use = self.chance.choice(self.made.uses)
            heads = {name: head for head, name in self.made.declared}
            use.name = self.any_name(heads.get(use.name))

    def own(self):
        """A node or a register reads itself. Only in its reset may a register do so."""
        lines = [line for _, block in self.made.blocks for line in block
                 if line.begins_with("node", "reg")]
        uses = [(line.tokens[1], token) for line in lines
                for part in [line, *(line.block or [])]
                for token in part.tokens if isinstance(token, Use)]
        if uses:
            name, use = self.chance.choice(uses)
            use.name = name

    def again(self):
        head = self.chance.choice(self.made.heads)
        self.same([name for module, name in self.made.declared if module is head])

    def field(self):
        """Two fields of a bundle have one name."""
        self.same(self.chance.choice([names for names in self.made.bundles if names[1:]] or [[]]))

    def port(self):
        """Two ports of a memory have one name."""
        self.same(self.chance.choice([names for names in self.made.ports if names[1:]] or [[]]))

    def heads(self):
        self.same(self.made.heads)

    def instance(self):
        """One instance is of another module, or of none."""
        if self.made.instances:
            others = self.made.heads * 2 + [Name("zz"), self.any_name(None)]
            self.chance.choice(self.made.instances).name = self.chance.choice(others)

    def ring(self):
        """A module instantiates itself, or one that comes before it in their order."""
        head, block = self.chance.choice(self.made.blocks)
        before = self.made.order[:self.made.order.index(head) + 1]
        line = Line(["inst", self.made.declare(head), "of", self.chance.choice(before)])
        block.insert(self.place(block), line)

    def circuit(self):
        self.made.circuit.name = self.chance.choice([Name("zz"), *self.made.heads])

    def place(self, block):
        """A place in a block: behind the ports, and not between a when and its else."""
        first = sum(line.begins_with("input", "output") for line in block)
        return self.chance.choice([at for at in range(first, len(block) + 1)
                                   if at == len(block) or not block[at].begins_with("else")])

    def move(self):
        """A statement goes to another place of its module, or of another module."""
        head, block = self.chance.choice(self.made.blocks)
        moved = [line for line in block if not line.begins_with(*FIXED)]
        if moved:
            line = self.chance.choice(moved)
            block.remove(line)
            goals = [goal for module, goal in self.made.blocks
                     if module is head or self.chance.random() < 0.1]
            goal = self.chance.choice(goals)
            goal.insert(self.place(goal), line)
