"""Makes memories at random, for circuits in which ranks tell what may hang on what. All ports of a
memory have one clock, or none, unless that is to be wrong; all else of them is driven in the ways in
which the leaves of other declarations are."""
from typing import NamedTuple

from cost_rules import leaf_count
from driven_maker import parts
from name_maker import FIELDS
from name_texts import Line
from ranked_maker import ABOVE, FIRST, HIGHER, LAST, LEAST, RankedMaker
from type_forms import NUMBERS, Bundle, Field, Ground, mapped, memory_port
from type_maker import Spot, tokens_of

DEPTHS = [1, 2, 2, 3, 3, 4, 5, 8, 9, 17]
KINDS = ["reader", "reader", "writer", "writer", "readwriter"]
UNDERS = [None, "old", "new", "new", "undefined"]
MOST_WORDS = 40
# the rank of what is written where that may read nearly all
WRITTEN = LAST - HIGHER


class Ranks(NamedTuple):
    """The ranks of a memory's leaves: of what picks words, of what is written, of clocks, which are
    driven by nothing else, and of what is read."""
    picks: float
    written: float
    clock: float
    read: float

    def ranks(self, part):
        """The least rank at which a leaf of a port is driven, and the greatest at which it is
        read."""
        field = part.steps[2]
        if part.flow == "source":
            return ABOVE, self.read
        if field == "clk":
            return LEAST, self.clock
        rank = self.picks if field in ("addr", "en", "wmode") else self.written
        return rank, rank


class MemoryMaker(RankedMaker):
    """Makes a circuit. `mixes_clocks` tells whether the ports of a memory take any clocks."""

    mixes_clocks = False

    def words_type(self):
        """A type of a memory's words, whose widths are all written."""
        given = self.pick(given for given in self.types if 1 < leaf_count(given) <= 4)
        if given is None or self.chance.random() < 0.6:
            given = self.ground(NUMBERS)
        return mapped(given, lambda ground: Ground(
            ground.kind if ground.kind in NUMBERS else "UInt",
            self.some_width() if ground.width is None else ground.width))

    def mem(self):
        """A memory with its clocks."""
        data = self.without_flips(self.words_type())
        depths = [depth for depth in DEPTHS if depth * leaf_count(data) <= MOST_WORDS]
        depth, latency = self.chance.choice(depths or [1]), self.chance.randrange(2)
        ports, fields = self.fields_of_ports(), [["data-type", "=>", *tokens_of(data)]]
        fields += [["depth", "=>", depth], ["read-latency", "=>", latency],
                   ["write-latency", "=>", 1]]
        under = self.chance.choice(UNDERS)
        fields += [["read-under-write", "=>", under]] * bool(under) + ports
        self.chance.shuffle(fields)
        face = Bundle(tuple(Field(port, True, memory_port(word, data, depth))
                            for word, _, *names in fields if word in KINDS for port in names))
        name = self.declare(self.head)
        clocks = [self.clock_of_port()] * len(face.fields)
        if self.mixes_clocks:
            clocks = [self.clock_of_port() for _ in face.fields]
        self.show_memory(name, face, latency, clocks)
        lines = [Line(["mem", name, ":"], [Line(field) for field in fields])]
        for field, clock in zip(face.fields, clocks):
            port = [name, ".", field.name, ".", "clk"]
            lines.append(Line([*port, "<=", *clock[0]] if clock else [*port, "is", "invalid"]))
        return lines

    def without_flips(self, given):
        if isinstance(given, Bundle):
            return Bundle(tuple(field._replace(is_flipped=False,
                                               type=self.without_flips(field.type))
                                for field in given.fields))
        if isinstance(given, Ground):
            return given
        return given._replace(element=self.without_flips(given.element))

    def fields_of_ports(self):
        """Fields with one or two ports each."""
        names = self.chance.sample(sorted(set(FIELDS) - set("0 1 7 07 007 10".split())),
                                   self.chance.choice([0, 1, 1, 2, 2, 3, 4]))
        fields = []
        while names:
            count = self.chance.choice([1, 1, 2])
            fields.append([self.chance.choice(KINDS), "=>", *names[:count]])
            names = names[count:]
        return fields

    def clock_of_port(self):
        """The tokens of a clock that is there, and its rank; or now and then none."""
        clocks = [spot for spot in self.spots() if spot.type == Ground("Clock")]
        if not clocks or self.chance.random() < 0.05:
            return None
        spot = self.chance.choice(clocks)
        return self.reference(spot, 0), self.high(spot)

    def show_memory(self, name, face, latency, clocks):
        picks = self.some_rank(0, 0.9)
        written = self.chance.choice([self.some_rank(0, 0.9), WRITTEN])
        clock = max([picks] + [rank + HIGHER for _, rank in filter(None, clocks)])
        self.memory = Ranks(picks, written, clock, FIRST if latency else picks + HIGHER)
        self.show(name, face, "source")
        self.memory = None

    def owe(self, spot, depth):
        """Of a memory the fields of its ports one by one, without the clocks."""
        if self.memory is None:
            super().owe(spot, depth)
            return
        for port in parts(spot):
            for field in parts(port):
                if field.steps[-1] != "clk":
                    super().owe(field, depth)
