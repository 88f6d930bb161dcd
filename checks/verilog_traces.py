"""A second reading of traces: the words of the state that `init` lines give, and the ticks, up to
the first line that is out of form."""
import re
from typing import NamedTuple

LONGEST = 4096
INIT = re.compile(rb"init")
NAME = re.compile(rb"[A-Za-z_][A-Za-z0-9_$]*")
DECIMAL = re.compile(rb"[0-9]+")
HEXADECIMAL = re.compile(rb"[0-9a-fA-F]+")
CLOCKS = re.compile(rb"-|[0-9]+(?:,[0-9]+)*")


class BadLine(Exception):
    """A line that is out of form; its one argument is the fault's line, in bytes."""


class Shape(NamedTuple):
    """What a trace speaks of: the widths of the inputs, how many clocks there are, and by name the
    widths of the registers, and the widths and depths of the arrays."""
    inputs: list
    clocks: int
    registers: dict
    arrays: dict


class Tick(NamedTuple):
    """The numbers of the clocks that rise, and the values of the inputs."""
    rising: list
    inputs: list


class TraceReader:
    """Reads a trace of that shape. `init` has by name and address, or None, what was given."""

    def __init__(self, shape, content):
        self.shape, self.init = shape, {}
        self.lines = content.split(b"\n")
        if not self.lines[-1]:
            self.lines.pop()

    def ticks(self):
        """The ticks one by one; at the first bad line BadLine. All of `init` is read before the
        first tick is given, and where there is none, before the end."""
        has_ticked = False
        for at, line in enumerate(self.lines, 1):
            if len(line) > LONGEST:
                raise BadLine(b"X05 %d" % at)
            if not line or line.startswith(b"#"):
                continue
            words = line.split(b" ")
            if words[0] == b"init":
                self.take_init(at, words, has_ticked)
            else:
                has_ticked = True
                yield self.tick(at, words)

    def spelled(self, at, words, forms):
        """Sees that each word of a line has its form."""
        for place, (word, form) in enumerate(zip(words, forms), 1):
            if not form.fullmatch(word):
                raise BadLine(b"X01 %d word %d" % (at, place))

    def value(self, at, place, word, width):
        value = int(word, 16)
        if value >> width:
            raise BadLine(b"X03 %d word %d width %d" % (at, place, width))
        return value

    def take_init(self, at, words, has_ticked):
        if len(words) not in (3, 4):
            raise BadLine(b"X02 %d words %d of %d" % (at, len(words), 3 if len(words) < 3 else 4))
        if has_ticked:
            raise BadLine(b"X01 %d word 1" % at)
        addresses = words[2:-1]
        self.spelled(at, words, [INIT, NAME, *[DECIMAL for _ in addresses], HEXADECIMAL])
        name, table = words[1], self.shape.arrays if addresses else self.shape.registers
        if name not in table:
            raise BadLine(b"X04 %d name %s" % (at, name))
        width, address = table[name], None
        if addresses:
            (width, depth), address = table[name], int(addresses[0])
            if address >= depth:
                raise BadLine(b"X04 %d name %s" % (at, addresses[0]))
        self.init[name, address] = self.value(at, len(words), words[-1], width)

    def tick(self, at, words):
        wanted = 1 + len(self.shape.inputs)
        if len(words) != wanted:
            raise BadLine(b"X02 %d words %d of %d" % (at, len(words), wanted))
        self.spelled(at, words, [CLOCKS] + [HEXADECIMAL] * len(self.shape.inputs))
        numbers = [] if words[0] == b"-" else words[0].split(b",")
        rising = [int(word) for word in numbers]
        if any(first >= second for first, second in zip(rising, rising[1:])):
            raise BadLine(b"X01 %d word 1" % at)
        for word, clock in zip(numbers, rising):
            if clock >= self.shape.clocks:
                raise BadLine(b"X04 %d name %s" % (at, word))
        return Tick(rising, [self.value(at, place, word, width) for place, (word, width)
                             in enumerate(zip(words[1:], self.shape.inputs), 2)])
