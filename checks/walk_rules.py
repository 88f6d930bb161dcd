"""A second reading of on which leaves each leaf of a design hangs within a tick, and of the walks
on which one hangs on itself, for texts in which no fault stands that comes before E28."""
import re

from inference_forms import CHOICES, Literal, Reference
from source_rules import whens_from


class Walks:
    """On which leaves each leaf hangs within a tick."""

    def __init__(self, source):
        self.source, self.known = source, {}

    def beside(self, path):
        if path not in self.known:
            self.known[path] = frozenset(self.found(self.source.leaves[path]))
        return self.known[path]

    def found(self, leaf):
        if leaf.word == "node":
            return self.read(leaf.copy, leaf.copy.module.nodes[leaf.name], leaf.path)
        if leaf.is_async():
            return [*self.read(leaf.copy, leaf.register().condition), *self.read_by_init(leaf)]
        if leaf.word == "reading":
            ones, zeros = leaf.needs()
            return [f"{leaf.port()}.{field}" for field in ["addr", *ones, *zeros]]
        return self.driving(leaf) if leaf.is_sink() else ()

    def read_by_init(self, leaf):
        """The leaves that the init of a register's leaf reads."""
        return self.read(leaf.copy, leaf.register().init, leaf.path)

    def driving(self, leaf):
        """What the statements read that some choice leaves last for a leaf."""
        for drive, given in self.source.live_drives_of(leaf):
            whens = whens_from(drive, leaf)
            for read in [when.condition for when in whens] + list(drive.driven.indices):
                yield from self.read(leaf.copy, read)
            if drive.giving is not None:
                yield from self.read(leaf.copy, drive.giving, given)

    def read(self, copy, expression, path=""):
        """The leaves that a leaf of an expression in a copy reads."""
        if isinstance(expression, Literal):
            return
        if isinstance(expression, Reference):
            for index in expression.indices:
                yield from self.read(copy, index)
            for within in expression.paths():
                yield copy.prefix + within + path
        elif expression.word in CHOICES:
            yield from self.read(copy, expression.operands[0])
            for arm in expression.operands[1:]:
                yield from self.read(copy, arm, path)
        else:
            for operand in expression.operands:
                yield from self.read(copy, operand)

    def has_walk(self):
        """Whether some leaf hangs on itself."""
        done, open_now = set(), set()
        for first in self.source.leaves:
            if first in done:
                continue
            work = [(first, iter(self.beside(first)))]
            open_now.add(first)
            while work:
                here, rest = work[-1]
                there = next(rest, None)
                if there is None:
                    work.pop()
                    open_now.discard(here)
                    done.add(here)
                elif there in open_now:
                    return True
                elif there not in done:
                    open_now.add(there)
                    work.append((there, iter(self.beside(there))))
        return False

    def is_told(self, line):
        """Whether the line is that of E28 for such a walk."""
        found = re.fullmatch(r"E28 (\d+:\d+) loop (.+)", line)
        walk = found[2].split(" <- ") if found else []
        return (len(walk) > 1 and walk[0] == walk[-1] and len(set(walk)) == len(walk) - 1
                and all(path in self.source.leaves for path in walk)
                and self.source.leaves[walk[0]].at == found[1]
                and all(there in self.beside(here) for here, there in zip(walk, walk[1:])))
