"""A second reading of the rule of inits (E27): what gives a register with an asynchronous reset its
init hangs on no input of the main module and on no leaf that shows state: a register, or what a
memory gives. For texts in which no fault stands that comes before.

Told is the first such register, by its place, and of several leaves at one place the first in the
order of the design; with a shortest walk from a leaf that its init reads.
"""
import re
from collections import defaultdict, deque

from clock_rules import in_text


class Inits:
    """The first register whose init is no constant, as `leaf`, or None; and how many steps each
    leaf has to the nearest input or leaf that shows state."""

    def __init__(self, source, walks):
        self.source, self.walks = source, walks
        registers = [leaf for leaf in source.leaves.values() if leaf.is_async()]
        self.far = self.steps_to_end() if registers else {}
        wrong = [leaf for leaf in registers if self.firsts(leaf)]
        # of equals min takes the first
        self.leaf = min(wrong, key=lambda leaf: (in_text(leaf.at), leaf.copy.number), default=None)

    def firsts(self, leaf):
        """The leaves that an init reads and from which a walk leads to an input or to state."""
        return set(self.walks.read_by_init(leaf)) & self.far.keys()

    def steps_to_end(self):
        before = defaultdict(list)
        for path in self.source.leaves:
            for there in self.walks.beside(path):
                before[there].append(path)
        far = {path: 0 for path, leaf in self.source.leaves.items()
               if leaf.is_input() or leaf.is_state()}
        work = deque(far)
        while work:
            here = work.popleft()
            for there in before[here]:
                if there not in far:
                    far[there] = far[here] + 1
                    work.append(there)
        return far

    def is_told(self, line):
        """Whether the line is that of E27 for such a walk of the first register."""
        found = re.fullmatch(r"E27 (\d+:\d+) async init (.+)", line)
        if not found or found[1] != self.leaf.at:
            return False
        walk, firsts = found[2].split(" <- "), self.firsts(self.leaf)
        steps = list(range(len(walk) - 1, -1, -1))
        return (walk[0] in firsts and [self.far.get(path) for path in walk] == steps
                and self.far[walk[0]] == min(self.far[first] for first in firsts)
                and all(there in self.walks.beside(here) for here, there in zip(walk, walk[1:])))
