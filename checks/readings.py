"""What the second readings say of a text of the grammar, in the order in which firc tells faults:
those of names, of modules that instantiate each other, of types and flows, of resets and widths,
of costs, of leaves that a choice leaves undriven, of clocks, of the clocks of memories, of the inits
of asynchronous resets, then a walk on which a leaf hangs on itself."""
import math
import re

from clock_rules import clock_fault
from cost_rules import cost_fault
from driven_rules import driven_fault
from inference_rules import Inferred
from init_rules import Inits
from memory_clock_rules import memory_clock_fault
from name_rules import Names
from source_rules import Source
from type_rules import Types
from walk_rules import Walks

OF_WIDTHS = "|E1[89] .*|E2[0-2] .*"
OF_LEAVES = "|E2[4-8] .*"
# The readings of resets, widths and leaves list each element of each vector.
MOST_ELEMENTS = 10000


def is_large(text):
    """Whether the vectors of a text may have more elements together than can be listed: those of a
    line at most the product of the numbers in square brackets there."""
    lines = ([int(digits) for digits in re.findall(r"\[\s*(\d+)\s*\]", line)]
             for line in text.splitlines())
    return sum(math.prod(max(1, length) for length in line) for line in lines) > MOST_ELEMENTS


class Reading:
    """The line that firc has to tell of a text. `line` is None where it is one of several, a walk
    of E11, E18, E27 or E28, and where there is no fault. Of a text with large vectors faults of
    resets, widths and leaves are not known: `others` tells that one may come first. Where there is
    no fault, `source` is what the text means."""

    def __init__(self, text):
        self.names = Names(text)
        self.line, self.is_recursive, self.inferred = self.names.first(), False, None
        self.inits = self.walks = self.source = None
        self.others = ""
        if self.line is None:
            self.is_recursive = self.names.is_recursive()
        if self.line is None and not self.is_recursive:
            self.line = Types(text).fault or self.behind_types(text)

    def behind_types(self, text):
        if is_large(text):
            cost = cost_fault(text)
            self.others = OF_WIDTHS if cost else OF_WIDTHS + OF_LEAVES
            return cost
        inferred = Inferred(text)
        if inferred.code() == "E18":
            self.inferred = inferred
            return None
        line = inferred.line or cost_fault(text) or driven_fault(text)
        if line is None:
            source = Source(text)
            line = clock_fault(source) or memory_clock_fault(source)
            if line is None:
                self.judge_walks(source)
        return line

    def judge_walks(self, source):
        walks = Walks(source)
        inits = Inits(source, walks)
        if inits.leaf:
            self.inits = inits
        elif walks.has_walk():
            self.walks = walks
        else:
            self.source = source

    def pattern(self):
        """The line as a pattern, which is empty where there is no fault."""
        if self.is_recursive:
            return "E11 .*"
        if self.inferred:
            return "E18 .*"
        if self.inits:
            return "E27 .*"
        if self.walks:
            return "E28 .*"
        return re.escape(self.line or "") + self.others

    def takes(self, says):
        """Whether this may be told; a walk is judged."""
        if not re.fullmatch(self.pattern(), says):
            return False
        if self.is_recursive:
            return self.names.is_walk(says)
        if self.inits or self.walks:
            return (self.inits or self.walks).is_told(says)
        return not self.inferred or self.inferred.takes(says)

    def __str__(self):
        if self.is_recursive:
            return "E11 of a walk"
        if self.inferred:
            return str(self.inferred)
        if self.inits:
            return f"E27 of a walk from the init at {self.inits.leaf.at}"
        if self.walks:
            return "E28 of a walk"
        return self.line or "no fault"
