"""A second reading of on which nets and registers each one depends within a tick, and of the closed
walks among them (V06), for a text of the Verilog subset in which no other fault stands."""
import re

from verilog_grammar import Assign, Concat, Name, Repeat, Resetting, Select


def names_in(atom):
    """The names that an atom reads."""
    if isinstance(atom, Name):
        return [atom.text]
    if isinstance(atom, Select):
        return [atom.name.text]
    if isinstance(atom, Repeat):
        return names_in(atom.part)
    return [name for part in atom.parts for name in names_in(part)] if isinstance(atom, Concat) else []


class Walks:
    """What each net, and each register with an asynchronous reset, reads; and at which item."""

    def __init__(self, items):
        self.reads, self.at = {}, {}
        for item in items:
            if isinstance(item, Assign):
                reads = [name for operand in item.side.operands for name in names_in(operand.atom)]
            elif isinstance(item, Resetting):
                reads = [item.net.text]
            else:
                continue
            self.reads[item.target.text], self.at[item.target.text] = reads, item.at

    def shortest(self, first):
        """A shortest closed walk that begins with that name, which stands at its end again; or
        None."""
        before, now = {}, [first]
        while now:
            later = []
            for here in now:
                for there in self.reads[here]:
                    if there == first:
                        return self.back(before, here, first) + [first]
                    if there in self.reads and there not in before:
                        before[there] = here
                        later.append(there)
            now = later
        return None

    def back(self, before, here, first):
        walk = [here]
        while walk[-1] != first:
            walk.append(before[walk[-1]])
        return walk[::-1]

    def line(self):
        """The line of a shortest walk through the first item that is on one; or None."""
        for first, at in self.at.items():
            walk = self.shortest(first)
            if walk:
                return f"V06 {at} loop {' <- '.join(walk)}"
        return None

    def is_told(self, line):
        """Whether the line is that of V06 for a closed walk that begins at the place that it says
        and repeats nothing, and than which none through its first name is shorter."""
        found = re.fullmatch(r"V06 (\d+:\d+) loop (.+)", line)
        walk = found[2].split(" <- ") if found else []
        return (len(walk) > 1 and walk[0] == walk[-1] and len(set(walk)) == len(walk) - 1
                and all(name in self.reads for name in walk)
                and str(self.at[walk[0]]) == found[1]
                and all(there in self.reads[here] for here, there in zip(walk, walk[1:]))
                and len(self.shortest(walk[0])) == len(walk))
