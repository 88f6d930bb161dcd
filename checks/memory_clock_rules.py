"""A second reading of the rule of a memory's clocks (E26): the ports that have a clock have one. For
texts in which no fault stands that comes before.

The clock of a port is known by the leaf at which its drivers end in the module of the memory: an
input of that module, or what an instance in it gives. It has none where they end at an invalid, or
never. Told is the fault of the first memory in the text; of one that stands in several modules of
the design that of the first of them, in the order of a walk through the statements from the main
module on.
"""
from clock_rules import in_text
from inference_forms import Declared


def clock_of(source, copy, path):
    """The path of the leaf that a clock leaf of a copy has its clock from, or None."""
    seen = set()
    while path not in seen:
        seen.add(path)
        leaf = source.leaves[path]
        if leaf.is_input() or leaf.copy is not copy:
            return path
        if leaf.word == "node":
            giving, given = copy.module.nodes[leaf.name], leaf.path
        else:
            [(drive, given)] = source.live_drives_of(leaf)
            giving = drive.giving
        if giving is None:
            return None
        path = copy.prefix + giving.path() + given
    return None


def two_clocks(source, copy, name):
    """The first clock that a port of a memory has, and the first other one, or None."""
    paths = [f"{copy.prefix}{name}.{port.name}.clk" for port in copy.module.memories[name].ports]
    clocks = list(filter(None, (clock_of(source, copy, path) for path in paths)))
    other = next((clock for clock in clocks if clock != clocks[0]), None)
    return (clocks[0], other) if other else None


def memory_clock_fault(source):
    """The line of the first fault, or None."""
    found = []
    for copy in source.copies:
        for step in copy.module.steps:
            if isinstance(step, Declared) and step.word == "mem":
                clocks = two_clocks(source, copy, step.name)
                if clocks:
                    line = (f"E26 {step.at} memory clocks {copy.prefix}{step.name} "
                            f"{clocks[0]} {clocks[1]}")
                    found.append((in_text(step.at), copy.number, line))
    return min(found)[-1] if found else None
