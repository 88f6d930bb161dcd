"""A second reading of the rules of clocks (E25): of a clock leaf exactly one statement is live, and
no dynamic index picks a clock. For texts in which no fault stands that comes before.

Told is the fault of the first declaration in the text; of one that stands in several modules of the
design that of the first of them, in the order of a walk through the statements from the main module
on.
"""
from inference_forms import Reference


def in_text(at):
    return tuple(map(int, at.split(":")))


def index_places(expression):
    """Where the dynamic indices of a reference stand."""
    if isinstance(expression, Reference):
        return [index.at for index in expression.indices]
    return []


def picked_by(places):
    """The evidence of indices that pick a clock, or None where there is none."""
    return (min(places, key=in_text),) * 2 if places else None


def evidence(source, leaf):
    """The places that are told of a leaf, or None where its clock is clear."""
    if leaf.word == "reg":
        return picked_by(index_places(leaf.register().clock))
    if not leaf.is_clock():
        return None
    if leaf.word == "node":
        return picked_by(index_places(leaf.copy.module.nodes[leaf.name]))
    if not leaf.is_sink():
        return None
    live = [drive for drive, _ in source.live_drives_of(leaf)]
    places = [at for drive in live
              for at in index_places(drive.driven) + index_places(drive.giving)]
    if places or len(live) < 2:
        return picked_by(places)
    return live[-1].at, live[-2].at


def clock_fault(source):
    """The line of the first fault, or None."""
    found = []
    for number, (path, leaf) in enumerate(source.leaves.items()):
        places = evidence(source, leaf)
        if places:
            told = leaf.copy.prefix + leaf.name if leaf.word == "reg" else path
            line = f"E25 {leaf.at} clock {told} {places[0]} {places[1]}"
            found.append((in_text(leaf.at), leaf.copy.number, number, line))
    return min(found)[-1] if found else None
