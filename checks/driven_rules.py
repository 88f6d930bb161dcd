"""A second reading of which leaves are driven under every choice, for texts in which no fault
stands that comes before E24.

A statement drives leaves on its sides. A driving of a leaf is the outcomes that it takes for a
statement to reach the leaf: of the whens around it from the leaf's declaration inward, outermost
first, and that the statement hits where a dynamic index picks the leaf. A choice leaves a leaf
undriven where each of its drivings lacks an outcome. Nothing is listed of a type, so that the first
fault of large ones is found at once.
"""
from functools import lru_cache
from itertools import product
from typing import NamedTuple

import inference_forms
from cost_rules import leaf_count
from inference_forms import Circuit, Declared, Elements, Reference, type_of
from type_forms import Bundle, Vector

# of how many whens and dynamic writes all choices are tried
MOST_TRIED = 12
# the orientations of the leaves that are sinks and no registers, by the word of the declaration
SINKS = {"output": [False], "input": [True], "wire": [False, True], "inst": [True], "mem": [True]}
OUTCOMES = {"when": ("0", "1"), "index": ("miss", "hit")}


class Fork(NamedTuple):
    """A when or a dynamic write. The order is that of the text. A statement that drives a leaf from
    both its sides through indices is one, so that it is told once."""
    line: int
    column: int
    word: str

    def told(self, outcome):
        return f" {self.word}@{self.line}:{self.column}={OUTCOMES[self.word][outcome]}"


class Side(NamedTuple):
    """A side of a statement that may drive leaves, behind outcomes of the whens around it. The
    sides of a connect have these two types; of an invalid there are none."""
    at: str
    whens: tuple
    driven: Reference
    types: tuple
    is_right: bool


class Leaf(NamedTuple):
    """A leaf that has to be driven: its name and the steps from there, and how many whens hold its
    declaration."""
    at: str
    steps: tuple
    depth: int

    def path(self):
        return "".join(self.steps)


def fork(word, at):
    return Fork(*map(int, at.split(":")), word)


def leaves(given, is_flipped=False):
    """The steps to each leaf, and its orientation, in order."""
    if isinstance(given, Vector):
        for k in range(given.length if leaf_count(given.element) else 0):
            for steps, *rest in leaves(given.element, is_flipped):
                yield (f"[{k}]", *steps), *rest
    elif isinstance(given, Bundle):
        for field in given.fields:
            for steps, *rest in leaves(field.type, is_flipped != field.is_flipped):
                yield (f".{field.name}", *steps), *rest
    else:
        yield (), is_flipped


def field_of(bundle, step):
    return next((field for field in bundle.fields if f".{field.name}" == step), None)


def orientation(one, other, steps):
    """Whether a leaf is flipped that a connect of two types pairs; None where it pairs no such."""
    is_flipped = False
    for step in steps:
        if isinstance(one, Vector):
            if int(step[1:-1]) >= min(one.length, other.length):
                return None
            one, other = one.element, other.element
            continue
        field, beside = field_of(one, step), field_of(other, step)
        if field is None or beside is None:
            return None
        one, other = field.type, beside.type
        is_flipped = is_flipped != field.is_flipped
    return is_flipped


def names(reference, steps):
    """Whether a reference names what has these steps, if its dynamic indices pick it."""
    return len(steps) == len(reference.steps) and all(
        isinstance(step, Elements) or step[0] == text
        for step, text in zip(reference.steps, steps))


def driving(side, leaf):
    """The outcomes that it takes for a side of a statement to drive a leaf, or None."""
    count = len(side.driven.steps)
    if not names(side.driven, leaf.steps[:count]):
        return None
    if side.types and orientation(*side.types, leaf.steps[count:]) != side.is_right:
        return None
    hit = ((fork("index", side.at), True),) if side.driven.indices else ()
    return (*side.whens[leaf.depth:], *hit)


class Module(inference_forms.Module):
    """A module with the sides that may drive leaves, by the name of what these are leaves of."""

    def __init__(self, name, block):
        # where a block is read: the outcomes of the whens around it, and the whens before it of its
        # chain of `else when`; and how many whens hold the declaration of each name
        self.whens, self.before, self.depths = (), [], {}
        self.sides = {}
        super().__init__(name, block)

    def branch(self, line, inner, visible):
        around, word = self.whens, line.peek().spelling
        before = [] if word == "when" else self.before
        at = line.peek(0 if word == "when" else 1)
        here = [Fork(at.line, at.column, "when")] * (at.spelling == "when")
        outcomes = [(when, False) for when in before] + [(when, True) for when in here]
        self.whens = (*around, *outcomes)
        super().branch(line, inner, visible)
        self.whens, self.before = around, before + here

    def declare(self, line, word, at, name, given, data=None):
        self.depths[name] = len(self.whens)
        return super().declare(line, word, at, name, given, data)

    def connect(self, line):
        at, left, how = line.at(), line.reference(), line.take()
        if how == "is":
            self.side(at, left, (), False)
            return
        right = line.expression()
        types = left.type, type_of(right)
        self.side(at, left, types, False)
        if isinstance(right, Reference):
            self.side(at, right, types, True)

    def side(self, at, driven, types, is_right):
        name = driven.steps[0][0]
        self.sides.setdefault(name, []).append(Side(at, self.whens, driven, types, is_right))

    def leaves(self):
        """The leaves that have to be driven, in order."""
        for step in self.steps:
            if isinstance(step, Declared) and step.word in SINKS:
                for steps, is_flipped in leaves(step.type):
                    if is_flipped in SINKS[step.word]:
                        depth = self.depths.get(step.name, 0)
                        yield Leaf(step.at, (step.name, *steps), depth)

    def drivings(self, leaf):
        """The drivings of a leaf, those of the last statements first."""
        for side in reversed(self.sides.get(leaf.steps[0], [])):
            found = driving(side, leaf)
            if found is not None:
                yield found

    def first(self):
        """The line of the module's first fault, or None."""
        for leaf in self.leaves():
            choice = undriven_by(self.drivings(leaf))
            if choice is not None:
                return f"E24 {leaf.at} undriven {leaf.path()}{told(choice)}"
        return None


def told(choice):
    return "".join(one.told(outcome) for one, outcome in choice)


def undriven_by(drivings):
    """The first choice that leaves a leaf of these drivings undriven, or None. What takes no
    outcome drives it under every choice."""
    known = set()
    for one in drivings:
        if not one:
            return None
        known.add(one)
    return first_choice(tuple(sorted(known)))


@lru_cache(None)
def first_choice(drivings):
    forks = {fork for one in drivings for fork, _ in one}
    return (first_of_all if len(forks) <= MOST_TRIED else first_by_turns)(drivings)


def first_of_all(drivings):
    """By trying all choices: what is told of the first that leaves undriven, or None."""
    forks = sorted({fork for one in drivings for fork, _ in one})
    for outcomes in product((False, True), repeat=len(forks)):
        choice = dict(zip(forks, outcomes))
        if not any(holds(choice, one) for one in drivings):
            return [(fork, choice[fork]) for fork in forks if is_reached(choice, fork, drivings)]
    return None


def holds(choice, outcomes):
    return all(choice[fork] == outcome for fork, outcome in outcomes)


def is_reached(choice, fork, drivings):
    """Whether a choice comes to a when or a dynamic write that holds a statement for the leaf."""
    return any(one[k][0] == fork and holds(choice, one[:k])
               for one in drivings for k in range(len(one)))


def first_by_turns(drivings):
    """By taking, one when or dynamic write after the other, the first outcome with which all that
    it holds leaves undriven."""
    if () in drivings:
        return None
    choice, held = [], {}
    for one in drivings:
        held.setdefault(one[0][0], []).append(one)
    for fork in sorted(held):
        found = first_within(fork, held[fork])
        if found is None:
            return None
        choice += found
    return choice


def first_within(fork, drivings):
    for outcome in (False, True):
        found = first_by_turns([one[1:] for one in drivings if one[0][1] == outcome])
        if found is not None:
            return [(fork, outcome), *found]
    return None


def driven_fault(text):
    """The line of the first E24 of a text, or None."""
    modules = Circuit(text, Module).modules.values()
    return next(filter(None, (module.first() for module in modules)), None)
