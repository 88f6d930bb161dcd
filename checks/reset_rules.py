"""A second reading of the rules of resets, for texts whose names and types are right: whether a
walk joins a UInt and an AsyncReset through Reset leaves, whether a line shows such a walk, and
which resets are asynchronous."""
import re
from collections import defaultdict, deque
from itertools import product
from typing import NamedTuple

from inference_forms import Declared, Joined, Reference, leaves, matched, type_of
from type_forms import Bundle, Vector

RESETS = ("UInt", "AsyncReset", "Reset")


class Item(NamedTuple):
    """A leaf of a module by its path, or a leaf of an expression, by the expression's place and its
    path within that."""
    module: str
    place: str
    path: str
    kind: str

    def __str__(self):
        return self.place or self.path


def vectors(given):
    """The path of each vector in a type, and that vector."""
    if isinstance(given, Vector):
        yield "", given
        for k in range(given.length):
            for path, vector in vectors(given.element):
                yield f"[{k}]{path}", vector
    elif isinstance(given, Bundle):
        for field in given.fields:
            for path, vector in vectors(field.type):
                yield f".{field.name}{path}", vector


class Resets:
    """What joins what in a circuit. `declared` has the place of each leaf's declaration. The same
    leaves of two elements of a vector are joined."""

    def __init__(self, circuit):
        self.beside, self.declared = defaultdict(set), {}
        for module in circuit.modules.values():
            for step in module.steps:
                if isinstance(step, Declared):
                    self.declare(module, step)
                elif isinstance(step, Joined) and step.how != "init":
                    self.connect(module.name, step.driven, step.giving)
            for step in module.steps:
                if isinstance(step, Declared) and step.word == "inst":
                    self.instance(module, step)
        self.far = self.steps_to_end()

    def join(self, one, other):
        """Joins two items, where a Reset leaf is one of them and the other may be on a walk."""
        kinds = {one.kind, other.kind}
        if "Reset" in kinds and kinds <= set(RESETS) and one != other:
            self.beside[one].add(other)
            self.beside[other].add(one)

    def declare(self, module, step):
        for path, ground, _ in leaves(step.type):
            item = Item(module.name, "", step.name + path, ground.kind)
            self.declared[item] = step.at
        for same in self.elements(step):
            items = [Item(module.name, "", path, kind) for path, kind in same]
            for one, other in product(items, items):
                self.join(one, other)

    def elements(self, step):
        """The lists of leaves of a declaration that elements of a vector have alike."""
        return [[(f"{step.name}{path}[{k}]{within}", ground.kind) for k in range(vector.length)]
                for path, vector in vectors(step.type)
                for within, ground, _ in leaves(vector.element)]

    def instance(self, module, step):
        """Joins the leaves of an instance to those of its module's ports."""
        child = module.instances[step.name]
        for path, ground, _ in leaves(step.type):
            self.join(Item(module.name, "", step.name + path, ground.kind),
                      Item(child, "", path[1:], ground.kind))

    def connect(self, module, driven, giving):
        for path, one, other, _ in matched(driven.type, type_of(giving)):
            for left in self.items(module, driven, path, one.kind):
                for right in self.items(module, giving, path, other.kind):
                    self.join(left, right)

    def items(self, module, expression, path, kind):
        """As what a leaf of an expression may stand in a walk. Through a dynamic index a Reset is
        that leaf of each element; another kind is also the expression itself."""
        if not isinstance(expression, Reference):
            return [Item(module, expression.at, path, kind)]
        items = [Item(module, "", within + path, kind) for within in expression.paths()]
        if expression.indices and kind != "Reset":
            items.append(Item(module, expression.at, path, kind))
        return items

    def steps_to_end(self):
        """Of each item that is no AsyncReset how many steps a shortest walk has from it to an
        AsyncReset, through Reset leaves; without those that have no such walk."""
        far = {item: 0 for item in self.beside if item.kind == "AsyncReset"}
        work = deque(far)
        while work:
            here = work.popleft()
            if here.kind == "UInt":
                continue
            for there in self.beside[here]:
                if there not in far:
                    far[there] = far[here] + 1
                    work.append(there)
        return far

    def has_fault(self):
        return any(item.kind == "UInt" for item in self.far)

    def acts_at_once(self, module, condition):
        """Whether the condition of a reset in a module is asynchronous, or is inferred so."""
        kind = type_of(condition).kind
        items = self.items(module, condition, "", kind)
        return kind == "AsyncReset" or kind == "Reset" and any(item in self.far for item in items)

    def is_shown(self, line, is_shortest=False):
        """Whether the line is that of E18 for a walk from a UInt to an AsyncReset through Reset
        leaves, which has none twice; if asked for, also one of the shortest that begin so. Its
        place is the declaration of its first Reset leaf."""
        found = re.fullmatch(r"E18 (\d+:\d+) resets (.+)", line)
        texts = found[2].split(" - ") if found else [None]
        firsts = [item for item in self.far if item.kind == "UInt" and str(item) == texts[0]]
        return any(self.goes_on([first], texts, found[1]) for first in firsts
                   if not is_shortest or self.far[first] == len(texts) - 1)

    def goes_on(self, walk, texts, place):
        """Whether a walk that has begun so is one of these texts, whose place is right."""
        if len(walk) == len(texts):
            return walk[-1].kind == "AsyncReset" and self.declared[walk[1]] == place
        wants = "AsyncReset" if len(walk) == len(texts) - 1 else "Reset"
        return any(self.goes_on([*walk, item], texts, place) for item in self.beside[walk[-1]]
                   if item.kind == wants and str(item) == texts[len(walk)] and item not in walk)
