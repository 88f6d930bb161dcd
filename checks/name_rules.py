"""A second reading of the rules of names, for texts of the grammar: which names are visible, what
is declared twice, and which modules instantiate each other.

It reads line by line, without trees. In a line of the grammar the names show in the tokens: in
references and expressions each word is one, but behind a dot, where it is a field, and before `(`
or `<`, where it is an operator or a literal. So the order of the text is that of the tokens.
"""
import re
from collections import deque

from grammar_rules import tokens


def place(token):
    return f"{token.line}:{token.column}"


def is_sign(token, *spellings):
    return token is not None and token.kind == "sign" and token.spelling in spellings


def named(ts):
    """The tokens of references and expressions that are names."""
    around = zip([None, *ts], ts, [*ts[1:], None])
    return [token for before, token, behind in around if token.kind == "word"
            and not is_sign(before, ".") and not is_sign(behind, "(", "<")]


def is_invalid(ts):
    return [token.spelling for token in ts] == ["is", "invalid"]


def begins_with_reference(ts):
    behind = ts[1] if len(ts) > 1 else None
    return is_sign(behind, "<=", "<-", ".", "[") or is_invalid(ts[1:3])


def first_sign(ts, spelling):
    """The index of the first such sign outside of braces, or None."""
    depth = 0
    for i, token in enumerate(ts):
        if depth == 0 and is_sign(token, spelling):
            return i
        depth += is_sign(token, "{") - is_sign(token, "}")
    return None


def lines_of(ts):
    """Each line's tokens, and how many levels are open there."""
    depth, line = 0, []
    for token in ts:
        depth += {"in": 1, "out": -1}.get(token.kind, 0)
        if token.kind == "nl":
            yield depth, line
            line = []
        elif token.kind not in ("in", "out"):
            line.append(token)


class Names:
    """The faults of a text's names. `faults` has those of E08 and E09 in the order of the text, and
    `instances` for each module its instances as (place, module), in this order too."""

    def __init__(self, text):
        lines = list(lines_of(tokens(text)[0]))
        self.all_modules = {line[1].spelling for depth, line in lines if depth == 1}
        self.faults, self.modules, self.instances = [], {}, {}
        # Of the module that is read: the place of each name, over all blocks; the names that each
        # open level has shown; and of a memory the levels that are open there, and its ports.
        self.declared, self.levels = {}, []
        self.memory, self.ports = None, {}
        for depth, line in lines:
            self.line(depth, line)

    def line(self, depth, ts):
        del self.levels[depth:]
        if len(self.levels) < depth:
            self.levels.append(set())
        if self.memory is not None and depth > self.memory:
            self.field(ts)
            return
        self.memory = None
        if depth == 0 and ts[0].spelling == "circuit":
            self.circuit = ts[1]
        elif depth == 1:
            self.once(self.modules, ts[1])
            self.here, self.declared = ts[1].spelling, {}
            self.instances.setdefault(self.here, [])
        elif depth > 1:
            self.statement(depth, ts)

    def once(self, places, token):
        """Sees that a name is declared once, among those whose places are known."""
        first = places.setdefault(token.spelling, place(token))
        if first != place(token):
            self.faults.append(f"E09 {place(token)} twice {token.spelling} {first}")

    def declare(self, token):
        self.once(self.declared, token)

    def show(self, token):
        """From here to the end of its block a name is visible."""
        self.levels[-1].add(token.spelling)

    def use(self, ts):
        for token in named(ts):
            if not any(token.spelling in level for level in self.levels):
                self.faults.append(f"E08 {place(token)} unknown {token.spelling}")

    def types(self, ts):
        """Sees that each field of a bundle is declared once: what stands there before a colon."""
        bundles = []
        for token, behind in zip(ts, [*ts[1:], None]):
            if is_sign(token, "{"):
                bundles.append({})
            elif is_sign(token, "}"):
                bundles.pop()
            elif is_sign(behind, ":"):
                self.once(bundles[-1], token)

    def field(self, ts):
        """A field of a memory, whose ports have names of their own over all three kinds."""
        if ts[0].spelling == "data-type":
            self.types(ts[2:])
        elif ts[0].spelling in ("reader", "writer", "readwriter"):
            for token in ts[2:]:
                self.once(self.ports, token)

    def statement(self, depth, ts):
        word = ts[0].spelling
        if begins_with_reference(ts):
            self.use(ts[:-2] if is_invalid(ts[-2:]) else ts)
        elif word == "reset" and is_sign(ts[1], "=>"):
            self.use(ts[2:])
        elif word in ("when", "else"):
            is_condition = word == "when" or ts[1].spelling == "when"
            self.use(ts[1 if word == "when" else 2:-1] if is_condition else [])
        elif word == "reg":
            self.register(ts)
        elif word != "skip":
            self.declaration(depth, word, ts)

    def declaration(self, depth, word, ts):
        self.declare(ts[1])
        if word == "node":
            self.use(ts[3:])
        elif word == "inst":
            self.instance(ts[1], ts[3])
        elif word == "mem":
            self.memory, self.ports = depth, {}
        else:
            self.types(ts[3:])
        self.show(ts[1])

    def instance(self, token, module):
        self.instances[self.here].append((place(token), module.spelling))
        if module.spelling not in self.all_modules:
            self.faults.append(f"E08 {place(module)} unknown {module.spelling}")

    def register(self, ts):
        """A register: its name, type and clock; it is visible from its reset on, which stands
        behind `with :` or is a line of its own."""
        self.declare(ts[1])
        comma = first_sign(ts, ",")
        self.types(ts[3:comma])
        rest = ts[comma + 1:]
        colon = first_sign(rest, ":")
        self.use(rest if colon is None else rest[:colon - 1])
        self.show(ts[1])
        arrow = first_sign(rest, "=>")
        self.use(rest[arrow + 1:] if arrow is not None else [])

    def first(self):
        """The line of the first fault, E08 to E10, or None."""
        name = self.circuit.spelling
        if not self.faults and name not in self.modules:
            return f"E10 {place(self.circuit)} no module {name}"
        return self.faults[0] if self.faults else None

    def steps_back(self, module):
        """How many instances a shortest walk from the module to itself goes by, or None."""
        far, work = {module: 0}, deque([module])
        while work:
            here = work.popleft()
            for _, there in self.instances.get(here, []):
                if there == module:
                    return far[here] + 1
                if there not in far:
                    far[there] = far[here] + 1
                    work.append(there)
        return None

    def is_recursive(self):
        return any(self.steps_back(module) for module in self.instances)

    def is_walk(self, line):
        """Whether the line is that of E11 for a closed walk of modules: none stands in it twice but
        the ends, it is a shortest from its first module, and its place is the first instance there
        of the next one."""
        found = re.fullmatch(r"E11 (\d+:\d+) recursive (.+)", line)
        walk = found[2].split(" > ") if found else [None]
        if len(walk) < 2 or walk[0] != walk[-1] or len(set(walk)) < len(walk) - 1:
            return False
        firsts = [next((at for at, child in self.instances.get(module, []) if child == then), None)
                  for module, then in zip(walk, walk[1:])]
        return all(firsts) and found[1] == firsts[0] and self.steps_back(walk[0]) == len(walk) - 1
