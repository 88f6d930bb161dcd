"""A second reading of which leaves a design has, by which statements they are driven, and in which
order: that of the main module and of the instances below it, for texts in which no fault stands
that comes before E24.

Leaves are named by their paths from the main module on, as `core.io.v[2].x`. A port of an instance
is one leaf: an input is driven in the module that has the instance, an output in the module of it.
"""
import re
from functools import lru_cache
from itertools import groupby
from typing import NamedTuple

import inference_forms
from driven_rules import Fork, undriven_by
from inference_forms import (Asked, Circuit, Declared, Elements, Entered, Reference, Stands, leaves,
                             matched, type_of)
from operators import Type
from reset_rules import Resets
from type_forms import Ground
from width_rules import Widths, held


class Register(NamedTuple):
    """Its clock; the condition and the init of its reset, or None twice; and whether the reset is
    asynchronous."""
    clock: object
    condition: object = None
    init: object = None
    is_async: bool = False


class When(NamedTuple):
    """A when and which of its blocks."""
    at: str
    condition: object
    outcome: bool


class Drive(NamedTuple):
    """A side of a statement that may drive leaves: where the statement stands, the whens around it,
    what is driven, what gives, or None of an invalid, and the paths of the leaves in both. Where
    pairs of leaves go this way and that in turn, there is one for each turn."""
    at: str
    whens: tuple
    driven: Reference
    giving: object
    paths: dict


class Copy:
    """A module of the design: its number in the order in which a walk through the statements from
    the main module on meets them, what stands before the paths of its leaves, and the module."""

    def __init__(self, prefix, module):
        self.number, self.prefix, self.module = None, prefix, module


class Leaf(NamedTuple):
    """A ground leaf: the word of its declaration, its place, the copy in which it is driven or, if
    nothing drives it, declared; its name there, the path behind that, its type, and how many whens
    stand round the declaration. The word of an input of an instance is `inst`, that of an output
    `output`; a flipped leaf of an output of the main module has `input`. What a memory's port reads
    has `reading`, where that is read at once, or `pipe`; all else of the port has `mem`."""
    word: str
    at: str
    copy: Copy
    name: str
    path: str
    ground: Ground
    depth: int

    def is_clock(self):
        return self.ground.kind == "Clock"

    def is_input(self):
        """Of the main module."""
        return self.word == "input"

    def is_sink(self):
        """What statements drive, registers apart."""
        return self.word in ("inst", "output", "wire", "mem")

    def is_state(self):
        """Whether it shows state, at once or by what it reads of a memory."""
        return self.word in ("reg", "reading", "pipe")

    def type(self):
        return Type(self.ground.kind == "SInt", held(self.ground))

    def local(self):
        """Its path in the module of its copy."""
        return self.name + self.path

    def register(self):
        """The register that it is a leaf of."""
        return self.copy.module.registers[self.name]

    def is_async(self):
        """Of a register with an asynchronous reset."""
        return self.word == "reg" and self.register().is_async

    def memory(self):
        """The memory whose port it is a leaf of."""
        return self.copy.module.memories[self.name]

    def port(self):
        """The path of that port in the design."""
        return self.copy.prefix + self.name + parted(self.path)[0]

    def within(self):
        """Its path in the words of the memory."""
        return "".join(parted(self.path)[2:])

    def needs(self):
        """Of what a port reads: the fields of the port that have to be 1, and those that have to be
        0, for a word to be read."""
        is_both = parted(self.path)[1] == ".rdata"
        return ["en"], ["wmode"] if is_both else []


class Array(NamedTuple):
    """A leaf of a memory's words in a copy: the memory's name, the path of the leaf in its words,
    its type, and where its words begin among those of all arrays."""
    copy: Copy
    name: str
    within: str
    ground: Ground
    begin: int

    def path(self):
        return self.copy.prefix + self.name + self.within

    def width(self):
        return held(self.ground)

    def memory(self):
        return self.copy.module.memories[self.name]

    def writes(self):
        """The paths of its memory's ports that write, in their order, each with its fields that have
        to be 1, among them the mask, and that of what is written."""
        for port in self.memory().ports:
            at = f"{self.copy.prefix}{self.name}.{port.name}"
            if port.word == "writer":
                yield at, ["en", "mask" + self.within], "data" + self.within
            elif port.word == "readwriter":
                yield at, ["en", "wmode", "wmask" + self.within], "wdata" + self.within


class Module(inference_forms.Module):
    """A module with all that its leaves take their values from."""

    def __init__(self, name, block):
        # of the block that is read: the whens around it, and those before it of its chain of
        # `else when`; and of each name how many whens hold its declaration
        self.whens, self.chain, self.depths = (), (), {}
        self.nodes, self.registers, self.drives = {}, {}, []
        super().__init__(name, block)

    def branch(self, line, inner, visible):
        around = self.whens
        is_else = line.peek().spelling == "else"
        chain = self.chain if is_else else ()
        line.skip(is_else)
        here = []
        if line.peek().spelling == "when":
            at, condition = line.at(), line.skip(1).expression()
            here = [When(at, condition, True)]
            self.steps += [Entered(), Asked(condition)]
        before = tuple(when._replace(outcome=False) for when in chain)
        self.whens = (*around, *before, *here)
        self.block(inner, visible)
        self.whens, self.chain = around, (*chain, *here)

    def declare(self, line, word, at, name, given, data=None):
        self.depths[name] = len(self.whens)
        return super().declare(line, word, at, name, given, data)

    def connect(self, line):
        at, left, how = line.at(), line.reference(), line.take()
        self.steps.append(Stands(left))
        if how == "is":
            both = {path: path for path, _, _ in leaves(left.type)}
            self.drives.append(Drive(at, self.whens, left, None, both))
            return
        right = line.expression()
        self.steps += [Stands(right), inference_forms.Joined(how, left, right)]
        for is_flipped, pairs in groupby(matched(left.type, type_of(right)), lambda pair: pair[3]):
            driven, giving = (right, left) if is_flipped else (left, right)
            paths = {path: path for path, *_ in pairs}
            self.drives.append(Drive(at, self.whens, driven, giving, paths))

    def node(self, line, at, name, inner):
        start = line.i
        self.nodes[name] = line.skip(1).expression()
        line.i = start
        super().node(line, at, name, inner)

    def reg(self, line, at, name, inner):
        start = line.i
        line.skip(1).type()
        clock = line.skip(1).expression()
        self.registers[name] = Register(clock)
        line.i = start
        seen = len(self.steps)
        super().reg(line, at, name, inner)
        asked = [step.expression for step in self.steps[seen:] if isinstance(step, Asked)]
        if asked:
            init = self.steps[-1].giving
            self.registers[name] = Register(clock, asked[0], init)

    def know_kinds(self, resets):
        """Takes from what is inferred which registers have an asynchronous reset."""
        for name, register in self.registers.items():
            condition = register.condition
            if condition is not None and resets.acts_at_once(self.name, condition):
                self.registers[name] = register._replace(is_async=True)


def is_input(port, is_flipped):
    return port.word == ("output" if is_flipped else "input")


class Source:
    """The design of a text."""

    def __init__(self, text):
        circuit = Circuit(text, Module)
        Widths(circuit)
        resets = Resets(circuit)
        self.name, self.modules = circuit.main, circuit.modules
        for module in self.modules.values():
            module.know_kinds(resets)
        # leaves by their paths in the order of their numbers; and in that of the statements words
        # of the state, and behind them arrays by their copies, memories and paths within
        self.copies, self.leaves, self.known_drives = [], {}, {}
        self.words, self.arrays = [], {}
        main = Copy("", self.modules[self.name])
        for port in main.module.ports:
            for path, ground, is_flipped in leaves(port.type):
                word = "input" if is_input(port, is_flipped) else "output"
                self.declare("", Leaf(word, port.at, main, port.name, path, ground, 0))
        ports = list(self.leaves.items())
        self.enter(main)
        self.ports = [path for path, _ in ports]
        self.inputs = [path for path, leaf in ports
                       if leaf.is_input() and not leaf.is_clock() and leaf.type().width]
        self.clocks = [path for path, leaf in ports if leaf.is_input() and leaf.is_clock()]
        self.outputs = [path for path, leaf in ports
                        if not leaf.is_input() and not leaf.is_clock() and leaf.type().width]
        self.clock_outputs = [path for path, leaf in ports
                              if not leaf.is_input() and leaf.is_clock()]

    def declare(self, prefix, leaf):
        self.leaves[prefix + leaf.local()] = leaf

    def enter(self, copy):
        """Lists the leaves of a copy that are no ports of it, and then those of its instances."""
        copy.number, inside = len(self.copies), {}
        self.copies.append(copy)
        declared = [step for step in copy.module.steps[len(copy.module.ports):]
                    if isinstance(step, Declared)]
        for step in declared:
            depth = copy.module.depths[step.name]
            if step.word == "inst":
                of = self.modules[copy.module.instances[step.name]]
                inside[step.name] = Copy(f"{copy.prefix}{step.name}.", of)
                self.face(copy, step, inside[step.name], depth)
                continue
            for path, ground, is_flipped in leaves(step.type):
                word = step.word
                if word == "mem" and not is_flipped:
                    word = "pipe" if copy.module.memories[step.name].latency else "reading"
                self.declare(copy.prefix,
                             Leaf(word, step.at, copy, step.name, path, ground, depth))
        for step in declared:
            if step.word == "inst":
                self.enter(inside[step.name])
            elif step.word in ("reg", "mem"):
                paths = [copy.prefix + step.name + path for path, ground, _ in leaves(step.type)
                         if held(ground)]
                self.words += [path for path in paths
                               if self.leaves[path].word in ("reg", "pipe")]
            if step.word == "mem":
                self.enter_arrays(copy, step.name)

    def enter_arrays(self, copy, name):
        """Lists the arrays of a memory, without those that have no bits."""
        memory = copy.module.memories[name]
        for path, ground, _ in leaves(memory.data):
            if held(ground):
                begin = self.count_of_array_words()
                self.arrays[copy, name, path] = Array(copy, name, path, ground, begin)

    def count_of_array_words(self):
        last = next(reversed(self.arrays.values()), None)
        return last.begin + last.memory().depth if last else 0

    def face(self, copy, step, inside, depth):
        """Declares the leaves of an instance's ports."""
        for port in inside.module.ports:
            for path, ground, is_flipped in leaves(port.type):
                if is_input(port, is_flipped):
                    given = Leaf("inst", step.at, copy, step.name, f".{port.name}{path}", ground,
                                 depth)
                    self.declare(copy.prefix, given)
                else:
                    given = Leaf("output", port.at, inside, port.name, path, ground, 0)
                    self.declare(inside.prefix, given)

    def widths(self, paths):
        return [self.leaves[path].type().width for path in paths]

    def state_widths(self):
        """The widths of the words of the state, and behind them of those of the arrays."""
        widths = self.widths(self.words)
        for array in self.arrays.values():
            widths += [array.width()] * array.memory().depth
        return widths

    def drives_of(self, leaf):
        """The sides that may drive a leaf, the last first, each with the path of the leaf that
        gives in what gives."""
        known = (leaf.copy.module.name, leaf.local())
        if known not in self.known_drives:
            self.known_drives[known] = list(found_drives(leaf))
        return self.known_drives[known]

    def live_drives_of(self, leaf):
        """Those that some choice leaves last, in the same order. Where what is driven has indices,
        each pair of leaves has an outcome of its own, also of one statement."""
        later = []
        for number, (drive, given) in enumerate(self.drives_of(leaf)):
            outcomes = [(fork("when", when.at), when.outcome)
                        for when in whens_from(drive, leaf)]
            if drive.driven.indices:
                outcomes.append((fork(f"index {number}", drive.at), True))
            if is_live(outcomes, later):
                yield drive, given
            later.append(tuple(outcomes))


def found_drives(leaf):
    for drive in reversed(leaf.copy.module.drives):
        if drive.driven.steps[0][0] != leaf.name:
            continue
        for inner, given in drive.paths.items():
            if reaches(drive.driven, leaf.local(), inner):
                yield drive, given


def whens_from(drive, leaf):
    """The whens that count for a leaf: those inside its declaration."""
    return drive.whens[leaf.depth:]


@lru_cache(None)
def parted(path):
    """The parts of a path."""
    return tuple(re.findall(r"\.?[^.\[\]]+|\[\d+\]", path))


def reaches(reference, path, inner):
    """Whether a reference, and behind it an inner path, may name the leaf of a path."""
    parts, behind = parted(path), parted(inner)
    count = len(parts) - len(behind)
    if count != len(reference.steps) or parts[count:] != behind:
        return False
    return all(step[0] == part if not isinstance(step, Elements)
               else int(part[1:-1]) < step.length
               for step, part in zip(reference.steps, parts))


def fork(word, at):
    return Fork(*map(int, at.split(":")), word)


def is_live(outcomes, later):
    """Whether some choice takes these outcomes, and none of those that come later."""
    taken = dict(outcomes)
    if any(taken[one] != outcome for one, outcome in outcomes):
        return False
    left = []
    for one in later:
        if any(taken.get(key, outcome) != outcome for key, outcome in one):
            continue
        left.append(tuple(pair for pair in one if pair[0] not in taken))
    return () not in left and undriven_by(left) is not None
