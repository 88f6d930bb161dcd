"""Texts made at random with a fault of each code from E04 to E28, by the makers of the checks that
compare one group of faults each; those of designs by the maker of circuits, with a flaw."""
import re
from typing import NamedTuple

import costs
import driven
import grammar
import names
import nesting_maker
import typed
from circuit_maker import CircuitMaker
from grammar_rules import EXPRESSIONS, STATEMENTS, TYPES, Bad
from inference_maker import InferenceMaker
from name_texts import Writer
from nesting_rules import nesting_fault
from readings import Reading


# words of forms that firc does not read
MISSING = [*STATEMENTS, *TYPES, *EXPRESSIONS, "infer mport", "read", "extmodule", "intmodule"]


class Told(NamedTuple):
    """The line of a fault of the text."""
    line: str

    def takes(self, says):
        return says == self.line

    def __str__(self):
        return self.line


def of_grammar(text):
    """The text, and its fault unless that shows in the tokens alone."""
    try:
        return text, Told(grammar.text_fault(text) or "")
    except Bad:
        return text, Told("")


def of_nesting(text):
    """The same of a text of the grammar."""
    return text, Told(nesting_fault(text) or "")


def of_circuit(text):
    return text, Reading(text)


def with_changes(chance):
    """A small text in which a few tokens are changed."""
    return grammar.changed(chance.choice(grammar.FORMS), chance)


def with_missing_forms(chance):
    return grammar.changed(chance.choice(grammar.FORMS), chance, MISSING)


def with_version(chance):
    version = f"{chance.choice([0, 3, 4, 12, 2**100])}.{chance.randrange(9)}.0"
    return f"FIRRTL version {version}\n{chance.choice(grammar.FORMS)}"


def with_open_widths(chance):
    return Writer(chance).text(InferenceMaker(chance).line())


def with_flaw(chance):
    return Writer(chance).text(CircuitMaker(chance, ["clock", "memory", "init", "loop"]).line())


# What makes texts, and what reads them, for which codes.
MAKERS = [
    (with_changes, of_grammar, "E04"),
    (with_missing_forms, of_grammar, "E05"),
    (with_version, of_grammar, "E07"),
    (nesting_maker.made, of_nesting, "E06"),
    (lambda chance: names.made(chance)[0], of_circuit, "E0[89]|E1[01]"),
    (lambda chance: typed.made(chance)[0], of_circuit, "E1[2-7]"),
    (with_open_widths, of_circuit, "E1[89]|E2[0-2]"),
    (costs.made, of_circuit, "E23"),
    (lambda chance: driven.made(chance)[0], of_circuit, "E24"),
    (with_flaw, of_circuit, "E2[5-8]"),
]
OFTEN = [3, 2, 1, 1, 4, 6, 6, 1, 3, 4]


def made_with_fault(chance):
    """A text with a fault, and what the rules say of it."""
    [(make, read, codes)] = chance.choices(MAKERS, OFTEN)
    while True:
        text, reading = read(make(chance))
        if re.match(codes, str(reading)):
            return text, reading
