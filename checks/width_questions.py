"""Statements that show a fault of widths unless each leaf has the width that is said."""
from inference_forms import Declared, leaves
from name_texts import Line
from type_forms import NUMBERS
from type_maker import called
from width_rules import held


def question(path, width):
    """A when whose condition has one bit exactly where the leaf has that width, below 128."""
    longer = called("cat", [called("asUInt", [[path]]), ["UInt", "<", 1, ">", "(", 0, ")"]])
    return Line(["when", *called("tail", [longer, [width]]), ":"], [Line(["skip"])])


def questions(module, names):
    """The questions for a module's leaves of these names, by the widths that have been found."""
    for step in module.steps:
        if isinstance(step, Declared) and step.name in names:
            for path, ground, _ in leaves(step.type, 1):
                if ground.kind in NUMBERS and held(ground) < 128:
                    yield question(step.name + path, held(ground))
