"""A second reading of the rules of widths, for texts whose names and types are right: the least
widths that meet all rules, and the first fault E19, or else the first of E20 to E22.

Widths are numbers from 0 to 128, and one more that stands for all above.
"""
from inference_forms import (CHOICES, Asked, Declared, Joined, Literal, Reference, Stands, Unknown,
                             leaves, matched, type_of)
from type_forms import NUMBERS, Bundle, Ground, Vector, mapped

OVER = 129
ONE_BIT = "lt leq gt geq eq neq andr orr xorr".split()
# the width of an operator's result by the widths of its operands, where none is over, and its
# integers
RESULTS = {
    **dict.fromkeys(ONE_BIT, lambda *_: 1),
    **dict.fromkeys(("add", "sub"), lambda one, other: max(one, other) + 1),
    **dict.fromkeys(("and", "or", "xor"), max),
    **dict.fromkeys(("mul", "cat"), lambda one, other: one + other),
    "rem": min,
    "pad": max,
    "shl": lambda width, by: width + by,
    "shr": lambda width, by: max(width - by, 1),
    "dshl": lambda width, by: width + 2 ** by - 1,
    "dshr": lambda width, by: width,
    "neg": lambda width: width + 1,
    "not": lambda width: width,
    "bits": lambda width, high, low: max(high - low + 1, 0),
    "head": lambda width, count: count,
    "tail": lambda width, count: max(width - count, 0),
    "asUInt": lambda width: width,
    "asSInt": lambda width: width,
    "asAsyncReset": lambda width: 1,
}
# what an operator asks of its operand's width and its integers
LEGAL = {
    "bits": lambda width, high, low: low <= high < width,
    "head": lambda width, count: count <= width,
    "tail": lambda width, count: count <= width,
    "asAsyncReset": lambda width: width == 1,
}


def held(ground):
    """The width of a ground type as far as it is known. A reset has one bit."""
    if ground.kind not in NUMBERS:
        return 0 if ground.kind == "Clock" else 1
    width = ground.width
    return min(width.least if isinstance(width, Unknown) else width, OVER)


def fits(number, kind, width):
    """Whether a literal's number fits a width."""
    if kind == "UInt":
        return number < 2 ** width
    return -(2 ** width) <= 2 * number < 2 ** width or number == width == 0


def literal_width(literal):
    """The width that is written, or the least that holds the number, at least 1."""
    if literal.width is not None:
        return literal.width
    return next(width for width in range(1, 200) if fits(literal.number, literal.kind, width))


def result_width(word, operands, integers):
    """The width of an operator's result, of operands that have these types."""
    widths = [operand.width for operand in operands]
    if OVER in widths:
        return OVER
    if word == "div":
        return widths[0] + (operands[0].kind == "SInt")
    if word == "cvt":
        return widths[0] + (operands[0].kind == "UInt")
    return RESULTS[word](*widths, *integers)


def wider(one, other):
    """The type that has at each leaf the greater width of two equivalent types."""
    if isinstance(one, Vector):
        return one._replace(element=wider(one.element, other.element))
    if isinstance(one, Bundle):
        return Bundle(tuple(field._replace(type=wider(field.type, beside.type))
                            for field, beside in zip(one.fields, other.fields)))
    return one._replace(width=max(one.width, other.width))


def sized(expression):
    """The type of an expression, with all widths as far as they are known."""
    if isinstance(expression, Reference):
        return mapped(expression.type, lambda ground: ground._replace(width=held(ground)))
    if isinstance(expression, Literal):
        return Ground(expression.kind, min(literal_width(expression), OVER))
    operands = [sized(operand) for operand in expression.operands]
    if expression.word in CHOICES:
        if operands[0].width == OVER:
            return mapped(operands[1], lambda ground: ground._replace(width=OVER))
        return wider(operands[1], operands[-1])
    width = min(result_width(expression.word, operands, expression.integers), OVER)
    return type_of(expression)._replace(width=width)


def raised(joined):
    """Raises the unknowns that a connect, a node or an init drives; whether one rose."""
    is_reference = isinstance(joined.giving, Reference)
    right = joined.giving.type if is_reference else sized(joined.giving)
    has_risen = False
    for _, one, other, is_flipped in matched(joined.driven.type, right, 1):
        driven, giving = (other, one) if is_flipped else (one, other)
        if isinstance(driven.width, Unknown) and driven.width.least < held(giving):
            driven.width.least = held(giving)
            has_risen = True
    return has_risen


def over_leaf(given, width_of):
    """The path of the first leaf that is over, or None."""
    return next((path for path, ground, _ in leaves(given, 1) if width_of(ground) == OVER), None)


def over_here(expression):
    """What E19 shows of an expression that is over itself, or None."""
    leaf = over_leaf(sized(expression), lambda ground: ground.width)
    if leaf is None:
        return None
    if isinstance(expression, Reference):
        return expression.path() + leaf
    return "literal" if isinstance(expression, Literal) else expression.word


def parts(expression):
    """The expressions below it."""
    if isinstance(expression, Reference):
        return expression.indices
    return () if isinstance(expression, Literal) else expression.operands


def overs(expression):
    """The faults E19 of an expression, those of its operands and indices first."""
    for part in parts(expression):
        yield from overs(part)
    if over_here(expression) is not None:
        yield f"E19 {expression.at} width over 128 {over_here(expression)}"


def condition_faults(condition):
    """The faults of a condition, and of its width, if it is a UInt."""
    yield from faults(condition)
    given = sized(condition)
    if given.kind == "UInt" and given.width != 1:
        yield f"E22 {condition.at} condition width {given.width}"


def faults(expression):
    """The faults E21 and E22 of an expression, those of its operands and indices first."""
    is_choice = not isinstance(expression, (Reference, Literal)) and expression.word in CHOICES
    for place, part in enumerate(parts(expression)):
        yield from (condition_faults if is_choice and place == 0 else faults)(part)
    if isinstance(expression, Literal):
        width = literal_width(expression)
        if not fits(expression.number, expression.kind, width):
            yield f"E21 {expression.at} legality literal {width} {expression.number}"
    elif not isinstance(expression, Reference) and expression.word in LEGAL:
        numbers = sized(expression.operands[0]).width, *expression.integers
        if not LEGAL[expression.word](*numbers):
            numbers = " ".join(map(str, numbers))
            yield f"E21 {expression.at} legality {expression.word} {numbers}"


class Widths:
    """The first fault of widths of a circuit: `fault` is its line, or None."""

    def __init__(self, circuit):
        self.circuit = circuit
        joined = [step for _, step in self.steps() if isinstance(step, Joined)]
        while any([raised(step) for step in joined]):
            pass
        self.fault = next(self.all_over(), None) or next(self.all_others(), None)

    def steps(self):
        for module in self.circuit.modules.values():
            for step in module.steps:
                yield module, step

    def all_over(self):
        """The faults E19, in the order of the text."""
        for _, step in self.steps():
            if isinstance(step, Declared):
                leaf = over_leaf(step.data or step.type, held)
                if leaf is not None:
                    yield f"E19 {step.at} width over 128 {step.name}{leaf}"
            elif isinstance(step, (Stands, Asked)):
                yield from overs(step.expression)

    def all_others(self):
        """The faults E20 to E22, in the order of the text."""
        for module, step in self.steps():
            if isinstance(step, Stands):
                yield from faults(step.expression)
            elif isinstance(step, Asked):
                yield from condition_faults(step.expression)
            elif isinstance(step, Declared) and module.name == self.circuit.main:
                yield from self.open_inputs(step)

    def open_inputs(self, port):
        """The faults E20 of a declaration of the main module."""
        for path, ground, is_flipped in leaves(port.type, 1):
            is_input = port.word == ("output" if is_flipped else "input")
            if is_input and isinstance(ground.width, Unknown):
                yield f"E20 {port.at} port width {port.name}{path}"
