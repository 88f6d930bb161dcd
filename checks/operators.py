"""The operators of the language, worked out once more with Python's integers: the types of their
results, and their values.

A value is the integer that it stands for, with its type. A UInt stands for its number, and an SInt
for its two's complement.
"""
import typing

OPERANDS_OF_ONE_KIND = "add sub mul div rem lt leq gt geq eq neq and or xor cat".split()
SHIFTS = ["dshl", "dshr"]
SINGLES = "cvt neg not andr orr xorr asUInt asSInt".split()
WITH_AN_INTEGER = "pad shl shr head tail".split()
OPERATORS = OPERANDS_OF_ONE_KIND + SHIFTS + SINGLES + WITH_AN_INTEGER + ["bits"]

# whose results have the kind of their first operand, and whose are SInt; all others are UInt
KEEP_THE_KIND = "add sub mul div rem pad shl shr dshl dshr".split()
GIVE_SINT = "cvt neg asSInt".split()


class Type(typing.NamedTuple):
    is_signed: bool
    width: int

    def holds(self, number):
        """Whether values of the type stand for the number."""
        if self.is_signed:
            return -(1 << self.width) <= 2 * number < 1 << self.width
        return 0 <= number < 1 << self.width

    def value(self, number):
        """The value of the low bits of a number."""
        bits = number % (1 << self.width)
        is_below_0 = self.is_signed and 2 * bits >= 1 << self.width
        return Value(bits - (1 << self.width) if is_below_0 else bits, self)

    def corners(self):
        """Its least number, -1, 0, 1 and its greatest, as far as it has them."""
        half = (1 << self.width) // 2
        ends = [-half, max(half - 1, 0)] if self.is_signed else [(1 << self.width) - 1]
        return sorted({number for number in ends + [-1, 0, 1] if self.holds(number)})

    def __str__(self):
        return f"{self.kind()}<{self.width}>"

    def kind(self):
        return "SInt" if self.is_signed else "UInt"


class Value(typing.NamedTuple):
    number: int
    type: Type

    def bits(self):
        """Its bits as a number."""
        return self.number % (1 << self.type.width)


def counts(op):
    """How many operands and how many integers an operator has."""
    operands = 2 if op in OPERANDS_OF_ONE_KIND or op in SHIFTS else 1
    return operands, 2 if op == "bits" else 1 if op in WITH_AN_INTEGER else 0


def gives_sint(op, is_signed):
    """Whether the result is an SInt, where the first operand is one or not."""
    return is_signed if op in KEEP_THE_KIND else op in GIVE_SINT


def result_width(op, is_signed, w, v, n, m):
    """The width of the result, for operands of w and v bits and the integers n and m. What is not
    legal has a width as well."""
    if op in ("lt", "leq", "gt", "geq", "eq", "neq", "andr", "orr", "xorr"):
        return 1
    return {
        "add": max(w, v) + 1, "sub": max(w, v) + 1, "mul": w + v,
        "div": w + 1 if is_signed else w, "rem": min(w, v),
        "pad": max(w, n), "shl": w + n, "shr": max(w - n, 1), "dshl": w + 2**v - 1, "dshr": w,
        "cvt": w if is_signed else w + 1, "neg": w + 1, "asUInt": w, "asSInt": w,
        "not": w, "and": max(w, v), "or": max(w, v), "xor": max(w, v),
        "cat": w + v, "bits": max(n - m + 1, 0), "head": n, "tail": max(w - n, 0),
    }[op]


def result_type(op, types, integers):
    """The type of the result, for operands of these types."""
    first, second = types[0], types[-1]
    n, m = (list(integers) + [0, 0])[:2]
    width = result_width(op, first.is_signed, first.width, second.width, n, m)
    return Type(gives_sint(op, first.is_signed), width)


def quotient(x, y):
    """Rounded towards zero; by zero it is 0."""
    if y == 0:
        return 0
    size = abs(x) // abs(y)
    return size if (x < 0) == (y < 0) else -size


def remainder(x, y):
    """With the sign of the first; by zero it is 0."""
    if y == 0:
        return 0
    size = abs(x) % abs(y)
    return -size if x < 0 else size


def arithmetic(op, x, y, n):
    """The integer of an operator that reads its operands as integers, or None."""
    if op in ("div", "rem"):
        return quotient(x, y) if op == "div" else remainder(x, y)
    if op in ("shl", "dshl"):
        return x << (n if op == "shl" else y)
    if op in ("shr", "dshr"):
        return x >> min(n if op == "shr" else y, 128)
    # `and`, `or` and `xor` of Python's integers are those of two's complements without an end
    return {
        "add": x + y, "sub": x - y, "mul": x * y, "neg": -x, "cvt": x, "pad": x,
        "lt": int(x < y), "leq": int(x <= y), "gt": int(x > y), "geq": int(x >= y),
        "eq": int(x == y), "neq": int(x != y), "and": x & y, "or": x | y, "xor": x ^ y,
    }.get(op)


def selection(op, a, b, integers):
    """The number of an operator that reads the bits of its operands."""
    bits, width = a.bits(), a.type.width
    if op == "cat":
        return bits << b.type.width | b.bits()
    if op == "bits":
        return bits >> integers[1]
    if op == "head":
        return bits >> width - integers[0]
    ones = bits.bit_count()
    flags = {"andr": int(ones == width), "orr": int(ones > 0), "xorr": ones % 2}
    return {"not": ~bits, "tail": bits, "asUInt": bits, "asSInt": bits, **flags}[op]


def applied(op, operands, integers):
    """The value of an operation, whose number is cut to the low bits of its type."""
    a, b = operands[0], operands[-1]
    number = arithmetic(op, a.number, b.number, integers[0] if integers else 0)
    if number is None:
        number = selection(op, a, b, integers)
    return result_type(op, [operand.type for operand in operands], integers).value(number)


def mux_type(a, b):
    return Type(a.is_signed, max(a.width, b.width))


def mux(condition, a, b):
    """The arm that is chosen, at the width of the wider one."""
    return Value((a if condition.number else b).number, mux_type(a.type, b.type))


def validif(condition, a):
    return Value(a.number if condition.number else 0, a.type)


def of(op, *operands, by=()):
    return applied(op, operands, by)


def hold_laws(chance):
    """Sees that laws which tie operators together hold of the values above."""
    for _ in range(2000):
        is_signed = chance.random() < 0.5
        types = [Type(is_signed, chance.choice([0, 1, 2, 3, 7, 62])) for _ in range(2)]
        a, b = [t.value(chance.choice(t.corners() + [chance.getrandbits(64)])) for t in types]
        hold_laws_of_arithmetic(a, b, Type(is_signed, 0).value(0))
        hold_laws_of_bits(a, b, chance.randint(0, a.type.width))


def hold_laws_of_arithmetic(a, b, zero):
    quotient_and_rest = of("div", a, b), of("rem", a, b)
    again = of("add", of("mul", quotient_and_rest[0], b), quotient_and_rest[1]).number
    assert again == (a.number if b.number else 0)
    assert not b.number or abs(quotient_and_rest[1].number) < abs(b.number)
    assert quotient_and_rest[1].number * a.number >= 0
    assert of("sub", of("add", a, b), b).number == a.number
    assert of("add", of("cvt", a), of("neg", b)).number == a.number - b.number
    assert of("lt", a, b).number + of("geq", a, b).number == 1
    assert of("leq", a, b).number == of("lt", a, b).number | of("eq", a, b).number
    assert of("gt", a, b) == of("lt", b, a) and of("neq", a, b).number != of("eq", a, b).number
    assert of("or", a, b).number - of("and", a, b).number == of("xor", a, b).number
    assert of("orr", a).number == of("neq", a, zero).number
    assert of("andr", a).number == 1 - of("orr", of("not", a)).number
    assert of("cvt", a).number == of("pad", a, by=[100]).number == a.number
    if a.type.is_signed and a.type.width:
        top = of("bits", a, by=[a.type.width - 1] * 2)
        assert top.number == of("lt", a, zero).number == of("head", a, by=[1]).number


def hold_laws_of_bits(a, b, n):
    high, low = of("head", a, by=[n]), of("tail", a, by=[n])
    assert of("cat", high, low) == of("asUInt", a)
    assert of("xorr", a).number == of("xorr", high).number ^ of("xorr", low).number
    assert of("asSInt", of("asUInt", a)).bits() == a.bits()
    amount = Type(False, 6).value(n)
    assert of("shr", of("shl", a, by=[n]), by=[n]).number == a.number
    assert of("dshl", a, amount).number == of("shl", a, by=[n]).number
    assert of("dshr", a, amount).number == of("shr", a, by=[n]).number
    if n < a.type.width:
        assert of("bits", a, by=[a.type.width - 1, n]).bits() == of("shr", a, by=[n]).bits()
    width = max(a.type.width, b.type.width)
    turned = [of("not", of("pad", operand, by=[width])) for operand in (a, b)]
    assert of("not", of("and", a, b)) == of("or", *turned)
