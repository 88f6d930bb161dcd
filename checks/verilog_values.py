"""A second reading of the values that atoms and right sides of the Verilog subset have: of a text
without a fault, by Python's integers. None is no value."""
from verilog_grammar import Concat, Const, Name, Repeat, Select


def low_bits(number, width):
    return number & ((1 << width) - 1)


def signed(number, width):
    """The number that these bits are in two's complement."""
    return number - (1 << width) if number >> (width - 1) else number


def towards_zero(first, second):
    quotient = abs(first) // abs(second)
    return quotient if (first < 0) == (second < 0) else -quotient


def shifted(first, by, width):
    """The number shifted down. By a width or more nothing is left but the sign."""
    return first >> min(by, width)


COMPARED = {"==": lambda x, y: x == y, "!=": lambda x, y: x != y, "<": lambda x, y: x < y,
            "<=": lambda x, y: x <= y, ">": lambda x, y: x > y, ">=": lambda x, y: x >= y}
ALONE = {"+": lambda x, y: x + y, "-": lambda x, y: x - y, "*": lambda x, y: x * y,
         "&": lambda x, y: x & y, "|": lambda x, y: x | y, "^": lambda x, y: x ^ y}


class Values:
    """What right sides give, where `nets` has the values of nets and registers by name, and
    `arrays` the words of each array. Widths are those that the checker of the text tells."""

    def __init__(self, checker, nets, arrays):
        self.checker, self.nets, self.arrays = checker, nets, arrays

    def atom(self, atom):
        if isinstance(atom, Const):
            return atom.number
        if isinstance(atom, Name):
            return self.nets[atom.text]
        if isinstance(atom, Select):
            return low_bits(self.nets[atom.name.text] >> atom.low, atom.high - atom.low + 1)
        parts = [atom.part] * atom.times if isinstance(atom, Repeat) else atom.parts
        value = 0
        for part in parts:
            value = value << self.checker.width(part) | self.atom(part)
        return value

    def operand(self, operand):
        """Its number, which is read in two's complement behind a `$signed`."""
        value = self.atom(operand.atom)
        is_signed = operand.at != operand.atom.at
        return signed(value, self.checker.width(operand.atom)) if is_signed else value

    def side(self, side, width):
        """What a right side gives to a target of that width."""
        if side.operator == "read":
            return self.word(side.array, self.operand(side.operands[0]))
        if side.operator == "?":
            condition, first, second = side.operands
            return self.operand(first if self.operand(condition) else second)
        values = [self.operand(operand) for operand in side.operands]
        if len(values) == 1:
            return self.of_one(side.operator, values[0], side.operands[0], width)
        return self.of_two(side.operator, *values, width)

    def word(self, array, address):
        words = self.arrays[array.text]
        return words[address] if address < len(words) else None

    def of_one(self, operator, value, operand, width):
        if operator == "~":
            return low_bits(~value, width)
        return {"atom": value, "|": int(value != 0), "^": bin(value).count("1") % 2,
                "&": int(value == (1 << self.checker.width(operand.atom)) - 1)}[operator]

    def of_two(self, operator, first, second, width):
        if operator in COMPARED:
            return int(COMPARED[operator](first, second))
        if operator in ALONE:
            return low_bits(ALONE[operator](first, second), width)
        if operator in ("/", "%"):
            return self.divided(operator, first, second, width)
        if operator == "<<":
            return low_bits(first << min(second, width), width)
        return low_bits(shifted(first, second, width), width)

    def divided(self, operator, first, second, width):
        """A quotient or remainder, or None: of a zero divisor, and of a quotient of two signed
        numbers that is past the greatest one. No other quotient is past the width."""
        if second == 0:
            return None
        quotient = towards_zero(first, second)
        if operator == "%":
            return low_bits(first - quotient * second, width)
        is_past = quotient == 1 << (width - 1) and first < 0
        return None if is_past else low_bits(quotient, width)
