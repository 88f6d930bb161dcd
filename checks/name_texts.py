"""The parts of which the texts of circuits are made, and how they are written."""
import dataclasses

TIGHT = (".", "[", "]", ")", "<", ">", ",")


@dataclasses.dataclass(eq=False)
class Name:
    """A name that is declared, or one that is nowhere."""
    spelling: str

    def __str__(self):
        return self.spelling


@dataclasses.dataclass(eq=False)
class Use:
    """A place where a name is used."""
    name: Name

    def __str__(self):
        return str(self.name)


@dataclasses.dataclass(eq=False)
class Line:
    """The tokens of a line, and the lines of the block behind it, if it may have one."""
    tokens: list
    block: list = None

    def begins_with(self, *words):
        """Whether it begins with one of these words, where it is no name."""
        return self.tokens[0] in words


def spelled(tokens, blank):
    """The tokens with blanks between them."""
    text = ""
    for token in map(str, tokens):
        is_bracket = token == "(" and text[-1:] not in (":", "=", ",") and text[-2:] != "=>"
        is_tight = not text or is_bracket or token in TIGHT or text[-1] in ".[(<"
        text += token if is_tight else blank() + token
    return text


class Writer:
    """Writes lines with their blocks, some with more blanks and remarks than they need."""

    def __init__(self, chance):
        self.chance, self.lines = chance, []
        self.is_wide = chance.random() < 0.2

    def blank(self):
        return self.chance.choice([" ", " ", "  ", "   ", "\t"]) if self.is_wide else " "

    def remark(self):
        return self.chance.choice(["", "", " ; a remark", " @[a.scala 1:2]", "  "])

    def put(self, lines, indent):
        for line in lines:
            rest = self.remark() if self.is_wide else ""
            self.lines.append(" " * indent + spelled(line.tokens, self.blank) + rest)
            if self.is_wide and self.chance.random() < 0.1:
                self.lines.append(self.chance.choice(["", "; a line", "   ", "        ; deep"]))
            self.put(line.block or [], indent + self.chance.choice([1, 2, 2, 2, 4]))

    def text(self, line):
        if self.chance.random() < 0.1:
            self.lines.append("FIRRTL version 1.1.0")
        self.put([line], 0)
        return "\n".join(self.lines) + self.chance.choice(["\n", "\n", ""])
