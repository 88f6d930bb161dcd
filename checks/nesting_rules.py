"""A second reading of how deep the forms of a text are nested: the first token that opens the 257th
block or bracket, or ends a form of height 257, if the text is of the grammar up to there."""
from grammar_rules import tokens
from name_rules import begins_with_reference, is_sign, place

MOST = 256
OPEN, CLOSED = ("(", "[", "{"), (")", "]", "}")
# behind these signs no form goes on
APART = (":", ",", "=", "=>", "<=", "<-")


class Found(Exception):
    """The token at which nesting ends."""


class Line:
    """The tokens of a line, read from the left: the height of the form that has just ended, and of
    each bracket that is open that height before it and the tallest within."""

    def __init__(self, depth):
        self.depth, self.height, self.open, self.before = depth, 0, [], None

    def take(self, token):
        if is_sign(token, *OPEN):
            is_group = token.spelling == "(" and is_sign(self.before, ":", "=>")
            self.open.append((None if is_group else self.height, 0))
            if self.depth + len(self.open) > MOST:
                raise Found(token)
            self.height = 0
        elif is_sign(token, *CLOSED):
            self.close(token)
        elif is_sign(token, *APART):
            self.end_part()
        elif token.kind in ("word", "dash"):
            is_field = is_sign(self.before, ".")
            self.height = self.height + 1 if is_field else 1
        elif token.kind == "integer" and is_sign(self.before, "."):
            self.height += 1
        if self.height > MOST:
            raise Found(token)
        self.before = token

    def end_part(self):
        if self.open:
            before, tallest = self.open[-1]
            self.open[-1] = before, max(tallest, self.height)
        self.height = 0

    def close(self, token):
        """An operator, a literal or a bundle is a form of what is within; behind a square bracket
        what stands before it is a part as well."""
        self.end_part()
        before, tallest = self.open.pop() if self.open else (None, 0)
        if before is None:
            return
        self.height = (max(before, tallest) if token.spelling == "]" else tallest) + 1


def read(ts, end, around, last):
    """Reads a line that blocks stand around, where the block before it there is the `last`. Gives
    how many blocks are open behind it."""
    words = [] if begins_with_reference(ts) else [token.spelling for token in ts[:2]]
    is_else = words[:1] == ["else"]
    is_when = words[is_else:][:1] == ["when"]
    depth = last if is_else else around
    line = Line(depth)
    for token in ts:
        line.take(token)
    if depth + is_when > MOST:
        raise Found(end)
    return depth + is_when


def walk(ts):
    """Raises Found at the first token that is nested too deep."""
    # of each level of lines how many blocks are open around it, and behind its last line
    levels, line = [(0, 0)], []
    for token in ts:
        if token.kind == "in":
            levels.append((levels[-1][1], 0))
        elif token.kind == "out":
            levels.pop()
        elif token.kind == "nl":
            around, last = levels.pop()
            levels.append((around, read(line, token, around, last)))
            line = []
        else:
            line.append(token)


def nesting_fault(text):
    """The line of E06, or None."""
    try:
        walk(tokens(text)[0])
    except Found as found:
        return f"E06 {place(found.args[0])} depth {MOST + 1}"
    return None
