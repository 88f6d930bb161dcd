"""The form of the files in checks/rows (checks/rows/README.md)."""
import dataclasses
import pathlib
import re

HEADING = b"circuit T :\n  module T :\n"
COMMANDS = {"check": "check f.fir", "emit": "emit f.fir", "sim": "sim f.fir t",
            "sim --state": "sim f.fir t --state", "vsim": "vsim f.fir t",
            "vsim --state": "vsim f.fir t --state"}
# the kinds of the lines of a row, in their order
ORDER = ["row:", "command", "text", "trace", "status", "out", "err"]
MARKS = {"\\": b"\\", "n": b"\n", "r": b"\r", "t": b"\t", "s": b" "}
ESCAPE = re.compile(r"\\(?:x([0-9a-f]{2})|\{(\d+|#) |(.))")


class Malformed(Exception):
    """A file that is out of form."""


@dataclasses.dataclass
class Row:
    """One run of the program, and what it has to say. A file that is not there is None."""
    place: str
    name: str
    words: list = None
    is_short: bool = False
    text: bytes = None
    trace: bytes = None
    status: int = None
    out: bytes = b""
    err: bytes = b""


class Turn(int):
    """The number of times before this one, and this much more."""


@dataclasses.dataclass
class Repeat:
    """Parts that stand some times; where that is None, as often as the parts around stood."""
    times: int
    parts: list

    def is_steady(self):
        """Whether they are the same each time."""
        return all(isinstance(part, bytes) or isinstance(part, Repeat) and part.is_fixed()
                   for part in self.parts)

    def is_fixed(self):
        """Whether they are the same wherever they stand."""
        return self.times is not None and self.is_steady()


def parts_of(line):
    """The parts of a line: bytes, turns and repeats."""
    stack, at = [Repeat(1, [])], 0
    for found in ESCAPE.finditer(line):
        byte, times, mark = found.groups()
        stack[-1].parts.append(line[at:found.start()].encode("ascii"))
        at = found.end()
        if byte:
            stack[-1].parts.append(bytes.fromhex(byte))
        elif times:
            stack.append(Repeat(None if times == "#" else int(times), []))
        elif mark in MARKS:
            stack[-1].parts.append(MARKS[mark])
        elif mark in "#+" and len(stack) > 1:
            stack[-1].parts.append(Turn(mark == "+"))
        elif mark == "}" and len(stack) > 1:
            repeat = stack.pop()
            stack[-1].parts.append(repeat)
        else:
            raise Malformed(f"there is no \\{mark} here")
    if len(stack) > 1 or "\\" in line[at:]:
        raise Malformed("the line ends within an escape")
    stack[-1].parts.append(line[at:].encode("ascii"))
    return stack[-1].parts


def joined(parts, turn):
    """The bytes of the parts, at that turn."""
    out = []
    for part in parts:
        if isinstance(part, bytes):
            out.append(part)
        elif isinstance(part, Turn):
            out.append(b"%d" % (turn + part))
        else:
            times = turn if part.times is None else part.times
            if part.is_steady():
                out.append(joined(part.parts, 0) * times)
            else:
                out += [joined(part.parts, k) for k in range(times)]
    return b"".join(out)


def content(line):
    """The bytes of a line, with its newline unless a single backslash ends it."""
    slashes = len(line) - len(line.rstrip("\\"))
    if slashes % 2:
        return joined(parts_of(line[:-1]), 0)
    return joined(parts_of(line), 0) + b"\n"


def written(some):
    """Lines whose content these bytes are."""
    def mark(byte):
        known = {0x5c: "\\\\", 0x0d: "\\r", 0x09: "\\t"}.get(byte)
        return known or (chr(byte) if 0x20 <= byte < 0x7f else f"\\x{byte:02x}")

    lines = ["".join(map(mark, line)) for line in some.split(b"\n")]
    last = lines.pop()
    lines = [line[:-1] + "\\s" if line.endswith(" ") else line for line in lines]
    return lines + ([last + "\\"] if last else [])


def words_of(line):
    """The words of a command behind the program's name."""
    word, _, rest = line.partition(" ")
    if line not in COMMANDS and word != "words":
        raise Malformed(f"there is no command {line}")
    rest = COMMANDS.get(line, rest)
    return [joined(parts_of(word), 0) for word in rest.split(" ")] if rest else []


class Reader:
    """Reads the rows of a file, line by line."""

    def __init__(self, path):
        self.path, self.rows, self.texts = path, [], {}
        # the text that is being given by `text:`, and how far the row has come
        self.given, self.kind = None, None

    def take(self, number, line):
        """Takes one line, which is not blank."""
        word, _, rest = line.partition(" ")
        if word == "row:":
            self.end()
            if rest in {row.name for row in self.rows} or not rest:
                raise Malformed("a row has a name of its own")
            self.rows.append(Row(f"{self.path}:{number}", rest))
            self.given, self.kind = None, "row:"
        elif word == "text:":
            self.end()
            self.given, self.kind = rest, None
            self.texts[rest] = None
        elif self.given is not None:
            self.texts[self.given] = self.text(self.texts[self.given], word, rest)
        elif self.kind:
            self.take_of_row(self.rows[-1], line, word, rest)
        else:
            raise Malformed("a line stands in no row")

    def take_of_row(self, row, line, word, rest):
        kind = "text" if word in ("|", ":") else word if word in ORDER else "command"
        again = kind == self.kind and kind in ("command", "status")
        if again or ORDER.index(kind) < ORDER.index(self.kind):
            raise Malformed(f"this line cannot stand behind one of {self.kind}")
        if (self.kind == "row:") != (kind == "command"):
            raise Malformed("a row has one command, behind its name")
        self.kind = kind
        if kind == "command":
            row.words, row.is_short = words_of(line), line in COMMANDS
        elif kind == "status":
            row.status = int(rest)
        elif kind == "text":
            row.text = self.text(row.text, word, rest)
        else:
            setattr(row, kind, (getattr(row, kind) or b"") + content(rest))

    def text(self, text, word, rest):
        """The text with one more line."""
        if word == "text" and text is None and self.texts.get(rest) is not None:
            return self.texts[rest]
        if word == "|":
            return (text or b"") + content(rest)
        if word == ":":
            return (HEADING if text is None else text) + b"    " + content(rest)
        raise Malformed("a line of a text begins with | or :, or names a text given before")

    def end(self):
        """Sees that what was given before, a row or a text, is whole."""
        if self.given is not None and self.texts[self.given] is None:
            raise Malformed("the text before has no line")
        if self.kind is None:
            return
        row = self.rows[-1]
        if row.status is None:
            raise Malformed("the row before has no status")
        if row.is_short and (row.text is None or row.words[0] == b"sim" and row.trace is None):
            raise Malformed("the row before wants a text, and sim a trace")
        if row.is_short and row.words[0] == b"vsim" and row.trace is None:
            row.trace = b""


def read(path):
    """The rows of a file."""
    reader = Reader(path)
    lines = pathlib.Path(path).read_bytes().split(b"\n")
    number = 0
    try:
        if lines.pop():
            raise Malformed("the last line has no newline")
        for number, line in enumerate(lines, 1):
            if re.search(rb"[^ -~]| $", line):
                raise Malformed("a tab, a blank at the end, or a byte that is not ASCII")
            if line and not line.startswith(b"#"):
                reader.take(number, line.decode("ascii"))
        reader.end()
    except (Malformed, ValueError) as error:
        raise Malformed(f"{path}:{number}: {error}") from None
    return reader.rows
