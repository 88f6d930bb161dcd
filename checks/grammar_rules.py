"""The grammar of FIRRTL texts as productions, and where a text leaves it, by Earley's method.

It shares nothing with the parser of firc but the definition of the tokens, which is restated here.
"""
import re
from collections import namedtuple
from functools import lru_cache

Token = namedtuple("Token", "kind spelling line column")

TOKEN = re.compile(r"""
    [ \t]+ | ;.* | @\[ .*? (?<!\\) \]
  | (?P<annotations> %\[ )
  | " (?P<string> (?: \\[\x00-\x7f] | [\x00-!\#-\[\]-\x7f] )* ) "
  | (?P<dash> data-type | read-latency | write-latency | read-under-write )
  | (?P<word> [A-Za-z_] [A-Za-z_0-9$]* )
  | (?P<integer> [+-]? [0-9]+ )
  | (?P<sign> <= | <- | => | [=<>()\[\]{},:.] )
""", re.VERBOSE)


class Bad(Exception):
    """A fault that shows in the tokens alone, of which this grammar does not speak."""


@lru_cache(4)
def tokens(text):
    """The tokens of a text, and the place of its end."""
    out, levels = [], [0]
    lines = text.split("\n")
    ended = lines[-1] == ""
    lines = lines[:-1] if ended else lines
    for number, line in enumerate(lines, 1):
        indent = len(line) - len(line.lstrip(" \t"))
        if line[indent:indent + 1] in ("", ";"):
            continue
        if "\t" in line[:indent]:
            raise Bad("tab")
        if indent > levels[-1]:
            levels.append(indent)
            out.append(Token("in", "", number, indent + 1))
        while indent < levels[-1]:
            levels.pop()
            out.append(Token("out", "", number, indent + 1))
        if indent != levels[-1]:
            raise Bad("indent")
        out += line_tokens(line, number, indent)
        out.append(Token("nl", "", number, len(line) + 1))
    end = (len(lines) + 1, 1) if ended else (len(lines), len(lines[-1]) + 1)
    out += [Token("out", "", *end) for _ in levels[1:]]
    return out, end


def line_tokens(line, number, at):
    """The tokens of a line from a byte on."""
    out = []
    while at < len(line):
        found = TOKEN.match(line, at)
        if not found:
            raise Bad("byte")
        if found.lastgroup == "annotations":
            out.append(Token("annotations", "", number, at + 1))
            at = annotations_end(line, at)
            continue
        if found.lastgroup == "integer" and abs(int(found[0])) >> 128:
            raise Bad("integer")
        if found.lastgroup:
            out.append(Token(found.lastgroup, found[found.lastgroup], number, at + 1))
        at = found.end()
    return out


def annotations_end(line, at):
    """The byte behind annotations, where their brackets outside JSON strings are closed."""
    depth = 0
    for found in re.compile(r'"(?:\\.|[^"\\])*"|[\[\]"]').finditer(line, at):
        depth += {"[": 1, "]": -1}.get(found[0], 0)
        if found[0] == '"' or depth == 0:
            break
    if depth:
        raise Bad("annotations")
    return found.end()


# What stands in quotes is a word or a sign. What is on no left side is a kind of tokens: `name`,
# `natural`, and the kinds of TOKEN and of the ends and levels of lines.
GRAMMAR = """
text    = circuit | 'FIRRTL' 'version' natural '.' natural '.' natural nl circuit
circuit = 'circuit' name ':' notes nl in module modules out
notes   = | annotations
modules = | module modules
module  = 'module' name ':' nl | 'module' name ':' nl in ports stmts out
ports   = | port ports
port    = 'input' name ':' type nl | 'output' name ':' type nl
stmts   = | stmt stmts
block   = nl | nl in stmts out
stmt    = 'wire' name ':' type nl
stmt    = 'reg' name ':' type ',' expr with nl
stmt    = 'reg' name ':' type ',' expr 'with' ':' nl in rst nl out
stmt    = 'node' name '=' expr nl
stmt    = 'inst' name 'of' name nl
stmt    = 'mem' name ':' nl | 'mem' name ':' nl in field fields out
stmt    = when
stmt    = ref '<=' expr nl | ref '<-' expr nl | ref 'is' 'invalid' nl | 'skip' nl
with    = | 'with' ':' '(' rst ')'
rst     = 'reset' '=>' '(' expr ',' expr ')'
when    = 'when' expr ':' block else
else    = | 'else' ':' block | 'else' when
fields  = | field fields
field   = 'data-type' '=>' type nl | 'depth' '=>' natural nl
field   = 'read-latency' '=>' natural nl | 'write-latency' '=>' natural nl
field   = 'reader' '=>' name names nl | 'writer' '=>' name names nl
field   = 'readwriter' '=>' name names nl
field   = 'read-under-write' '=>' 'old' nl | 'read-under-write' '=>' 'new' nl
field   = 'read-under-write' '=>' 'undefined' nl
names   = | name names
type    = ground sizes
sizes   = | '[' natural ']' sizes
ground  = 'UInt' | 'UInt' '<' natural '>' | 'SInt' | 'SInt' '<' natural '>'
ground  = 'Clock' | 'Reset' | 'AsyncReset' | '{' '}' | '{' part parts '}'
parts   = | ',' part parts
part    = label ':' type | 'flip' label ':' type
label   = name | natural
ref     = name steps
steps   = | '.' label steps | '[' natural ']' steps | '[' expr ']' steps
expr    = ref | literal
literal = 'UInt' '(' number ')' | 'UInt' '<' natural '>' '(' number ')'
literal = 'SInt' '(' number ')' | 'SInt' '<' natural '>' '(' number ')'
number  = integer | string
expr    = 'mux' '(' expr ',' expr ',' expr ')' | 'validif' '(' expr ',' expr ')'
"""

# The operators, by their numbers of operands and of integers.
OPS = {}
for names, form in [
    ("add sub mul div rem lt leq gt geq eq neq and or xor cat dshl dshr", (2, 0)),
    ("cvt neg not andr orr xorr asUInt asSInt asAsyncReset", (1, 0)),
    ("pad shl shr head tail", (1, 1)),
    ("bits", (1, 2)),
]:
    OPS.update({name: form for name in names.split()})

# Words of forms that firc does not read.
STATEMENTS = "attach stop printf assert assume cover cmem smem".split()
PORTS = "infer read write rdwr".split()
TYPES = "Analog Fixed Interval".split()
EXPRESSIONS = "asClock asFixedPoint asInterval incp decp setp wrap clip squz".split()


def productions():
    """The productions as pairs of a left and a right side."""
    out = []
    for line in GRAMMAR.strip().splitlines():
        left, rights = line.split("=", 1)
        out += [(left.strip(), tuple(right.split())) for right in rights.split("|")]
    for op, (operands, integers) in OPS.items():
        between = ["expr"] * operands + ["natural"] * integers
        commas = [symbol for part in between for symbol in ("','", part)][1:]
        out.append(("expr", (f"'{op}'", "'('", *commas, "')'")))
    return out


RULES = productions()
BY_LEFT = {}
for index, (left, right) in enumerate(RULES):
    BY_LEFT.setdefault(left, []).append(index)
EMPTY = {left for left, right in RULES if not right}


def fits(symbol, token):
    """Whether a terminal takes a token."""
    if symbol[0] == "'":
        return token.kind in ("word", "sign", "dash") and token.spelling == symbol[1:-1]
    if symbol == "natural":
        return token.kind == "integer" and token.spelling[0] not in "+-"
    return token.kind == ("word" if symbol == "name" else symbol)


def completed(items, i, wanted):
    """Adds the items that follow at a place, and to `wanted` the symbols that may begin there."""
    work = list(items[i])
    while work:
        rule, dot, start = work.pop()
        left, right = RULES[rule]
        found = []
        if dot == len(right):
            found = [(r, d + 1, s) for r, d, s in items[start] if RULES[r][1][d:d + 1] == (left,)]
        elif right[dot] in BY_LEFT:
            wanted.add(right[dot])
            found = [(r, 0, i) for r in BY_LEFT[right[dot]]]
            found += [(rule, dot + 1, start)] if right[dot] in EMPTY else []
        work += [item for item in found if item not in items[i]]
        items[i].update(found)


def read(ts):
    """The items, as (production, dot, start), and what is wanted, at each token that is read."""
    items, wanted = [{(rule, 0, 0) for rule in BY_LEFT["text"]}], []
    for i in range(len(ts) + 1):
        wanted.append(set())
        completed(items, i, wanted[i])
        if i == len(ts):
            break
        items.append({(rule, dot + 1, start) for rule, dot, start in items[i]
                      for symbol in RULES[rule][1][dot:dot + 1]
                      if symbol not in BY_LEFT and fits(symbol, ts[i])})
        if not items[-1]:
            break
    return items, wanted


def first_misfit(ts):
    """The index of the first token with which no text goes on, and what was wanted at each. It is
    None where the tokens are a text, and their number where they end too early."""
    items, wanted = read(ts)
    if not items[-1]:
        return len(items) - 2, wanted
    whole = any((rule, len(RULES[rule][1]), 0) in items[-1] for rule in BY_LEFT["text"])
    return None if whole else len(ts), wanted


def missing(ts, i, wanted):
    """The form that firc does not read at the token where the text stops, or at the one before."""
    def at(j):
        if not 0 <= j < len(ts) or ts[j].kind != "word":
            return False
        word, behind = ts[j].spelling, ts[j + 1][:2] if j + 1 < len(ts) else None
        is_port = word in PORTS and behind == ("word", "mport")
        return ("stmt" in wanted[j] and (word in STATEMENTS or is_port)
                or "module" in wanted[j] and word in ("extmodule", "intmodule")
                or "type" in wanted[j] and word in TYPES
                or "expr" in wanted[j] and word in EXPRESSIONS and behind == ("sign", "("))

    if at(i):
        return ts[i]
    is_told_late = at(i - 1) and (ts[i - 1].spelling not in PORTS or ts[i][:2] == ("word", "mport"))
    return ts[i - 1] if is_told_late else None


def spelled_number(token):
    """The number that a literal's integer or string spells, None where it is out of form."""
    if token.kind == "integer":
        return int(token.spelling)
    found = re.fullmatch("([+-]?)([boh])([+-]?)([0-9A-Fa-f]+)", token.spelling)
    if not found or found[1] and found[3]:
        return None
    try:
        number = int(found[4], {"b": 2, "o": 8, "h": 16}[found[2]])
    except ValueError:
        return None
    return None if number >> 128 else -number if "-" in (found[1], found[3]) else number


def malformed(ts, wanted, stop):
    """The line of E03 or E07 of the tokens before a place, or None."""
    for i in range(stop):
        if i == 2 and ts[0].spelling == "FIRRTL" and int(ts[2].spelling) not in (1, 2):
            return f"E07 {ts[2].line}:{ts[2].column} version {int(ts[2].spelling)}"
        if "number" in wanted[i]:
            number = spelled_number(ts[i])
            is_unsigned = ts[i - 2 if ts[i - 2].kind == "word" else i - 5].spelling == "UInt"
            if number is None or number < 0 and is_unsigned:
                return f"E03 {ts[i].line}:{ts[i].column} literal"
    return None


def fault(text):
    """The line of E03, E04, E05 or E07, or None."""
    ts, end = tokens(text)
    i, wanted = first_misfit(ts)
    early = malformed(ts, wanted, len(ts) if i is None else i)
    if early or i is None:
        return early
    if i == len(ts):
        return "E04 %d:%d syntax" % end
    form = missing(ts, i, wanted)
    if form:
        return f"E05 {form.line}:{form.column} unsupported {form.spelling}"
    return f"E04 {ts[i].line}:{ts[i].column} syntax"


def spans(items, ts, right, start, end):
    """The left sides in a right side and what each derives, None where the tokens are others."""
    if not right:
        return [] if start == end else None
    if right[-1] not in BY_LEFT:
        is_last = start < end and fits(right[-1], ts[end - 1])
        return spans(items, ts, right[:-1], start, end - 1) if is_last else None
    for rule, dot, middle in items[end]:
        if RULES[rule][0] == right[-1] and dot == len(RULES[rule][1]):
            front = spans(items, ts, right[:-1], start, middle)
            if front is not None:
                return front + [(right[-1], middle, end)]
    return None


def derived(text):
    """The productions by which a text of the grammar is derived."""
    ts, _ = tokens(text)
    items, _ = read(ts)
    seen, work = set(), [("text", 0, len(ts))]
    while work:
        left, start, end = work.pop()
        for rule in BY_LEFT[left]:
            right = RULES[rule][1]
            if (rule, len(right), start) in items[end] and (rule, start, end) not in seen:
                parts = spans(items, ts, right, start, end)
                if parts is not None:
                    seen.add((rule, start, end))
                    work += parts
    return {rule for rule, _, _ in seen}
