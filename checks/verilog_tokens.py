"""A second reading of which tokens a text of the Verilog subset has, and where they stand."""
import re
from typing import NamedTuple

RESERVED = frozenset("""always and assign automatic begin buf bufif0 bufif1 case casex casez cell
cmos config deassign default defparam design disable edge else end endcase endconfig endfunction
endgenerate endmodule endprimitive endspecify endtable endtask event for force forever fork function
generate genvar highz0 highz1 if ifnone incdir include initial inout input instance integer join
large liblist library localparam macromodule medium module nand negedge nmos nor noshowcancelled not
notif0 notif1 or output parameter pmos posedge primitive pull0 pull1 pulldown pullup
pulsestyle_ondetect pulsestyle_onevent rcmos real realtime reg release repeat rnmos rpmos rtran
rtranif0 rtranif1 scalared showcancelled signed small specify specparam strong0 strong1 supply0
supply1 table task time tran tranif0 tranif1 tri tri0 tri1 triand trior trireg unsigned use uwire
vectored wait wand weak0 weak1 while wire wor xnor xor""".split())
# what may begin at a place, the longest of its kind; a comment that is not closed is none of these
PIECE = re.compile(r"""
    (?P<blank> [ \t\r\n]+ | //[^\n]* | /\*.*?\*/ )
  | (?P<const> [0-9]+'(?: h[0-9a-fA-F]+ | d[0-9]+ | b[01]+ ) )
  | (?P<num> [0-9]+ )
  | (?P<name> [A-Za-z_][A-Za-z0-9_$]* )
  | (?P<sign> >>> | << | >> | <= | >= | == | != | \(\* | \*\) | \$signed | /(?!\*)
            | [()\[\]{};,:=<>+\-*%&|^~?@] )
    """, re.VERBOSE | re.DOTALL)


class Place(NamedTuple):
    """A line, and a column in bytes, both from 1."""
    line: int
    column: int

    def __str__(self):
        return f"{self.line}:{self.column}"

    def behind(self, piece):
        """The place behind a piece of text that begins here."""
        lines = piece.count("\n")
        if lines:
            return Place(self.line + lines, len(piece) - piece.rindex("\n"))
        return Place(self.line, self.column + len(piece))


class Token(NamedTuple):
    """A token. Its kind is name, word (a reserved one), num, const, sign, or digit for a `?` that
    stands directly behind a const; or bad for a byte that is in no token, or end."""
    kind: str
    spelling: str
    at: Place


def tokens(text):
    """The tokens of a text, of which each byte is one character, up to a bad byte or the end."""
    out, at, here = [], Place(1, 1), 0
    follows_const = False
    while here < len(text):
        found = PIECE.match(text, here)
        if not found:
            return out + [Token("bad", text[here], at)]
        kind, piece = found.lastgroup, found[0]
        if kind == "name" and piece in RESERVED:
            kind = "word"
        elif piece == "?" and follows_const:
            kind = "digit"
        if kind != "blank":
            out.append(Token(kind, piece, at))
        follows_const = kind == "const"
        at, here = at.behind(piece), found.end()
    return out + [Token("end", "", at)]
