"""Changes of texts of the Verilog subset, each of which may put a fault in, or several."""
from verilog_grammar import BINARY
from verilog_tokens import RESERVED, tokens

POOL = """module endmodule input output wire reg assign always posedge or if else begin end clock a b zz
0 1 3 00 4'h9 1'h0 1'b1 $signed >>> << >> <= >= == != ( ) [ ] { } ; , : = < > + - * / % & | ^ ~ ?
@ (* *)""".split()
BAD = ["'", ".", "$", "!", "#", "\\", "\"", "\x0c", "\x80", "\xef\xbb\xbf", "/*", "`", "$sign", "\x7f"]
NUMBERS = "0 1 2 3 7 8 126 127 128 129 4194303 4194304 4294967296 18446744073709551617".split()
SIZES = "0 1 2 4 8 127 128 129 4294967297".split()
DIGITS = ["h0", "h1", "hf", "hff", "d2", "d10", "b0", "b11", "h" + 33 * "0" + "1", "h" + 33 * "f",
          "d340282366920938463463374607431768211456"]
SWAPS = {"wire": ["reg", "output"], "reg": ["wire"], "input": ["output"], "output": ["input"],
         "posedge": ["negedge"], "<=": ["="], "=": ["<="]}


def kind(spelling):
    """The kind of a token that is one of the subset, and else bad."""
    return tokens(spelling)[0].kind


class Changes:
    """Changes the groups of a text: lists of tokens, of which the first is the head, the last the
    end, and each other an item."""

    def __init__(self, groups, chance):
        self.groups, self.chance = [list(group) for group in groups], chance

    def put(self, count):
        """Puts that many changes in, and gives the groups."""
        ways = [self.token, self.name, self.name, self.name, self.num, self.num, self.const,
                self.const, self.item, self.item, self.swap, self.brace, self.bad, self.operator,
                self.reserved, self.select, self.clock]
        for _ in range(count):
            self.chance.choice(ways)()
        return self.groups

    def places(self, *kinds):
        return [(group, at) for group in self.groups for at, spelling in enumerate(group)
                if kind(spelling) in kinds]

    def place(self, *kinds):
        """A token of one of these kinds, or None."""
        return self.chance.choice(self.places(*kinds) or [None])

    def names(self):
        return [group[at] for group, at in self.places("name")]

    def token(self):
        """Leaves a token out, doubles it, puts another one in its place or before it."""
        group = self.chance.choice(self.groups)
        if group:
            at = self.chance.randrange(len(group))
            other = self.chance.choice(POOL)
            group[at:at + 1] = self.chance.choice([[], [group[at]] * 2, [other],
                                                   [other, group[at]]])

    def name(self):
        """A name is another one."""
        place = self.place("name")
        if place:
            group, at = place
            group[at] = self.chance.choice(self.names() + ["zz"])

    def reserved(self):
        if self.chance.random() < 0.3:
            group, at = self.place("name") or ([""], 0)
            group[at] = self.chance.choice(sorted(RESERVED))

    def num(self):
        place = self.place("num")
        if place:
            group, at = place
            was = int(group[at])
            group[at] = self.chance.choice(NUMBERS + [str(was + 1), str(max(0, was - 1)), "007"])

    def const(self):
        """A const has another size, other digits, or both; or an atom is a const now."""
        group, at = self.place("const") or self.place("name") or ([""], 0)
        size, _, digits = group[at].partition("'")
        other = self.chance.choice([size or "4", self.chance.choice(SIZES)])
        if self.chance.random() < 0.5 or not digits:
            digits = self.chance.choice(DIGITS)
        group[at] = f"{other}'{digits}"

    def item(self):
        """An item is left out, doubled, or stands elsewhere."""
        if len(self.groups) < 3:
            return
        at = self.chance.randrange(1, len(self.groups) - 1)
        item = self.groups.pop(at)
        for _ in range(self.chance.choice([0, 1, 1, 2])):
            self.groups.insert(self.chance.randint(1, len(self.groups) - 1), list(item))

    def swap(self):
        """A word or sign is one of another kind of item."""
        found = [(group, at) for group in self.groups for at, spelling in enumerate(group)
                 if spelling in SWAPS]
        if found:
            group, at = self.chance.choice(found)
            group[at] = self.chance.choice(SWAPS[group[at]])

    def clock(self):
        """A clock input is a plain one, or a plain port a clock."""
        head = self.groups[0]
        found = [at for at, spelling in enumerate(head) if spelling in ("input", "output")]
        if found:
            at = self.chance.choice(found)
            if head[at - 1] == "*)":
                del head[at - 3:at]
            else:
                head[at:at] = ["(*", "clock", "*)"]

    def operator(self):
        found = [(group, at) for group in self.groups[1:] for at, spelling in enumerate(group)
                 if spelling in BINARY + (">>>", "~", "?")]
        if found:
            group, at = self.chance.choice(found)
            group[at] = self.chance.choice(BINARY + ("~", ">>>", "?"))

    def select(self):
        """A name behind which no bracket stands has one, with a num or an atom in it."""
        place = self.place("name")
        if place:
            group, at = place
            num, other = (self.chance.choice(NUMBERS[:6]) for _ in range(2))
            within = [[num], [num, ":", other], [self.chance.choice(self.names())], ["2'h1"]]
            group[at + 1:at + 1] = ["[", *self.chance.choice(within), "]"]

    def brace(self):
        """Puts braces around a name or const; now and then more than may be open."""
        group, at = self.place("name", "const") or ([""], 0)
        spelling = group[at]
        count = self.chance.choice([1, 1, 2, 255, 256, 257, 300])
        if self.chance.random() < 0.3:
            times = self.chance.choice(["0", "1", "1", "2", "129"])
            group[at:at + 1] = ["{", times, "{", spelling, "}", "}"]
        elif self.chance.random() < 0.2:
            group[at:at + 1] = ["{", "1"] * count + ["{", spelling, "}"] + ["}"] * count
        else:
            group[at:at + 1] = ["{"] * count + [spelling] + ["}"] * count

    def bad(self):
        """Puts in what is no token."""
        if self.chance.random() < 0.3:
            group = self.chance.choice(self.groups)
            group.insert(self.chance.randint(0, len(group)), self.chance.choice(BAD))
