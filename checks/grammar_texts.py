"""The small texts that tests of fir_parse_tests read: each form of the grammar once."""

HEAD = "circuit T :\n  module M :\n"

TEXTS = [
    "circuit T :\n  module T :\n",
    "circuit T :\n  module T :\n  module U :\n    skip\n",
    'circuit T : %[[ {"a": 1} ]]\n  module T :\n',
    "FIRRTL version 1.1.0\ncircuit T :\n  module T :\n",
    "FIRRTL version 02.0.7\ncircuit circuit : @[x]\n  module module :\n    skip",
]

STATEMENTS = """\
input a : UInt<4>
output o : SInt<3>
input c : Clock
input r : Reset
output r : AsyncReset
input b : { a : UInt, flip b : SInt<2>[3] }
input e : {}
input v : SInt[2][0]
input f : { flip : UInt<1>, 7 : Clock, flip 08 : Reset }
input input : UInt<1>
wire w : UInt<4>[2]
node n = a
reg r : UInt<4>, clock
reg is : { a : UInt }, c.k with : (reset => (a, UInt<4>(0)))
inst i of N
inst of of of
mem m :
skip
a <= b
a.b <= c
a[i].x <- not(c)
a is invalid
a.b[2] is invalid
wire <= skip
skip is invalid
is is invalid
when a :
""".splitlines()

BLOCKS = [
    "reg r : UInt<4>, clock with :\n  reset => (reset, a)\nskip",
    "mem m :\n  data-type => UInt<8>[2]\n  depth => 016\n  read-latency => 0\n"
    "  write-latency => 1\n  reader => r s\n  writer => w\n  readwriter => rw\n"
    "  read-under-write => old",
    "mem m :\n  read-under-write => new\n  read-under-write => undefined\n  depth => 1\nskip",
    "when a :\n  skip\nelse :\n  a <= b\nskip",
    "when a :\n  skip\nelse when b :\n  node n = c\nelse when d :\nelse :\n  skip\nskip",
    "when a :\nelse :\nskip",
    "when a :\nelse <= b",
    "when a :\n  when b :\n    skip\n  else :\n    skip\nelse :\n  when c :\n    skip",
    "when a :\n  wire w : Clock\n  inst i of N\n  mem m :\n    depth => 2\n  reg r : UInt, c\n"
    "  w is invalid",
    "input a : UInt<1>\ninput <= a\noutput is invalid",
    "skip ; a comment\n; a comment alone\n\nskip @[file.scala 3:4]",
]

EXPRESSIONS = """\
UInt<4>(5)
UInt(5)
SInt<4>(-5)
SInt(+3)
UInt("hfF")
SInt<4>("-b101")
SInt("h-8")
UInt<9>("o+17")
UInt
mux
not(a)
add(sub(a, b), mul(c, d))
div(rem(a, b), cat(c, d))
or(and(lt(a, b), leq(c, d)), xor(gt(e, f), geq(g, h)))
mux(eq(a, b), neq(c, d), validif(e, f))
dshl(dshr(a, b), andr(c))
xorr(orr(cvt(neg(a))))
asUInt(asSInt(asAsyncReset(a)))
pad(shl(a, 3), 0)
tail(head(shr(a, 1), 20), 4)
bits(a, 3, 0)
a.b
a.7.flip
a[3]
a[b.c[2]].d[add(x, y)]
a[UInt<2>(1)]
""".splitlines()


def body(lines):
    """The text of a module with these lines."""
    return HEAD + "".join("    " + line + "\n" for line in lines.split("\n"))


FORMS_OF_STATEMENTS = TEXTS + [body(lines) for lines in STATEMENTS + BLOCKS]
FORMS_OF_EXPRESSIONS = [body("node n = " + expression) for expression in EXPRESSIONS]

# A text in which numbers, blanks, remarks and versions are spelled in less usual ways.
SPELLED = """\
FIRRTL version 1.1.0
circuit T : %[[{"class":"x]"}]]
  ; a comment
  module T :
    input clock : Clock
    input reset : UInt<1>
    output io : { flip d : UInt<8>, q : UInt<8>}

    reg q : UInt, clock with :
      reset => (UInt<1>("h0"), q) @[T.scala 9:14]
    q <= io.d @[T.scala 10:5]
    io.q <= q @[T.scala 11:8]
"""

NUMBERS = """\
UInt(340282366920938463463374607431768211455)
UInt("hffffffffffffffffffffffffffffffff")
UInt<0004>(007)
UInt("haBcD")
UInt("h-0")
SInt(-1)
SInt("-h8")
SInt("+h8")
SInt<340282366920938463463374607431768211455>("b-0")
""".splitlines()

SPELLINGS = [
    SPELLED,
    "\n; nothing\nFIRRTL  version 1 . 1 . 0 @[x]\n\ncircuit T:\n  module M :\n",
    *[body("node n = " + number) for number in NUMBERS],
]
