"""Texts of the Verilog subset that are made one by one: each form of the grammar with a token more,
another token or a reserved word in it, texts with two faults, and each front of a text."""
import pathlib

from verilog_rows import HEAD, ITEMS, MODULES
from verilog_tokens import RESERVED, tokens

FORMS = pathlib.Path(__file__).resolve().parent / "verilog" / "forms.v"
# each sign and each word of the grammar, each kind of token, and bytes that are in none
OTHERS = """module endmodule input output wire reg assign always posedge or if else begin end clock a
0 3 4'h9 4'd9 4'b1 $signed >>> << >> <= >= == != ( ) [ ] { } ; , : = < > + - * / % & | ^ ~ ? @
(* *) . ' ! $ \\ \x80 /*""".split()
HEAD_OF_PAIRS = ("module T((* clock *) input k, (* clock *) output q, input [3:0] a, input c,"
                 " output [3:0] o);\nassign q = k; assign o = a; reg [3:0] r; reg [3:0] m [0:3];\n")
# what stands in a line of which each has a fault, where # is the number of the line
FAULTS = """
.
/*
;
wire
wire w# = a;
assign o = {BRACES};
wire [3:0] w#; assign w# = z;
assign z = a;
wire [3:0] w#; assign w# = {a[2:0], z};
wire [3:0] w#; assign w# = m[z];
wire [3:0] w#; assign w# = z[a];
wire [3:0] w#; assign w# = z ? a : z;
always @(posedge z) r <= a;
always @(posedge k) z <= a;
reg [3:0] s#; always @(posedge k or posedge z) if (z) s# <= 4'h0; else s# <= a;
reg [3:0] s#; always @(posedge k or posedge c) if (z) s# <= 4'h0; else s# <= a;
reg [3:0] s#; always @(posedge k or posedge c) if (c) s# <= 4'h0; else z <= a;
always @(posedge k) begin if (c) z[a] <= a; end
always @(posedge z) begin end
wire [3:0] w#; assign w# = c;
wire [3:0] w#; assign w# = a + c;
wire [3:0] w#; assign w# = c ? a : c;
wire [3:0] w#; assign w# = a ? a : a;
wire [3:0] w#; assign w# = a == a;
wire w#; assign w# = a == c;
wire [3:0] w#; assign w# = &a;
wire [3:0] w#; assign w# = $signed(c) / $signed(a);
wire [3:0] w#; assign w# = 4'h10;
wire [3:0] w#; assign w# = 5'h3;
wire [3:0] w#; assign w# = a[4:1];
wire [3:0] w#; assign w# = {a, 0'h0};
wire [3:0] w#; assign w# = k;
wire [3:0] w#; assign w# = m;
wire [3:0] w#; assign w# = q;
reg s#; assign s# = c;
assign m = a;
assign q = c;
wire [0:0] w#; assign w# = c;
wire [128:0] w#; assign w# = {129{c}};
reg w# [0:4194304];
always @(posedge c) r <= a;
always @(posedge k) o <= a;
always @(posedge k) m <= a;
reg [3:0] s#; always @(posedge k) s# <= c;
reg s#; always @(posedge a) if (a) s# <= 1'h0;
reg s#; always @(posedge k or posedge k) if (k) s# <= 1'h0; else s# <= c;
reg s#; always @(posedge c) if (c) s# <= 2'h0;
reg n# [0:3]; always @(posedge k) begin if (a) n#[a] <= c; end
reg n# [0:3]; always @(posedge k) begin if (c) n#[a] <= a; end
reg n# [0:3]; always @(posedge k) begin if (c) n#[a] <= c; if (c) m[a] <= a; end
wire a;
reg o;
reg [0:0] a;
assign o = ~a;
assign a = o;
assign a = &c;
assign c = a == a;
assign k = 1'h0;
assign q = 1'h0;
assign q = ~k;
reg s#; always @(posedge k) s# <= c; always @(posedge k) s# <= c;
reg n# [0:3]; always @(posedge k) begin if (c) n#[a] <= c; end always @(posedge k) begin if (c) n#[a] <= c; end
wire w#; assign w# = ~w#;
wire w#; reg s#; assign w# = s#; always @(posedge w#) if (w#) s# <= 1'h0;
wire [3:0] w#; assign w# = m[w#];
reg s#; always @(posedge s#) if (s#) s# <= 1'h1;
wire v#; wire w#; wire x#; assign v# = w# & c; assign w# = x#; assign x# = v# | w#;
wire u#;
wire [3:0] v#; wire u#; assign u# = v#[0];
""".strip().replace("BRACES", 257 * "{" + "a" + 257 * "}").split("\n")


def put_in(text, token, spelling):
    """The text with something more, parted by blanks, in the place of a token."""
    begin = sum(len(line) + 1 for line in text.split("\n")[:token.at.line - 1]) + token.at.column - 1
    return text[:begin], f" {spelling} ", text[begin:], text[begin + len(token.spelling):]


def forms():
    """The texts of the grammar's forms."""
    for text in MODULES + [HEAD + item for item in ITEMS]:
        yield text if text.endswith("endmodule") else text + "\nendmodule"


def with_others():
    """Each form with another token before each of its own, or in its place."""
    for form in forms():
        for token in tokens(form):
            for spelling in OTHERS:
                before, put, here, behind = put_in(form, token, spelling)
                yield from (before + put + here, before + put + behind)


def with_words():
    """Each form with each reserved word in the place of each of its names."""
    for form in forms():
        for token in tokens(form):
            for word in sorted(RESERVED) if token.kind == "name" else ():
                before, put, _, behind = put_in(form, token, word)
                yield before + put + behind


def with_two_faults():
    """Texts with each fault and behind it each other one, or the same."""
    for first in FAULTS:
        for second in FAULTS:
            lines = first.replace("#", "1") + "\n" + second.replace("#", "2")
            yield HEAD_OF_PAIRS + lines + "\nendmodule\n"


def fronts():
    """What stands before each byte of the text with every form."""
    text = FORMS.read_bytes().decode("latin-1")
    for length in range(len(text)):
        yield text[:length]


def made():
    """The texts by what they have, each once."""
    return {name: list(dict.fromkeys(texts())) for name, texts in
            (("another token", with_others), ("a reserved word", with_words),
             ("two faults", with_two_faults), ("a front", fronts))}
