"""A chain of registers, each of which takes some operators over the one before it, in FIRRTL and in
Verilog as it would be written by hand."""

WIDTH = 16


def not_of(last, own):
    """One operator."""
    return f"not({last})"


def not_of_in_verilog(last, own):
    return f"~{last}"


def ten_over(last, own):
    """Ten operators over the register before and over its own value."""
    turned = f"cat(bits({last}, {WIDTH - 2}, 0), bits({last}, {WIDTH - 1}, {WIDTH - 1}))"
    first, second = f"or(and({turned}, {own}), not({last}))", f"or(xor({own}, {last}), not({own}))"
    return f"xor({first}, {second})"


def ten_over_in_verilog(last, own):
    turned = f"{{{last}[{WIDTH - 2}:0], {last}[{WIDTH - 1}]}}"
    return f"(({turned} & {own}) | ~{last}) ^ (({own} ^ {last}) | ~{own})"


# what a register takes, in both languages, by how many operators that are
STEPS = {1: (not_of, not_of_in_verilog), 10: (ten_over, ten_over_in_verilog)}


def firrtl(registers, operators):
    """The text of the chain."""
    lines = ["circuit Chain :", "  module Chain :", "    input clock : Clock"]
    lines += [f"    input a : UInt<{WIDTH}>", f"    output o : UInt<{WIDTH}>"]
    step, last = STEPS[operators][0], "a"
    for k in range(registers):
        lines.append(f"    reg r{k} : UInt<{WIDTH}>, clock")
        lines.append(f"    r{k} <= {step(last, f'r{k}')}")
        last = f"r{k}"
    return "\n".join(lines + [f"    o <= {last}"]) + "\n"


def verilog(registers, operators):
    """The same by hand."""
    span = f"[{WIDTH - 1}:0]"
    lines = ["module Chain(", "  input clock,", f"  input {span} a,", f"  output {span} o", ");"]
    lines += [f"  reg {span} r{k};" for k in range(registers)]
    step, last = STEPS[operators][1], "a"
    for k in range(registers):
        lines.append(f"  always @(posedge clock) r{k} <= {step(last, f'r{k}')};")
        last = f"r{k}"
    return "\n".join(lines + [f"  assign o = {last};", "endmodule"]) + "\n"
