"""The texts that verilog.py measures: Verilog of the subset, or the circuit of which it is emitted.
They are made by a number of bytes, `size`, or by a number of wires, `count`. All have one input."""
import texts

HEAD = "module T(input a, output o);\n"
TAIL = "assign o = a;\nendmodule\n"


# What is emitted

def emitted_chain_of_nodes(size):
    """The circuit of so many nodes that its Verilog has that size: 60 bytes for each."""
    return texts.chain((size - 100) // 60)


# Forms of the text

def one_line_of_items(size):
    count = (size - len(HEAD) - len(TAIL)) // 32
    items = "".join(f"wire w{k:07};assign w{k:07}=a;" for k in range(count))
    return HEAD[:-1] + items + TAIL


def lines_of_comments(size):
    return texts.filled(size, HEAD, "// " + "c" * 60 + "\n", TAIL)


def one_comment(size):
    return HEAD + "/*" + "c" * (size - len(HEAD) - len(TAIL) - 5) + "*/\n" + TAIL


def concatenations_of_128_parts(size):
    parts = "{" + ", ".join(["a"] * 128) + "}"
    count = (size - len(HEAD) - len(TAIL)) // (len(parts) + 48)
    items = "".join(f"wire [127:0] w{k:07};\nassign w{k:07} = {parts};\n" for k in range(count))
    return HEAD + items + TAIL


# Wires and their assigns

def wires(count):
    return "".join(f"wire w{k};\n" for k in range(count))


def chained(k):
    """The assign of a wire in a chain from the input."""
    return f"assign w{k} = {f'w{k - 1}' if k else 'a'};\n"


def wires_of_the_input(count):
    return HEAD + wires(count) + "".join(f"assign w{k} = a;\n" for k in range(count)) + TAIL


def chain_forwards(count):
    """Each wire stands before its assign."""
    return HEAD + "".join(f"wire w{k};\n" + chained(k) for k in range(count)) + TAIL


def chain_backwards(count):
    """All wires stand before the assigns."""
    return HEAD + wires(count) + "".join(map(chained, reversed(range(count)))) + TAIL


def chain_before_its_wires(count):
    """Each assign stands behind its wire, and before that of what it reads."""
    items = (f"wire w{k};\n" + chained(k) for k in reversed(range(count)))
    return HEAD + "".join(items) + TAIL


def ring(count):
    assigns = "".join(f"assign w{k} = w{(k + 1) % count};\n" for k in range(count))
    return HEAD + wires(count) + assigns + TAIL
