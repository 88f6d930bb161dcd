"""The texts that the scripts of this folder measure. They are made by a number of bytes, `size`, or
by a number of what they have many of, `count`."""

HEAD = "circuit T :\n  module T :\n    input a : UInt<4>\n    output o : UInt<4>\n"
HEAD_OF_ONE_BIT = "circuit T :\n  module T :\n    input a : UInt<1>\n    output o : UInt<1>\n"
HEAD_OF_NONE = "circuit T :\n  module T :\n"
TAIL = "    o <= a\n"


def filled(size, head, line, tail):
    """The line as often as the size has room for it."""
    return head + line * max(1, (size - len(head) - len(tail)) // len(line)) + tail


# Forms of the text

def blank_lines(size):
    return filled(size, HEAD, "\n", TAIL)


def one_comment(size):
    return HEAD + ";" + "c" * (size - len(HEAD) - len(TAIL) - 2) + "\n" + TAIL


def one_information(size):
    return HEAD + TAIL[:-1] + " @[" + "i" * (size - len(HEAD) - len(TAIL) - 4) + "]\n"


def one_long_name(size):
    name = "n" * ((size - len(HEAD) - 40) // 2)
    return HEAD + f"    node {name} = not(a)\n    o <= {name}\n"


def skips(size):
    return filled(size, HEAD, "    skip\n", TAIL)


def dots(size):
    """One reference with so many parts that it is nested too deep."""
    return HEAD + "    o <= a" + ".b" * ((size - len(HEAD) - 20) // 2) + "\n"


# Names

def modules(size):
    """None of them is the main one."""
    return "circuit T :\n" + "".join(f"  module M{i} :\n" for i in range(size // 20))


def instances(size):
    lines = "".join(f"    inst i{k} of M\n" for k in range(size // 24))
    return HEAD + lines + TAIL + "  module M :\n"


def chain_of_modules(size, last=""):
    """Modules that instantiate the next one twice each."""
    count = size // 70
    lines = "".join(f"  module M{i} :\n    inst a of M{i + 1}\n    inst b of M{i + 1}\n"
                    for i in range(count))
    return "circuit M0 :\n" + lines + f"  module M{count} :\n" + last


def ring_of_modules(size):
    return chain_of_modules(size, "    inst a of M0\n    inst b of M0\n")


def ports_of_one_memory(size):
    ports = " ".join(f"reader_of_the_memory_with_number_{i:07}" for i in range((size - 300) // 41))
    fields = ("data-type => UInt<1>", "depth => 2", "read-latency => 0", "write-latency => 1")
    lines = "".join(f"      {field}\n" for field in fields)
    return HEAD_OF_NONE + f"    mem m :\n{lines}      reader => {ports}\n    m is invalid\n"


def one_long_name_used_many_times(size):
    """A connect for each KiB. Each reads a port of a long name by the short one of a node, so that
    in the written text the long one stands in each assign."""
    count, name = size // 1024, "n" * 4000
    ports = "".join(f"    output o{k} : UInt<4>\n" for k in range(count))
    head = HEAD_OF_NONE + f"    input {name} : UInt<4>\n{ports}    node n = {name}\n"
    return head + "".join(f"    o{k} <= n\n" for k in range(count))


def elements_of_a_long_name(count):
    """Registers with a name of 4000 bytes, which stands before each of their numbers."""
    name = "n" * 4000
    return (HEAD_OF_ONE_BIT + f"    input clock : Clock\n    reg {name} : UInt<1>[{count}], clock\n"
            + f"    {name}[0] <= a\n" + TAIL)


def nodes_that_stand_for_a_long_name(count):
    """The name has as many bytes as there are nodes, and is not written for them."""
    name, lines, last = "n" * count, [], "n" * count
    for i in range(count):
        lines.append(f"    node m{i} = {last}\n")
        last = f"m{i}"
    return HEAD + f"    input {name} : UInt<4>\n" + "".join(lines) + TAIL


def elements_of_a_wire_of_a_long_name(count):
    """The name has as many bytes as the wire has elements, and is not written."""
    name = "n" * count
    return HEAD + f"    wire {name} : UInt<1>[{count}]\n    {name} is invalid\n" + TAIL


def leaves_of_one_base(count):
    """Inputs whose paths are all the same where the parts are joined by `_`, so that each wants the
    first free number."""
    def ways(words, room):
        """A type with a leaf for each way to part so many words, and how many these are."""
        if words == 0:
            return "UInt<1>", 1
        fields, found = [], 0
        for first in range(1, words + 1):
            if found < room:
                inner, more = ways(words - first, room - found)
                fields.append("_".join("x" * first) + " : " + inner)
                found += more
        return "{" + ", ".join(fields) + "}", found

    return HEAD + f"    input p : {ways((count - 1).bit_length() + 1, count)[0]}\n" + TAIL


# Designs

FACE = "    input clock : Clock\n    input d : UInt<1>\n    output q : UInt<1>\n"


def module_of_instances(name, of, count):
    """A module with so many instances of another in a row."""
    lines = "".join(f"    inst i{k} of {of}\n    i{k}.clock <= clock\n"
                    f"    i{k}.d <= {f'i{k - 1}.q' if k else 'd'}\n" for k in range(count))
    return f"  module {name} :\n{FACE}{lines}    q <= i{count - 1}.q\n"


def register_module(name):
    return f"  module {name} :\n{FACE}    reg r : UInt<1>, clock\n    r <= d\n    q <= r\n"


def instances_of_a_register(count):
    return "circuit T :\n" + register_module("R") + module_of_instances("T", "R", count)


def instances_in_instances(levels, each):
    """Modules with so many instances each of the one before, the first with a register."""
    below = "".join(module_of_instances(f"M{k}", f"M{k - 1}", each) for k in range(1, levels))
    top = module_of_instances("T", f"M{levels - 1}", each)
    return "circuit T :\n" + register_module("M0") + below + top


def levels_of_two_instances(levels):
    return instances_in_instances(levels, 2)


def levels_of_one_instance(levels):
    return instances_in_instances(levels, 1)


def instances_of_1000_registers(count):
    lines = "    reg r : UInt<1>[1000], clock\n    r[0] <= d\n    q <= r[0]\n"
    return f"circuit T :\n  module R :\n{FACE}{lines}" + module_of_instances("T", "R", count)


# Nodes, registers and ports

def chain(count):
    """So many nodes, each of the one before, none of which is folded away."""
    lines, last = [], "a"
    for i in range(count):
        lines.append(f"    node n{i} = xor({last}, UInt<4>(5))\n")
        last = f"n{i}"
    return HEAD + "".join(lines) + f"    o <= {last}\n"


def chain_of_nodes(size):
    return chain((size - 2000) // 45)


def connects(size):
    return filled(size, HEAD, "    o <= and(not(a), xor(a, UInt<4>(3)))\n", TAIL)


def many_ports(size):
    count = size // 86
    ports = "".join(f"    input i{k} : UInt<4>\n    output o{k} : UInt<4>\n" for k in range(count))
    return HEAD_OF_NONE + ports + "".join(f"    o{k} <= i{k}\n" for k in range(count))


def chain_of_registers(size):
    """Registers in a chain, each of which takes the one before, with a clock for each 100."""
    count = size // 70
    clocks = "".join(f"    input c{k} : Clock\n" for k in range(count // 100 + 1))
    registers = "".join(f"    reg r{i} : UInt<4>, c{i // 100}\n" for i in range(count))
    takes = "".join(f"    r{i} <= not(r{i - 1})\n" for i in range(1, count))
    return HEAD_OF_NONE + clocks + registers + takes


def chain_of_registers_with_resets(size):
    """Each is set to the one before by the reset, and else takes it turned."""
    lines, last = [], "a"
    for i in range(size // 95):
        lines.append(f"    reg r{i} : UInt<4>, clock with : (reset => (reset, {last}))\n"
                     f"    r{i} <= not({last})\n")
        last = f"r{i}"
    return (HEAD + "    input clock : Clock\n    input reset : UInt<1>\n" + "".join(lines)
            + f"    o <= {last}\n")


# Widths and resets that are inferred

def chain_without_widths(count):
    """So many nodes and registers by turns, each of the one before, none with a width."""
    lines, last = ["    input clock : Clock\n"], "a"
    for i in range(count // 2):
        lines.append(f"    node n{i} = not({last})\n    reg r{i} : UInt, clock\n    r{i} <= n{i}\n")
        last = f"r{i}"
    return HEAD + "".join(lines) + f"    o <= {last}\n"


def ring_that_grows(count):
    """Registers in a ring, in which a bit is added once a turn: each rises to over 128 bits."""
    lines = ["    input clock : Clock\n"]
    lines += [f"    reg r{i} : UInt, clock\n" for i in range(count)]
    lines += [f"    r{i} <= r{i - 1}\n" for i in range(1, count)]
    return HEAD + "".join(lines) + f"    r0 <= add(r{count - 1}, UInt<1>(1))\n" + TAIL


def resets_in_a_row(count):
    """Each takes the one before, and the first an AsyncReset."""
    lines, last = ["    input r : AsyncReset\n"], "r"
    for i in range(count):
        lines.append(f"    wire w{i} : Reset\n    w{i} <= {last}\n")
        last = f"w{i}"
    return HEAD + "".join(lines) + TAIL


# Bundles and vectors

def fields_of_one_bundle(size):
    """Two ports of it, of which one drives the other."""
    fields = ", ".join(f"f{i} : UInt<1>" for i in range(size // 40))
    ports = f"    input b : {{{fields}}}\n    output o : {{{fields}}}\n"
    return HEAD_OF_NONE + ports + "    o <= b\n"


def parts_of_references(size):
    """Connects that read the innermost of 200 bundles in each other."""
    type_of_port = "{b : " * 200 + "UInt<4>" + "}" * 200
    head = HEAD_OF_NONE + f"    input a : {type_of_port}\n    output o : UInt<4>\n"
    return filled(size, head, "    o <= a" + ".b" * 200 + "\n", "")


def elements_of_vectors(size):
    """Reads of an element of 250 vectors in each other."""
    head = HEAD + "    wire v : UInt<4>" + "[1]" * 250 + "\n    v is invalid\n"
    return filled(size, head, "    o <= v" + "[0]" * 250 + "\n", "")


def deep_bundles(size):
    """Wires in a chain, each of 100 bundles in each other, with a field either way in each."""
    kind = "{flip ready : UInt<1>, valid : UInt<1>, next : " * 100 + "UInt<8>" + "}" * 100
    lines, last = [], "i"
    for k in range(size // (len(kind) + 50) - 2):
        lines.append(f"    wire w{k} : {kind}\n    w{k} <= {last}\n")
        last = f"w{k}"
    ports = f"    input i : {kind}\n    output o : {kind}\n"
    return HEAD_OF_NONE + ports + "".join(lines) + f"    o <= {last}\n"


def with_fields(name, count, kind="UInt<1>"):
    """A wire with so many fields, which is driven."""
    fields = ", ".join(f"f{i} : {kind}" for i in range(count))
    return f"    wire {name} : {{{fields}}}\n    {name} is invalid\n"


def connects_of_100_fields(count):
    return HEAD + with_fields("p", 100) + with_fields("q", 100) + "    p <= q\n" * count + TAIL


def partial_connects_of_100_fields(count):
    return HEAD + with_fields("p", 100) + with_fields("q", 100) + "    p <- q\n" * count + TAIL


def muxes_of_100_fields(count):
    wires = "".join(with_fields(name, 100) for name in "pqr")
    return HEAD_OF_ONE_BIT + wires + "    p <= mux(a, q, r)\n" * count + TAIL


def connects_of_1000_fields(count):
    return HEAD + with_fields("p", 1000) + with_fields("q", 1000) + "    p <= q\n" * count + TAIL


def nodes_of_fields(fields, count):
    """Each node has the type of the one before."""
    lines, last = [], "p"
    for i in range(count):
        lines.append(f"    node n{i} = {last}\n")
        last = f"n{i}"
    return HEAD + with_fields("p", fields) + "".join(lines) + TAIL


def nodes_of_100_fields(count):
    return nodes_of_fields(100, count)


def nodes_of_1000_fields(count):
    return nodes_of_fields(1000, count)


def connects_of_as_many_fields(count):
    """They cost too much, and a wire does already, but that is told behind the faults of types."""
    wires = with_fields("p", count) + with_fields("q", count)
    wires += "    wire v : UInt<1>[4194304]\n    v is invalid\n"
    return HEAD + wires + "    p <= q\n" * count + TAIL


def connects_of_as_many_fields_without_leaves(count):
    """They cost nothing."""
    wires = with_fields("p", count, "UInt<1>[0]") + with_fields("q", count, "UInt<1>[0]")
    return HEAD + wires + "    p <= q\n" * count + TAIL


def connects_of_one_long_field(count):
    """The name of the field has as many bytes as there are connects."""
    wires = "".join(f"    wire {name} : {{{'f' * count} : UInt<1>}}\n    {name} is invalid\n"
                    for name in "pq")
    return HEAD + wires + "    p <= q\n" * count + TAIL


# Dynamic indices

def indices(count):
    """So many numbers below 1024, and the head of a circuit with an output for each."""
    return (HEAD_OF_NONE + f"    input i : UInt<10>[{count}]\n    input a : UInt<1>\n"
            + f"    input v : UInt<1>[1000]\n    output o : UInt<1>[{count}]\n")


def reads_of_1000_elements(count):
    return indices(count) + "".join(f"    o[{k}] <= v[i[{k}]]\n" for k in range(count))


def drives_of_1000_elements(count):
    """So many connects, each to an element that an index of its own picks, behind one to all."""
    lines = "".join(f"    w[i[{k}]] <= a\n" for k in range(count))
    return (indices(count) + "    output w : UInt<1>[1000]\n    w <= v\n    o is invalid\n" + lines)


def one_long_vector(count):
    """Registers of which one index picks what is driven and another what is read."""
    ports = "    input clock : Clock\n    input i : UInt<20>\n    input j : UInt<20>\n"
    return (HEAD_OF_ONE_BIT + ports + f"    reg v : UInt<1>[{count}], clock\n"
            + "    v[i] <= a\n    o <= v[j]\n")


def vectors_of_vectors(count):
    """Reads through two indices, each of a vector of its own, of 20 vectors of 50 elements."""
    ports = (f"    input i : UInt<5>[{count}]\n    input j : UInt<6>[{count}]\n"
             f"    input v : UInt<1>[50][20]\n    output p : UInt<1>[{count}]\n")
    lines = "".join(f"    p[{k}] <= v[i[{k}]][j[{k}]]\n" for k in range(count))
    return HEAD + ports + lines + TAIL


def leaves_behind_200_indices(count):
    """Reads of 100 fields of an element of 200 vectors of one element in each other."""
    fields = ", ".join(f"f{i} : UInt<1>" for i in range(100))
    ports = f"    input i : UInt<1>\n    input v : {{{fields}}}{'[1]' * 200}\n"
    return HEAD + ports + with_fields("p", 100) + f"    p <= v{'[i]' * 200}\n" * count + TAIL


# Whens

HEAD_OF_WHENS = "circuit T :\n  module T :\n    input a : UInt<1>\n"


def nodes_in_nested_whens(size):
    """Whens in each other, 100 deep, again and again. In each a node reads a name of the module and
    the node of the when around it."""
    def stack(k):
        for depth in range(100):
            around, last = " " * (4 + depth), f"n{k}_{depth - 1}" if depth else "a"
            yield f"{around}when {last} :\n{around} node n{k}_{depth} = and(a, {last})\n"

    lines = "".join(line for k in range(size // 17600) for line in stack(k))
    return HEAD_OF_ONE_BIT + lines + TAIL


def leaves_under_255_whens(count):
    """So many leaves, each connected under 255 whens in each other, and nowhere else."""
    ports = f"    input x : UInt<1>[{count}]\n    output o : UInt<1>[{count}]\n"
    whens = "".join(" " * (4 + depth) + "when a :\n" for depth in range(255))
    lines = "".join(" " * 259 + f"o[{k}] <= x[{k}]\n" for k in range(count))
    return HEAD_OF_WHENS + ports + whens + lines


def whens_in_a_row(count):
    """So many whens that hold a connect to one leaf, which all are told."""
    return HEAD_OF_WHENS + "    output o : UInt<1>\n" + "    when a :\n     o <= a\n" * count


def chains_of_255_else_whens(count):
    """Without an else, over one leaf."""
    chained = "    when a :\n     o <= a\n" + "    else when a :\n     o <= a\n" * 255
    return HEAD_OF_WHENS + "    output o : UInt<1>\n" + chained * count


def behind(connect, text):
    """The same text with a connect before its first when."""
    head, whens = text.split("    when", 1)
    return head + connect + "    when" + whens


def driven_leaves_under_255_whens(count):
    """Each when chooses for each of them."""
    return behind("    o is invalid\n", leaves_under_255_whens(count))


def whens_behind_a_connect(count):
    return behind("    o <= a\n", whens_in_a_row(count))


def chains_of_255_else_whens_behind_a_connect(count):
    return behind("    o <= a\n", chains_of_255_else_whens(count))


def whens_over_1000_leaves(count):
    """So many whens in a row, each with a condition of its own, that choose for all elements of an
    output."""
    ports = (f"    input c : UInt<1>[{count}]\n    input x : UInt<1>[1000]\n"
             "    input y : UInt<1>[1000]\n    output o : UInt<1>[1000]\n    o <= x\n")
    whens = "".join(f"    when c[{k}] :\n      o <= y\n" for k in range(count))
    return HEAD_OF_WHENS + ports + whens


def one_when_over_all_leaves(count):
    kind = f"UInt<1>[{count}]"
    ports = f"    input x : {kind}\n    input y : {kind}\n    output o : {kind}\n"
    return HEAD_OF_WHENS + ports + "    when a :\n      o <= x\n    else :\n      o <= y\n"


# Memories

def fields_of_memory(depth, latency, under, width=8):
    fields = [f"data-type => UInt<{width}>", f"depth => {depth}", f"read-latency => {latency}",
              "write-latency => 1", f"read-under-write => {under}"]
    return "    mem m :\n" + "".join(f"      {field}\n" for field in fields)


def reading_port(name, address, clock="clock"):
    return (f"    m.{name}.addr <= {address}\n    m.{name}.en <= UInt<1>(1)\n"
            f"    m.{name}.clk <= {clock}\n")


def writing_port(name, address, enable, data):
    return (reading_port(name, address).replace("UInt<1>(1)", enable)
            + f"    m.{name}.data <= {data}\n    m.{name}.mask <= UInt<1>(1)\n")


def large_memory(depth):
    """A memory of so many words with a reader at once, a late one and a writer, whose address counts
    up."""
    width = max(1, (depth - 1).bit_length())
    head = ("circuit T :\n  module T :\n    input clock : Clock\n    input d : UInt<8>\n"
            "    output o : UInt<8>\n" + f"    reg c : UInt<{width}>, clock\n"
            + f"    c <= tail(add(c, UInt<{width}>(1)), 1)\n")
    return (head + fields_of_memory(depth, 1, "old") + "      reader => r\n      writer => w\n"
            + reading_port("r", "c") + writing_port("w", "c", "UInt<1>(1)", "xor(d, m.r.data)")
            + "    o <= m.r.data\n")


def memory_of_ports(readers, writers, latency, under):
    """A memory of 64 words with so many ports, each with an address of its own; what the readers
    give goes through one chain to the output."""
    head = ("circuit T :\n  module T :\n    input clock : Clock\n    input a : UInt<6>\n"
            "    input w : UInt<1>\n    input d : UInt<8>\n    output o : UInt<8>\n")
    ports = "".join(f"      reader => r{k}\n" for k in range(readers))
    ports += "".join(f"      writer => w{k}\n" for k in range(writers))
    lines = [reading_port(f"r{k}", f"xor(a, UInt<6>({k % 64}))") for k in range(readers)]
    lines += [writing_port(f"w{k}", f"xor(a, UInt<6>({k % 64}))", "w", "d")
              for k in range(writers)]
    last = "d"
    for k in range(readers):
        lines.append(f"    node n{k} = xor({last}, m.r{k}.data)\n")
        last = f"n{k}"
    return head + fields_of_memory(64, latency, under) + ports + "".join(lines) + (
        f"    o <= {last}\n")


# Loops

def ring_of_wires(count):
    lines = [f"    wire w{i} : UInt<1>\n" for i in range(count)]
    lines += [f"    w{i} <= w{(i + 1) % count}\n" for i in range(count)]
    return HEAD_OF_ONE_BIT + "".join(lines) + TAIL


# A text of the whole language as far as it is taken

STAGE = """\
    wire io_{k} : {{flip in : {io}, out : {io}}} @[Stage.scala 10:14]
    reg full_{k} : UInt<1>, clock with :
      reset => (reset, UInt<1>("h0")) @[Stage.scala 12:21]
    reg held_{k} : {bits}, clock @[Stage.scala 13:17]
    node _T_{k} = eq(full_{k}, UInt<1>("h0")) @[Stage.scala 15:18]
    io_{k}.in.ready <= or(_T_{k}, io_{k}.out.ready) @[Stage.scala 15:15]
    io_{k}.out.valid <= full_{k} @[Stage.scala 16:16]
    io_{k}.out.bits <= held_{k} @[Stage.scala 17:15]
    when eq(held_{k}.op, UInt<2>("h1")) : @[Stage.scala 18:31]
      node _T_{k}_1 = add(held_{k}.data[0], held_{k}.data[held_{k}.op]) @[Stage.scala 19:40]
      io_{k}.out.bits.data[held_{k}.op] <= tail(_T_{k}_1, 1) @[Stage.scala 19:26]
    else when eq(held_{k}.op, UInt<2>("h2")) : @[Stage.scala 20:38]
      io_{k}.out.bits.data[0] <= xor(held_{k}.data[1], held_{k}.data[2]) @[Stage.scala 21:26]
    when and(io_{k}.in.valid, io_{k}.in.ready) : @[Stage.scala 23:21]
      held_{k} <= io_{k}.in.bits @[Stage.scala 24:10]
      full_{k} <= UInt<1>("h1") @[Stage.scala 25:10]
    else when io_{k}.out.ready : @[Stage.scala 26:27]
      full_{k} <= UInt<1>("h0") @[Stage.scala 27:10]
    io_{k}.in <= {last} @[Stage.scala 29:11]
"""


def pipeline(size):
    """Stages in a row, each of which holds a word and hands it on as ready and valid say."""
    bits = "{op : UInt<2>, data : UInt<16>[4]}"
    io = f"{{flip ready : UInt<1>, valid : UInt<1>, bits : {bits}}}"
    lines, last, length = [], "io.in", 0
    while length < size - 4000:
        k = len(lines)
        lines.append(STAGE.format(k=k, bits=bits, io=io, last=last))
        length += len(lines[-1])
        last = f"io_{k}.out"
    ports = ("    input clock : Clock\n    input reset : UInt<1>\n"
             f"    output io : {{flip in : {io}, out : {io}}}\n")
    return HEAD_OF_NONE + ports + "".join(lines) + f"    io.out <= {last}\n"
