"""The names of the emitted text, worked out once more from the rule.

The leaves of the main module's ports take the names of their paths, joined by `_`, then those of the
registers and of what memories read late, and then the arrays of memories: a name that is reserved in
Verilog or taken before gets the first free of `_0`, `_1` and so on behind it. What has no bits takes
no name, and neither do wires and nodes. A module whose name is reserved gets `_0` behind it.
"""
RESERVED = """always and assign automatic begin buf bufif0 bufif1 case casex casez cell cmos config
deassign default defparam design disable edge else end endcase endconfig endfunction endgenerate
endmodule endprimitive endspecify endtable endtask event for force forever fork function generate
genvar highz0 highz1 if ifnone incdir include initial inout input instance integer join large
liblist library localparam macromodule medium module nand negedge nmos nor noshowcancelled not
notif0 notif1 or output parameter pmos posedge primitive pull0 pull1 pulldown pullup
pulsestyle_ondetect pulsestyle_onevent rcmos real realtime reg release repeat rnmos rpmos rtran
rtranif0 rtranif1 scalared showcancelled signed small specify specparam strong0 strong1 supply0
supply1 table task time tran tranif0 tranif1 tri tri0 tri1 triand trior trireg unsigned use uwire
vectored wait wand weak0 weak1 while wire wor xnor xor""".split()


def spelled(path):
    """The path with its parts joined as names of Verilog are."""
    return path.replace(".", "_").replace("[", "_").replace("]", "")


def free(name, taken):
    """The name, or the first free one with a number behind it."""
    if name not in RESERVED and name not in taken:
        return name
    return next(f"{name}_{k}" for k in range(len(taken) + 1) if f"{name}_{k}" not in taken)


def emitted_names(source):
    """The emitted name of each leaf of a port and of a register, and of what a memory reads late, by
    its path in the source, and that of each array; in port order, then in that of the state."""
    names, taken = {}, set()
    paths = [(path, path) for path in source.ports + source.words
             if source.leaves[path].is_clock() or source.leaves[path].type().width]
    for key, path in paths + [(array, array.path()) for array in source.arrays.values()]:
        names[key] = free(spelled(path), taken)
        taken.add(names[key])
    return names


def emitted_words(source):
    """The emitted name of each word of the state, in its order; behind that of an array stands the
    number of the word, or None."""
    names = emitted_names(source)
    words = [(names[path], None) for path in source.words]
    for array in source.arrays.values():
        words += [(names[array], address) for address in range(array.memory().depth)]
    return words


def emitted_module(source):
    return source.name + "_0" if source.name in RESERVED else source.name
