#!/usr/bin/env python3
"""Compares examples/NAME.expected of the examples with memories with a small model of what each
computes, in the words of what it is for: a queue, a cache, a processor. The models know nothing of
FIRRTL, and run on examples/NAME.trace.

usage: memory_examples.py
"""
import pathlib
import sys
from collections import deque

EXAMPLES = pathlib.Path(__file__).resolve().parent.parent / "examples"


def hexadecimal(*values):
    """Values, each with the number of its digits, as a line has them."""
    return " ".join(f"{value:0{digits}x}" for value, digits in values)


def each(values, digits):
    return [(value, digits) for value in values]


class IntegerRegisters:
    """Eight registers, of which the first reads as zero and is not written."""

    def __init__(self, init):
        self.words = [init.get(("registers", k), 0) for k in range(8)]

    def read(self, number):
        return self.words[number] if number else 0

    def tick(self, rises, _, first, second, enable, number, data):
        shown = each([self.read(first), self.read(second)], 4)
        if rises and enable and number:
            self.words[number] = data
        return shown, each(self.words, 4)


class SynchronousFifo:
    """A queue of five places in a ring, which shows the front one. What is shown of an empty queue
    is the place that comes next, as the last edge left it. Where both places are the same, the
    queue is full if the last that came or went alone came."""

    def __init__(self, _):
        self.queue, self.ring = deque(), [0] * 5
        self.taken = self.given = self.shown = 0
        self.has_grown = False

    def tick(self, rises, reset, valid, bits, ready):
        count = len(self.queue)
        line = [(int(count < 5), 1), (int(count > 0), 1), (self.shown, 2), (count, 1)]
        if rises:
            self.step(valid and count < 5, ready and count > 0, bits)
            if reset:
                self.queue.clear()
                self.taken, self.given, self.has_grown = 0, 0, False
        return line, [(self.shown, 2), (self.taken, 1), (self.given, 1),
                      (int(self.has_grown), 1), *each(self.ring, 2)]

    def step(self, comes, goes, bits):
        if comes:
            self.ring[self.taken] = bits
            self.taken = (self.taken + 1) % 5
            self.queue.append(bits)
        if goes:
            assert self.queue.popleft() == self.shown
            self.given = (self.given + 1) % 5
        if bool(comes) != bool(goes):
            self.has_grown = bool(comes)
        self.shown = self.ring[self.given]
        assert not self.queue or self.shown == self.queue[0]


class DirectMappedCache:
    """Four lines of four bytes by their tags."""

    def __init__(self, _):
        self.valid, self.tags = [False] * 4, [0] * 4
        self.lines = [[0] * 4 for _ in range(4)]
        self.given = [0] * 4

    def tick(self, rises, reset, *words):
        valid, write, address = words[:3]
        data, mask, (fill, filled), line = words[3:7], words[7:11], words[11:13], words[13:]
        number, tag = address >> 2 & 3, address >> 4
        hit = valid and self.valid[number] and self.tags[number] == tag
        shown = [(int(hit), 1), *each(self.given, 2)]
        if rises:
            self.given = list(self.lines[number]) if hit and not write else [0] * 4
            if fill:
                self.fill(filled >> 2 & 3, filled >> 4, line)
            elif hit and write:
                for k in range(4):
                    if mask[k]:
                        self.lines[number][k] = data[k]
            if reset:
                self.valid = [False] * 4
        flags = sum(1 << k for k in range(4) if self.valid[k])
        bytes_of_lines = [line[k] for k in range(4) for line in self.lines]
        return shown, [(flags, 1), *each(self.given, 2), *each(self.tags, 1),
                       *each(bytes_of_lines, 2)]

    def fill(self, number, tag, line):
        self.valid[number], self.tags[number] = True, tag
        self.lines[number] = list(line)


class LineBuffer:
    """All pixels that came, in rows of six."""

    def __init__(self, _):
        self.pixels, self.row, self.given = [], [0] * 6, 0
        self.came = False

    def tick(self, rises, reset, valid, pixel):
        count = len(self.pixels)
        last = self.pixels[-1] if self.pixels else 0
        is_below = self.came and count > 6
        shown = [(int(is_below), 1), (last, 2), (self.given, 2), ((last - self.given) % 512, 3)]
        assert not is_below or self.given == self.pixels[-7]
        if rises:
            self.came, self.given = bool(valid), self.row[count % 6] if valid else 0
            if valid:
                self.row[count % 6] = pixel
                self.pixels.append(pixel)
            if reset:
                self.pixels, self.came = [], False
        count = len(self.pixels)
        last = self.pixels[-1] if self.pixels else 0
        below = count > 6 and self.came
        return shown, [(self.given, 2), (count % 6, 1), (int(count >= 6), 1), (int(below), 1),
                       (last, 2), *each(self.row, 2)]


def signed(number, bits):
    """The low bits of a number in two's complement."""
    number %= 1 << bits
    return number - (1 << bits) if number >> (bits - 1) else number


class RiscvCore:
    """An interpreter of the instructions of RV32I that the core has."""

    def __init__(self, init):
        self.code = [init.get(("code", k), 0) for k in range(16)]
        self.held = [init.get(("registers", k), 0) for k in range(32)]
        self.data = [init.get(("data", k), 0) for k in range(4)]
        self.pc = 0

    def register(self, number):
        return self.held[number] if number else 0

    def tick(self, rises, reset):
        word = self.code[self.pc // 4 % 16]
        name, number, value, store, target = self.step(word)
        shown = [(self.pc, 8), (int(store is not None), 1), *each(self.sides(word, name), 8),
                 (int(target == self.pc), 1)]
        if rises:
            if number:
                self.held[number] = value
            if store:
                self.data[store[0] // 4 % 4] = store[1]
            self.pc = 0 if reset else target
        return shown, [(self.pc, 8), *each(self.code + self.held + self.data, 8)]

    def sides(self, word, name):
        """What the core shows as an address and data to be stored, also where it stores nothing:
        the result of its adder or its other operations, and the second register."""
        one, other = self.register(word >> 15 & 31), self.register(word >> 20 & 31)
        results = {"add": one + other, "sub": one - other, "and": one & other, "or": one | other,
                   "xor": one ^ other, "slt": int(signed(one, 32) < signed(other, 32))}
        result = results.get(name, one + immediate(word, name))
        return result % 2 ** 32, other

    def step(self, word):
        """The name of an instruction; the register that it writes, or 0, and the value; what it
        stores at which address, or None; and the next instruction's address."""
        name, rd = name_of(word), word >> 7 & 31
        one, other = self.register(word >> 15 & 31), self.register(word >> 20 & 31)
        constant, behind = immediate(word, name), (self.pc + 4) % 2 ** 32
        there = (self.pc + constant) % 2 ** 32
        address = (one + constant) % 2 ** 32
        if name == "sw":
            return name, 0, 0, (address, other), behind
        if name in ("beq", "bne"):
            is_taken = (one == other) == (name == "beq")
            return name, 0, 0, None, there if is_taken else behind
        if name == "jal":
            return name, rd, behind, None, there
        value = {"lui": constant, "addi": address, "lw": self.data[address // 4 % 4],
                 "add": one + other, "sub": one - other, "and": one & other, "or": one | other,
                 "xor": one ^ other, "slt": int(signed(one, 32) < signed(other, 32))}[name]
        return name, rd, value % 2 ** 32, None, behind


def name_of(word):
    opcode, kind, is_other = word & 127, word >> 12 & 7, word >> 30 & 1
    if opcode == 0x33:
        return {(0, 0): "add", (0, 1): "sub", (2, 0): "slt", (4, 0): "xor", (6, 0): "or",
                (7, 0): "and"}[kind, is_other]
    if opcode == 0x63:
        return {0: "beq", 1: "bne"}[kind]
    return {0x37: "lui", 0x13: "addi", 0x03: "lw", 0x23: "sw", 0x6f: "jal"}[opcode]


def immediate(word, name):
    """The constant of an instruction, below 2^32."""
    if name == "lui":
        number = word >> 12 << 12
    elif name == "sw":
        number = signed(word >> 25 << 5 | word >> 7 & 31, 12)
    elif name in ("beq", "bne"):
        number = signed((word >> 31) << 12 | (word >> 7 & 1) << 11 | (word >> 25 & 63) << 5
                        | (word >> 8 & 15) << 1, 13)
    elif name == "jal":
        number = signed((word >> 31) << 20 | (word >> 12 & 255) << 12 | (word >> 20 & 1) << 11
                        | (word >> 21 & 1023) << 1, 21)
    else:
        number = signed(word >> 20, 12)
    return number % 2 ** 32


MODELS = {
    "integer_registers": IntegerRegisters,
    "synchronous_fifo": SynchronousFifo,
    "direct_mapped_cache": DirectMappedCache,
    "line_buffer": LineBuffer,
    "riscv_core": RiscvCore,
}


def trace_of(name):
    """The words that init lines of arrays give, and the ticks."""
    init, ticks = {}, []
    for line in (EXAMPLES / f"{name}.trace").read_text().splitlines():
        words = line.split()
        if line.startswith("#"):
            continue
        if words[0] == "init":
            init[words[1], int(words[2])] = int(words[3], 16)
        else:
            ticks.append((words[0] != "-", [int(word, 16) for word in words[1:]]))
    return init, ticks


def lines_of(name):
    """The lines that the model shows."""
    init, ticks = trace_of(name)
    model = MODELS[name](init)
    for rises, inputs in ticks:
        shown, state = model.tick(rises, *inputs)
        yield f"{hexadecimal(*shown)} | {hexadecimal(*state)}"


def main():
    if len(sys.argv) > 1:
        sys.exit(__doc__)
    for name in MODELS:
        expected = (EXAMPLES / f"{name}.expected").read_text().splitlines()
        for number, (line, wanted) in enumerate(zip(lines_of(name), expected, strict=True), 1):
            if line != wanted:
                sys.exit(f"memory examples: {name}.expected, line {number}, is\n{wanted}\n"
                         f"where the model shows\n{line}")
    print(f"memory examples: {len(MODELS)} show what their models show")


if __name__ == "__main__":
    main()
