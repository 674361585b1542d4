#!/usr/bin/env python3
"""Instruction vectors for the machine, worked out as RFC 9669 defines them with Python's integers.

    tools/vectors.py inputs     a line for each vector: name, image in hexadecimal, tape
    tools/vectors.py expected   a line for each vector: what its run on the mains must leave

The first is crates/machine_vectors/stdin, the second its stdout. Nothing here reads the machine's
code: each instruction is written down as RFC 9669 defines it, from knowledge of the standard and
without a copy of its text at hand, on
unbounded integers that are cut to a width where the text says so. What the RFC leaves to the
platform is the rounds' own: 512 bytes of memory from address 0, r10 = 512, helpers 1 to 3, the
subset of opcodes, and the traps.
"""
import struct
import sys

WIDTHS = {32: 0x4, 64: 0x7}          # classes ALU and ALU64
JUMPS = {64: 0x5, 32: 0x6}           # classes JMP and JMP32
ALU = dict(add=0, sub=1, mul=2, div=3, **{"or": 4, "and": 5}, lsh=6, rsh=7, neg=8, mod=9, xor=10, mov=11, arsh=12)
TESTS = dict(jeq=1, jgt=2, jge=3, jset=4, jne=5, jsgt=6, jsge=7, jlt=10, jle=11, jslt=12, jsle=13)
SIZES = {4: 0, 2: 1, 1: 2, 8: 3}     # W, H, B, DW
MEMORY, LOG = 512, 64


# --- assembler -----------------------------------------------------------------------------------

def slot(opcode, dst=0, src=0, offset=0, imm=0):
    return struct.pack("<BBhi", opcode, dst | src << 4, offset, imm)


def alu_k(op, width, dst, imm=0):
    return slot(ALU[op] << 4 | WIDTHS[width], dst, 0, 0, imm)


def alu_x(op, width, dst, src):
    return slot(ALU[op] << 4 | 8 | WIDTHS[width], dst, src)


def jump_k(test, width, dst, imm, offset):
    return slot(TESTS[test] << 4 | JUMPS[width], dst, 0, offset, imm)


def jump_x(test, width, dst, src, offset):
    return slot(TESTS[test] << 4 | 8 | JUMPS[width], dst, src, offset)


def ja(offset):
    return slot(0x05, offset=offset)


def call(helper):
    return slot(0x85, imm=helper)


def ldx(size, dst, src, offset):
    return slot(0x60 | SIZES[size] << 3 | 1, dst, src, offset)


def st(size, dst, offset, imm):
    return slot(0x60 | SIZES[size] << 3 | 2, dst, 0, offset, imm)


def stx(size, dst, src, offset):
    return slot(0x60 | SIZES[size] << 3 | 3, dst, src, offset)


EXIT = slot(0x95)
SCRATCH = 9


def signed(value, bits):
    value %= 1 << bits
    return value - (1 << bits) if value >> (bits - 1) else value


def put(register, value):
    """Slots that leave a 64-bit value in a register; they use SCRATCH where 32 bits do not do."""
    value %= 1 << 64
    if signed(value, 64) == signed(value, 32):
        return alu_k("mov", 64, register, signed(value, 32))
    return (alu_k("mov", 64, register, signed(value >> 32, 32)) + alu_k("lsh", 64, register, 32)
            + alu_k("mov", 32, SCRATCH, signed(value, 32)) + alu_x("or", 64, register, SCRATCH))


# --- the instructions, as RFC 9669 has them --------------------------------------------------------

def arithmetic(op, width, dst, src):
    """Section 4.1. Values wrap at the width; ALU uses the low 32 bits and zeroes the high ones."""
    dst %= 1 << width
    src %= 1 << width
    if op == "add":
        result = dst + src
    elif op == "sub":
        result = dst - src
    elif op == "mul":
        result = dst * src
    elif op == "div":                       # dst = (src != 0) ? (dst / src) : 0
        result = dst // src if src != 0 else 0
    elif op == "mod":                       # dst = (src != 0) ? (dst % src) : dst
        result = dst % src if src != 0 else dst
    elif op == "or":
        result = dst | src
    elif op == "and":
        result = dst & src
    elif op == "xor":
        result = dst ^ src
    elif op == "neg":
        result = -dst
    elif op == "mov":
        result = src
    elif op == "lsh":                       # shifts mask their count: 0x3f, and 0x1f at 32 bits
        result = dst << (src & (width - 1))
    elif op == "rsh":
        result = dst >> (src & (width - 1))
    elif op == "arsh":                      # sign extending
        result = signed(dst, width) >> (src & (width - 1))
    else:
        raise ValueError(op)
    return result % (1 << width)


def passes(test, width, dst, src):
    """Section 4.3. JMP compares 64 bits, JMP32 the low 32."""
    dst, src = dst % (1 << width), src % (1 << width)
    sdst, ssrc = signed(dst, width), signed(src, width)
    return {"jeq": dst == src, "jne": dst != src, "jgt": dst > src, "jge": dst >= src, "jlt": dst < src,
            "jle": dst <= src, "jset": dst & src != 0, "jsgt": sdst > ssrc, "jsge": sdst >= ssrc,
            "jslt": sdst < ssrc, "jsle": sdst <= ssrc}[test]


class Trap(Exception):
    pass


def decode(image, at):
    """The fields of a legal slot (section 3), or trap 1."""
    if not 8 <= len(image) <= 8192 or len(image) % 8 or not 0 <= at < len(image) // 8:
        raise Trap(1)
    opcode, registers, offset, imm = struct.unpack("<BBhi", image[8 * at:8 * at + 8])
    dst, src = registers & 15, registers >> 4
    kind, name = None, None
    low, code, register_form = opcode & 7, opcode >> 4, bool(opcode & 8)
    if opcode in (0x05, 0x85, 0x95):
        kind = {0x05: "ja", 0x85: "call", 0x95: "exit"}[opcode]
    elif low in (4, 7) and code in ALU.values():
        name = [n for n, c in ALU.items() if c == code][0]
        kind = "alu" if not (name == "neg" and register_form) else None
    elif low in (5, 6) and code in TESTS.values():
        kind, name = "jump", [n for n, c in TESTS.items() if c == code][0]
    elif low in (1, 2, 3) and opcode >> 5 == 3:
        kind = {1: "ldx", 2: "st", 3: "stx"}[low]
    if kind is None or dst > 10 or src > 10:
        raise Trap(1)
    uses = {"alu": {"dst"} | ({"src"} if register_form else set() if name == "neg" else {"imm"}),
            "jump": {"dst", "offset"} | ({"src"} if register_form else {"imm"}),
            "ja": {"offset"}, "call": {"imm"}, "exit": set(), "ldx": {"dst", "src", "offset"},
            "st": {"dst", "offset", "imm"}, "stx": {"dst", "src", "offset"}}[kind]
    fields = {"dst": dst, "src": src, "offset": offset, "imm": imm}
    if any(value != 0 for field, value in fields.items() if field not in uses):
        raise Trap(1)
    if kind in ("alu", "ldx") and dst == 10 or kind == "call" and imm not in (1, 2, 3):
        raise Trap(1)
    size = {0: 4, 1: 2, 2: 1, 3: 8}[opcode >> 3 & 3]
    return kind, name, low, register_form, size, dst, src, offset, imm


class Machine:
    def __init__(self, image, tape):
        self.image, self.tape = image, tape
        self.slot, self.place, self.steps, self.ending = 0, 0, 0, None
        self.regs = [0] * 10 + [MEMORY]
        self.memory = bytearray(MEMORY)
        self.log = []

    def address(self, register, offset, size):
        address = (self.regs[register] + offset) % (1 << 64)
        if address + size > MEMORY:
            raise Trap(2)
        return address

    def execute(self):
        kind, name, low, register_form, size, dst, src, offset, imm = decode(self.image, self.slot)
        regs = self.regs
        source = regs[src] if register_form else imm % (1 << 64)
        after = self.slot + 1
        if kind == "alu":
            regs[dst] = arithmetic(name, 64 if low == 7 else 32, regs[dst], source)
        elif kind == "jump":
            if passes(name, 64 if low == 5 else 32, regs[dst], source):
                after += offset
        elif kind == "ja":
            after += offset
        elif kind == "ldx":
            address = self.address(src, offset, size)
            regs[dst] = int.from_bytes(self.memory[address:address + size], "little")
        elif kind in ("st", "stx"):
            address = self.address(dst, offset, size)
            value = regs[src] if kind == "stx" else imm
            self.memory[address:address + size] = (value % (1 << 8 * size)).to_bytes(size, "little")
        elif kind == "exit":
            self.ending = "exit"
            return
        elif imm == 2:
            if self.place >= len(self.tape):
                raise Trap(3)
            regs[0] = self.tape[self.place]
            self.place += 1
        elif imm == 3:
            if len(self.log) >= LOG:
                raise Trap(4)
            self.log.append((regs[1] % 256, regs[2]))
            regs[0] = 0
        self.slot = after

    def run(self, most):
        while self.ending is None and self.steps < most:
            self.steps += 1
            try:
                self.execute()
            except Trap as trap:
                self.ending = f"trap{trap.args[0]}"

    def told(self):
        log = "".join(f";{sensor:x}:{value:x}" for sensor, value in self.log)
        memory = "".join(f",{at:x}:{byte:x}" for at, byte in enumerate(self.memory) if byte)
        numbers = " ".join(f"{value:x}" for value in [self.steps, self.place] + self.regs)
        return f"{self.ending or 'none'} {self.slot} {numbers}{log}{memory}"


# --- the vectors ------------------------------------------------------------------------------------

ONES = (1 << 64) - 1
TOP = 1 << 63
MIXED = 0x123456789ABCDEF0
PAIRS = [(0, 0), (0, 1), (1, 0), (ONES, 0), (ONES, 1), (1, ONES), (ONES, ONES), (TOP, ONES), (TOP - 1, 1),
         (0x80000000, 0x80000000), (0x7FFFFFFF, 1), (0xFFFFFFFF, 0xFFFFFFFF), (MIXED, 0x100000000), (MIXED, 0xFEDCBA98)]
COUNTS = [0, 1, 31, 32, 33, 63, 64, 65, 0x100000001, ONES]
VALUES = [MIXED | TOP, 0x80000001]
IMMS = [0, 1, -1, 0x7FFFFFFF, -0x80000000]
ORDERED = [(0, 0), (1, 0), (0, 1), (ONES, 1), (1, ONES), (TOP, TOP - 1), (0x80000000, 0x7FFFFFFF),
           (0x100000000, 0), (MIXED, MIXED & 0xFFFFFFFF)]


def vectors():
    for width in (32, 64):
        for op in ALU:
            if op == "neg":
                for a in (0, 1, ONES, TOP, 0x80000000, MIXED):
                    yield f"neg{width}_{a:x}", put(1, a) + alu_k("neg", width, 1) + EXIT, []
                continue
            shift = op in ("lsh", "rsh", "arsh")
            for a, b in ([(v, c) for v in VALUES for c in COUNTS] if shift else PAIRS):
                yield f"{op}{width}_x_{a:x}_{b:x}", put(1, a) + put(2, b) + alu_x(op, width, 1, 2) + EXIT, []
            for imm in ([0, 1, 31, 32, 63, 64, -1] if shift else IMMS):
                yield f"{op}{width}_k_{imm}", put(1, MIXED | TOP) + alu_k(op, width, 1, imm) + EXIT, []
        for test in TESTS:
            for a, b in ORDERED:
                code = put(1, a) + put(2, b) + jump_x(test, width, 1, 2, 1) + alu_k("mov", 64, 3, 1) + EXIT
                yield f"{test}{width}_x_{a:x}_{b:x}", code, []
            for a, imm in ((ONES, -1), (0xFFFFFFFF, -1), (5, 4), (4, 5)):
                code = put(1, a) + jump_k(test, width, 1, imm, 1) + alu_k("mov", 64, 3, 1) + EXIT
                yield f"{test}{width}_k_{a:x}_{imm}", code, []
    yield from jumps()
    yield from accesses()
    yield from helpers()
    yield from bad_slots()


def jumps():
    yield "ja_next", ja(0) + EXIT, []
    yield "ja_over", ja(1) + put(1, 1) + EXIT, []
    yield "ja_back", ja(2) + put(1, 1) + EXIT + ja(-3), []
    yield "ja_below", ja(-2) + EXIT, []
    yield "ja_past", ja(1) + EXIT, []
    yield "ja_far", ja(32767) + EXIT, []
    yield "ja_far_back", ja(-32768) + EXIT, []
    yield "ja_itself", ja(-1), []
    yield "jump_below", jump_k("jeq", 64, 1, 0, -2) + EXIT, []
    yield "fall_off", put(1, 1), []
    yield "count_down", put(1, 5) + alu_k("sub", 64, 1, 1) + jump_k("jne", 64, 1, 0, -2) + EXIT, []


def accesses():
    for size in (1, 2, 4, 8):
        # the edges of memory, by register and by offset
        for base, offset in ((0, 0), (0, MEMORY - size), (0, MEMORY - size + 1), (MEMORY + 1, 0), (0, -1),
                             (MEMORY, -size), (MEMORY, -size + 1), (-8, 8), (-1, 0), (ONES - 32767, 32767), (300, -30)):
            where = f"{size}_{base % (1 << 64):x}_{offset}"
            fill = st(8, 10, -8, -2) + st(8, 10, -16, 0x1234567) + st(8, 10, -512, -3)
            yield f"ldx{where}", fill + put(1, base) + put(3, MIXED) + ldx(size, 3, 1, offset) + EXIT, []
            yield f"st{where}", put(1, base) + st(size, 1, offset, -0x01020304) + EXIT, []
            yield f"stx{where}", put(1, base) + put(3, MIXED | TOP) + stx(size, 1, 3, offset) + EXIT, []


def helpers():
    yield "save", put(0, 3) + call(1) + EXIT, []
    yield "readings", call(2) + alu_x("mov", 64, 6, 0) + call(2) + EXIT, [4294967295, 7]
    yield "tape_finished", call(2) + call(2) + call(2) + EXIT, [1, 2]
    yield "no_tape", put(0, 9) + call(2), []
    yield "record", put(0, 9) + put(1, 0x1FE) + put(2, MIXED) + call(3) + EXIT, []
    loop = put(1, -1) + call(3) + alu_k("add", 64, 2, 1) + jump_k("jne", 64, 2, 70, -3) + EXIT
    yield "log_full", loop, []
    full = put(1, 3) + call(3) + alu_k("add", 64, 2, 1) + jump_k("jne", 64, 2, 64, -3) + EXIT
    yield "log_just_full", full, []


def bad_slots():
    good = put(1, 1)
    for length in (0, 1, 7, 9, 12):
        yield f"length_{length}", (good * 2)[:length], []
    yield "length_8192", ja(0) * 1023 + EXIT, []
    yield "length_8200", ja(0) * 1024 + EXIT, []
    for opcode in (0x00, 0x06, 0x18, 0x8C, 0x8F, 0xD4, 0xDC, 0xE5, 0x0D, 0x8D, 0x9D, 0x86, 0x96, 0x60, 0x64 | 0x80, 0xFF, 0x41, 0xDB):
        yield f"opcode_{opcode:x}", good + slot(opcode) + EXIT, []
    for name, bad in (("dst_11", alu_k("add", 64, 11, 1)), ("src_11", alu_x("add", 64, 1, 11)), ("src_15", ldx(1, 1, 15, 0)),
                      ("alu_k_src", slot(0x07, 1, 2)), ("alu_x_imm", slot(0x0F, 1, 2, 0, 1)), ("alu_offset", slot(0x07, 1, 0, 1, 1)),
                      ("neg_imm", slot(0x87, 1, 0, 0, 1)), ("jump_k_src", slot(0x15, 1, 2)), ("jump_x_imm", slot(0x1D, 1, 2, 0, 1)),
                      ("ja_dst", slot(0x05, 1)), ("ja_src", slot(0x05, 0, 1)), ("ja_imm", slot(0x05, imm=1)),
                      ("call_dst", slot(0x85, 1, imm=1)), ("call_src", slot(0x85, 0, 1, imm=1)), ("call_offset", slot(0x85, 0, 0, 1, 1)),
                      ("exit_dst", slot(0x95, 1)), ("exit_src", slot(0x95, 0, 1)), ("exit_offset", slot(0x95, 0, 0, 1)),
                      ("exit_imm", slot(0x95, imm=1)), ("ldx_imm", slot(0x61, 1, 10, -8, 1)), ("st_src", slot(0x62, 10, 1, -8, 1)),
                      ("stx_imm", slot(0x63, 10, 1, -8, 1)), ("alu_r10", alu_k("add", 64, 10, 1)), ("mov_r10", alu_x("mov", 32, 10, 1)),
                      ("ldx_r10", ldx(8, 10, 10, -8)), ("helper_0", call(0)), ("helper_4", call(4)), ("helper_-1", call(-1))):
        yield f"bad_{name}", good + bad + EXIT, []


def main():
    names = set()
    counts = {}
    for name, image, tape in vectors():
        assert name not in names, name
        names.add(name)
        if sys.argv[1:] == ["inputs"]:
            print(name, image.hex() or "-", ",".join(map(str, tape)) or "-")
        else:
            machine = Machine(image, tape)
            machine.run(2000)
            counts[machine.ending] = counts.get(machine.ending, 0) + 1
            print(name, machine.told())
    if sys.argv[1:] == ["expected"]:
        for test in TESTS:
            for width in (32, 64):
                sides = {passes(test, width, a, b) for a, b in ORDERED}
                assert sides == {True, False}, (test, width)
        assert all(counts.get(ending) for ending in ("exit", "trap1", "trap2", "trap3", "trap4")), counts
        print(len(names), "vectors")


if __name__ == "__main__":
    main()
