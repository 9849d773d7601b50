"""Makes the RV64 cases, has the machine run them, and writes the record. Use: rv64.py PROGRAM RECORD

The encodings are those of the RISC-V Unprivileged ISA (instruction listings; chapters "C" and "B", there Zbb);
binutils reads every one back, and its mnemonic must be the case's kind.
"""

import struct
import subprocess
import sys
from collections import Counter
from dataclasses import dataclass, field

from common import EDGES, M64, Random, default, listed, machine, pairs, write

rng = Random(0x5256_3634)

# Each stands between two pages of C.EBREAKs; the first two lie on 2^31 and 2^32.
PAGES = [0x7FFF_F000, 0xFFFF_F000, 0x12_3456_7000, 0x5_5555_6000]
RECORDER = range(0x1_0000, 0x100_0000)  # where the recorder's own code stands


@dataclass
class Instr:
    kind: str
    code: bytes
    offset: int | None = None  # JAL, branches: where to, from the PC
    base: tuple | None = None  # JALR: register and immediate
    zeros: int | None = None  # CTZW: the register whose low word's trailing zeros it counts

    def jumps(self):
        return self.offset is not None or self.base is not None

    def ends(self):
        """Whether a block ends with it: by document 01's rule 5, or by document 02's No. 3."""
        return self.jumps() or self.kind == "fence.i"


@dataclass
class Case:
    instrs: list
    inputs: dict
    limit: int
    pc: int
    tail: bytes = b""  # code that stands behind and is not run
    run: list = field(init=False)

    def __post_init__(self):
        self.inputs = {r: v for r, v in self.inputs.items() if r != 0 and v != default(r)}
        ends = (number for number, instr in enumerate(self.instrs, 1) if instr.ends())
        self.run = self.instrs[:min(self.limit, next(ends, self.limit))]
        self.code = b"".join(i.code for i in self.instrs) + self.tail
        assert len(self.code) <= 64 and 1 <= self.limit <= 255


def word(kind, value, **rest):
    return Instr(kind, struct.pack("<I", value), **rest)


def half(kind, value, **rest):
    return Instr(kind, struct.pack("<H", value), **rest)


def bits(value, *places):
    """The value's bits, highest place of the field first."""
    out = 0
    for place in places:
        out = out << 1 | (value >> place) & 1
    return out


# 32-bit encodings. Each table: kind -> (opcode, funct3, funct7).

OP = {k: (0x33, f3, f7) for k, f3, f7 in [
    ("add", 0, 0), ("sub", 0, 32), ("sll", 1, 0), ("slt", 2, 0), ("sltu", 3, 0), ("xor", 4, 0),
    ("srl", 5, 0), ("sra", 5, 32), ("or", 6, 0), ("and", 7, 0),
    ("mul", 0, 1), ("mulh", 1, 1), ("mulhsu", 2, 1), ("mulhu", 3, 1),
    ("div", 4, 1), ("divu", 5, 1), ("rem", 6, 1), ("remu", 7, 1)]}
OP |= {k: (0x3B, f3, f7) for k, f3, f7 in [
    ("addw", 0, 0), ("subw", 0, 32), ("sllw", 1, 0), ("srlw", 5, 0), ("sraw", 5, 32),
    ("mulw", 0, 1), ("divw", 4, 1), ("divuw", 5, 1), ("remw", 6, 1), ("remuw", 7, 1)]}
OP_IMM = {"addi": (0x13, 0), "slti": (0x13, 2), "sltiu": (0x13, 3), "xori": (0x13, 4),
          "ori": (0x13, 6), "andi": (0x13, 7), "addiw": (0x1B, 0)}
SHIFT_IMM = {"slli": (0x13, 1, 0, 64), "srli": (0x13, 5, 0, 64), "srai": (0x13, 5, 32, 64),
             "slliw": (0x1B, 1, 0, 32), "srliw": (0x1B, 5, 0, 32), "sraiw": (0x1B, 5, 32, 32)}
# Zbb: with rs2 (opcode, funct3, funct7), with rs1 alone (opcode, funct3, funct12), with a count as SHIFT_IMM.
ZBB = {k: (0x33, f3, f7) for k, f3, f7 in [
    ("andn", 7, 0x20), ("orn", 6, 0x20), ("xnor", 4, 0x20), ("min", 4, 5), ("minu", 5, 5), ("max", 6, 5),
    ("maxu", 7, 5), ("rol", 1, 0x30), ("ror", 5, 0x30)]}
ZBB |= {"rolw": (0x3B, 1, 0x30), "rorw": (0x3B, 5, 0x30)}
ZBB_ONE = {"clz": (0x13, 1, 0x600), "ctz": (0x13, 1, 0x601), "cpop": (0x13, 1, 0x602), "sext.b": (0x13, 1, 0x604),
           "sext.h": (0x13, 1, 0x605), "orc.b": (0x13, 5, 0x287), "rev8": (0x13, 5, 0x6B8),
           "clzw": (0x1B, 1, 0x600), "ctzw": (0x1B, 1, 0x601), "cpopw": (0x1B, 1, 0x602), "zext.h": (0x3B, 4, 0x080)}
ZBB_IMM = {"rori": (0x13, 5, 0x30, 64), "roriw": (0x1B, 5, 0x30, 32)}
BRANCH = {"beq": 0, "bne": 1, "blt": 4, "bge": 5, "bltu": 6, "bgeu": 7}
UPPER = {"lui": 0x37, "auipc": 0x17}


def op(kind, rd, rs1, rs2):
    opcode, f3, f7 = (OP | ZBB)[kind]
    return word(kind, f7 << 25 | rs2 << 20 | rs1 << 15 | f3 << 12 | rd << 7 | opcode)


def op_imm(kind, rd, rs1, imm):
    opcode, f3 = OP_IMM[kind]
    return word(kind, (imm & 0xFFF) << 20 | rs1 << 15 | f3 << 12 | rd << 7 | opcode)


def one_operand(kind, rd, rs1):
    opcode, f3, f12 = ZBB_ONE[kind]
    return word(kind, f12 << 20 | rs1 << 15 | f3 << 12 | rd << 7 | opcode, zeros=rs1 if kind == "ctzw" else None)


def shift_imm(kind, rd, rs1, shamt):
    opcode, f3, f7, width = (SHIFT_IMM | ZBB_IMM)[kind]
    assert shamt < width
    return word(kind, f7 << 25 | shamt << 20 | rs1 << 15 | f3 << 12 | rd << 7 | opcode)


def upper(kind, rd, imm20):
    return word(kind, imm20 << 12 | rd << 7 | UPPER[kind])


def jal(rd, offset):
    assert -2**20 <= offset < 2**20 and offset % 2 == 0
    imm = bits(offset, 20, *range(10, 0, -1), 11, *range(19, 11, -1))
    return word("jal", imm << 12 | rd << 7 | 0x6F, offset=offset)


def jalr(rd, rs1, imm):
    return word("jalr", (imm & 0xFFF) << 20 | rs1 << 15 | rd << 7 | 0x67, base=(rs1, imm))


def branch(kind, rs1, rs2, offset):
    assert -2**12 <= offset < 2**12 and offset % 2 == 0
    high, low = bits(offset, 12, *range(10, 4, -1)), bits(offset, 4, 3, 2, 1, 11)
    return word(kind, high << 25 | rs2 << 20 | rs1 << 15 | BRANCH[kind] << 12 | low << 7 | 0x63, offset=offset)


def fence(fields, rs1=0, rd=0):
    return word("fence", fields << 20 | rs1 << 15 | rd << 7 | 0x0F)


def fence_i(fields, rs1, rd):
    return word("fence.i", fields << 20 | rs1 << 15 | 1 << 12 | rd << 7 | 0x0F)


# 16-bit encodings. Registers with a mark are 8 to 15.

def c_i(kind, quadrant, funct3, rd, imm):
    return half(kind, funct3 << 13 | bits(imm, 5) << 12 | rd << 7 | bits(imm, 4, 3, 2, 1, 0) << 2 | quadrant)


CI = {"c.nop": (1, 0), "c.addi": (1, 0), "c.addiw": (1, 1), "c.li": (1, 2), "c.lui": (1, 3), "c.slli": (2, 0)}
CB_ALU = {"c.srli": 0, "c.srai": 1, "c.andi": 2}
CA = {"c.sub": (0, 0), "c.xor": (0, 1), "c.or": (0, 2), "c.and": (0, 3), "c.subw": (1, 0), "c.addw": (1, 1)}
CR = {"c.jr": 8, "c.mv": 8, "c.jalr": 9, "c.add": 9}


def ci(kind, rd, imm):
    return c_i(kind, *CI[kind], rd, imm)


def c_addi4spn(rd, imm):
    return half("c.addi4spn", bits(imm, 5, 4, 9, 8, 7, 6, 2, 3) << 5 | (rd - 8) << 2)


def c_addi16sp(imm):
    return half("c.addi16sp", 3 << 13 | bits(imm, 9) << 12 | 2 << 7 | bits(imm, 4, 6, 8, 7, 5) << 2 | 1)


def cb_alu(kind, rd, imm):
    return half(kind, 4 << 13 | bits(imm, 5) << 12 | CB_ALU[kind] << 10 | (rd - 8) << 7
                | bits(imm, 4, 3, 2, 1, 0) << 2 | 1)


def ca(kind, rd, rs2):
    high, low = CA[kind]
    return half(kind, 4 << 13 | high << 12 | 3 << 10 | (rd - 8) << 7 | low << 5 | (rs2 - 8) << 2 | 1)


def c_j(offset):
    assert -2**11 <= offset < 2**11 and offset % 2 == 0
    return half("c.j", 5 << 13 | bits(offset, 11, 4, 9, 8, 10, 6, 7, 3, 2, 1, 5) << 2 | 1, offset=offset)


def cb(kind, rs1, offset):
    assert -2**8 <= offset < 2**8 and offset % 2 == 0
    funct3 = {"c.beqz": 6, "c.bnez": 7}[kind]
    return half(kind, funct3 << 13 | bits(offset, 8, 4, 3) << 10 | (rs1 - 8) << 7
                | bits(offset, 7, 6, 2, 1, 5) << 2 | 1, offset=offset)


def cr(kind, rd, rs2):
    jump = kind in ("c.jr", "c.jalr")
    return half(kind, CR[kind] << 12 | rd << 7 | rs2 << 2 | 2, base=(rd, 0) if jump else None)


# Cases.

cases = []
X = range(1, 32)
MARKED = range(8, 16)


def anywhere():
    """An even PC in a page's middle, or around its start."""
    page = rng.pick(PAGES)
    return page + 2 * (rng.below(1900) if rng.below(3) else rng.between(-20, 2))


def single(instr, inputs, pc=None):
    limit = 1 if rng.below(8) else rng.between(2, 255)
    cases.append(Case([instr], inputs, limit, anywhere() if pc is None else pc))


def three():
    return rng.distinct(X, 3)


def aliased():
    """rd, rs1, rs2: each way in which two are equal or one is register 0."""
    a, b, c = three()
    return [(a, a, b), (a, b, a), (a, b, b), (a, a, a), (0, a, b), (0, a, a), (a, 0, b), (a, b, 0), (a, 0, 0),
            (a, 0, a), (a, a, 0), (0, 0, 0), (1, 2, 1), (2, 1, 1), (31, 30, 31)]


def values(registers):
    return {r: rng.value() for r in registers}


def edge_pairs():
    return [(a, b) for a in EDGES for b in EDGES]


for kind in OP:
    for a, b in edge_pairs():
        rd, rs1, rs2 = three()
        single(op(kind, rd, rs1, rs2), {rs1: a, rs2: b})
    for _ in range(2):
        for registers in aliased():
            single(op(kind, *registers), values(registers[1:]))
    for _ in range(70):
        rd, rs1, rs2 = rng.below(32), rng.below(32), rng.below(32)
        single(op(kind, rd, rs1, rs2), values((rs1, rs2)))
for kind in ("sll", "srl", "sra", "sllw", "srlw", "sraw"):
    for shamt in (0, 1, 30, 31, 32, 33, 62, 63, 64, 65, 0x20, 0x3F, 0x1_0000_003F, M64 - 31):
        for a in (1, M64, 0x8000_0000, 0x7FFF_FFFF, 2**63, rng.next()):
            rd, rs1, rs2 = three()
            single(op(kind, rd, rs1, rs2), {rs1: a, rs2: shamt})

for kind, least in [(k, 2**63) for k in ("div", "divu", "rem", "remu")] + [
        (k, v) for k in ("divw", "divuw", "remw", "remuw") for v in (2**31, M64 - 2**31 + 1)]:
    for a, b in ((least, M64), (least, 0), (rng.next(), 0), (least + 1, M64), (least - 1, M64), (least, 1)):
        rd, rs1, rs2 = three()
        for to in (rd, rs1, rs2, 0):
            single(op(kind, to, rs1, rs2), {rs1: a, rs2: b})

IMM12 = [0, 1, -1, 2047, -2048]
for kind in OP_IMM:
    for imm in IMM12:
        for a in EDGES:
            rd, rs1 = rng.distinct(X, 2)
            single(op_imm(kind, rd, rs1, imm), {rs1: a})
        for registers in aliased():
            single(op_imm(kind, *registers[:2], imm), values(registers[1:2]))
    for _ in range(120):
        rd, rs1 = rng.below(32), rng.below(32)
        imm = rng.between(-2048, 2047)
        near = (imm + rng.between(-1, 1)) & M64
        single(op_imm(kind, rd, rs1, imm), {rs1: near if rng.below(3) == 0 else rng.value()})

for kind in SHIFT_IMM:
    width = SHIFT_IMM[kind][3]
    for shamt in range(width):
        rd, rs1 = rng.below(32), rng.below(32)
        single(shift_imm(kind, rd, rs1, shamt), {rs1: rng.next()})
    for shamt in (0, 1, 31, width // 2, width - 1):
        for a in EDGES:
            rd, rs1 = rng.distinct(X, 2)
            single(shift_imm(kind, rd, rs1, shamt), {rs1: a})
    for registers in aliased():
        single(shift_imm(kind, *registers[:2], rng.below(width)), values(registers[1:2]))

for kind in UPPER:
    for imm20 in (0, 1, 2, 0x7FFFF, 0x80000, 0x80001, 0xFFFFE, 0xFFFFF):
        for page in PAGES:
            for pc in (page - 4, page - 2, page, page + 2):
                single(upper(kind, rng.between(1, 31), imm20), {}, pc)
        single(upper(kind, 0, imm20), {})
    for _ in range(60):
        single(upper(kind, rng.below(32), rng.below(2**20)), {})

for offset in [4, 6, 8, -2, -4, 2046, 2048, 4096, -4096, 2**20 - 2, -2**20, 2**19, -2**19,
               *(2**k for k in range(3, 20))]:
    for rd in (0, 1, rng.between(2, 31)):
        single(jal(rd, offset), {})
for _ in range(160):
    single(jal(rng.below(32), rng.pick((-1, 1)) * rng.between(4, 2**19 - 1) * 2), {})

for a in EDGES + [2, 3, 5, M64 - 1, 2**63 + 1, 2**62]:
    for imm in IMM12 + [2, -2, 3]:
        rd, rs1 = rng.distinct(X, 2)
        single(jalr(rd, rs1, imm), {rs1: a})
for _ in range(12):
    for registers in aliased():
        single(jalr(*registers[:2], rng.pick(IMM12 + [rng.between(-2048, 2047)])), values(registers[1:2]))
for _ in range(160):
    # Into the pages of C.EBREAKs, odd sums among them.
    rd, rs1 = rng.below(32), rng.between(1, 31)
    imm = rng.between(-2048, 2047)
    single(jalr(rd, rs1, imm), {rs1: (rng.pick(PAGES) + rng.between(-2000, 2000) - imm) & M64}, PAGES[0] + 0xFF0)

B_OFFSETS = [4, 6, 8, -2, -4, 4094, -4096, 2048, -2048, 2046, 30, 32, 16, 64, 128, 256, 512, 1024]
for kind in BRANCH:
    for a, b in edge_pairs():
        rs1, rs2 = rng.distinct(X, 2)
        single(branch(kind, rs1, rs2, rng.pick(B_OFFSETS)), {rs1: a, rs2: b})
    for _ in range(3):
        for _, rs1, rs2 in aliased():
            single(branch(kind, rs1, rs2, rng.pick(B_OFFSETS)), values((rs1, rs2)))
    for _ in range(120):
        rs1, rs2 = rng.distinct(range(32), 2)
        a = rng.value()
        b = (a + rng.between(-1, 1)) & M64 if rng.below(2) else rng.value()
        single(branch(kind, rs1, rs2, rng.pick((-1, 1)) * rng.between(2, 2047) * 2), {rs1: a, rs2: b})

for pred in range(16):
    for succ in range(16):
        if (pred + succ) % 3 == 0 and pred and succ:
            single(fence(pred << 4 | succ), values(X[:1]))
single(fence(0x833), {})  # FENCE.TSO
for _ in range(24):
    single(fence_i(0, 0, 0), values(X[:1]))
for _ in range(40):
    # Reserved fields, which the ISA has ignored.
    rs1, rd = rng.between(1, 31), rng.between(1, 31)
    single(fence(rng.below(4096), rs1, rd), {rs1: rng.value()})
    single(fence_i(rng.below(4096), rs1, rd), {rs1: rng.value()})

for imm in range(4, 1024, 4):
    single(c_addi4spn(rng.pick(MARKED), imm), {2: rng.value()})
for a in EDGES:
    for imm in (4, 512, 1020):
        single(c_addi4spn(rng.pick(MARKED), imm), {2: a})
for imm in range(-32, 32):
    single(ci("c.nop", 0, imm), {})
    for rd in (rng.between(1, 31), rng.between(1, 31)):
        single(ci("c.addi", rd, imm), {rd: rng.value()})
        single(ci("c.addiw", rd, imm), {rd: rng.value()})
        single(ci("c.li", rd, imm), {rd: rng.value()})
    if imm:
        for _ in range(2):
            single(ci("c.lui", rng.pick((1, *range(3, 32))), imm), {})
            single(c_addi16sp(16 * imm), {2: rng.value()})
    for kind in CB_ALU:
        for rd in rng.distinct(MARKED, 2):
            single(cb_alu(kind, rd, imm & 63), {rd: rng.value()})
    for rd in rng.distinct(X, 2):
        single(ci("c.slli", rd, imm & 63), {rd: rng.value()})
for imm in (0, 1, -1, 31, -32):
    single(ci("c.li", 0, imm), {})
    for a in EDGES:
        rd, marked = rng.between(1, 31), rng.pick(MARKED)
        single(ci("c.addi", rd, imm), {rd: a})
        single(ci("c.addiw", rd, imm), {rd: a})
        for kind in CB_ALU:
            single(cb_alu(kind, marked, imm & 63), {marked: a})
        single(ci("c.slli", rd, imm & 63), {rd: a})
        if imm:
            single(c_addi16sp(16 * imm), {2: a})
for kind in CA:
    for a, b in edge_pairs():
        rd, rs2 = rng.distinct(MARKED, 2)
        single(ca(kind, rd, rs2), {rd: a, rs2: b})
    for _ in range(90):
        rd, rs2 = rng.pick(MARKED), rng.pick(MARKED)
        single(ca(kind, rd, rs2), values((rd, rs2)))
    for rd in MARKED:
        single(ca(kind, rd, rd), values((rd,)))
for offset in [2046, *(2**k for k in range(1, 11)), *(2 * rng.between(1, 1023) for _ in range(120))]:
    single(c_j(offset), {})
    single(c_j(-offset), {})
single(c_j(-2048), {})
for kind in ("c.beqz", "c.bnez"):
    for offset in range(-256, 256, 2):
        if offset:
            for value in (0, rng.pick(EDGES[1:])):
                rs1 = rng.pick(MARKED)
                single(cb(kind, rs1, offset), {rs1: value})
for rd in X:
    for _ in range(5):
        single(cr("c.jr", rd, 0), values((rd,)))
        single(cr("c.jalr", rd, 0), values((rd,)))
    for rs2 in (rd, *rng.distinct(X, 4)):
        single(cr("c.mv", rd, rs2), values((rd, rs2)))
        single(cr("c.add", rd, rs2), values((rd, rs2)))
for kind in ("c.jr", "c.jalr"):
    for a in EDGES + [PAGES[0] + 1, PAGES[0] + 0x201, PAGES[1] - 3, PAGES[2] + 2]:
        single(cr(kind, 1, 0), {1: a}, PAGES[0] + 0xFF0)
        single(cr(kind, rng.between(2, 31), 0), values(X))
for a, b in edge_pairs():
    rd, rs2 = rng.distinct(X, 2)
    single(cr("c.add", rd, rs2), {rd: a, rs2: b})


# Blocks. Few registers, so that one instruction's result is the next one's operand.

def register(few):
    return rng.pick(few) if rng.below(12) else 0


def marked(few):
    return rng.pick([r for r in few if r in MARKED])


def straight(few):
    """Any instruction that is no jump."""
    rd, rs1, rs2 = register(few), register(few), register(few)
    nonzero = rng.pick(few)
    kind = rng.pick([*OP, *OP, *OP_IMM, *SHIFT_IMM, *UPPER, "fence", "fence.i", "c.addi4spn", "c.addi16sp",
                     *CI, *CI, *CB_ALU, *CA, *CA, "c.mv", "c.add"])
    if kind in OP:
        return op(kind, rd, rs1, rs2)
    if kind in OP_IMM:
        return op_imm(kind, rd, rs1, rng.pick(IMM12 + [rng.between(-2048, 2047)]))
    if kind in SHIFT_IMM:
        return shift_imm(kind, rd, rs1, rng.below(SHIFT_IMM[kind][3]))
    if kind in UPPER:
        return upper(kind, rd, rng.below(2**20))
    if kind == "fence":
        return fence(rng.between(1, 15) << 4 | rng.between(1, 15))
    if kind == "fence.i":
        return fence_i(0, 0, 0)
    if kind == "c.addi4spn":
        return c_addi4spn(marked(few), 4 * rng.between(1, 255))
    if kind == "c.addi16sp":
        return c_addi16sp(16 * rng.pick((-1, 1)) * rng.between(1, 31))
    if kind == "c.nop":
        return ci(kind, 0, rng.between(-32, 31))
    if kind == "c.lui":
        return ci(kind, nonzero if nonzero != 2 else 1, rng.pick((-1, 1)) * rng.between(1, 31))
    if kind in CI:
        return ci(kind, nonzero, rng.between(-32, 31))
    if kind in CB_ALU:
        return cb_alu(kind, marked(few), rng.between(-32, 31) & 63)
    if kind in CA:
        return ca(kind, marked(few), marked(few))
    return cr(kind, nonzero, rng.pick(few))


def zbb(few):
    """Any instruction of Zbb."""
    rd, rs1, rs2 = register(few), register(few), register(few)
    kind = rng.pick([*ZBB, *ZBB_ONE, *ZBB_IMM])
    if kind in ZBB:
        return op(kind, rd, rs1, rs2)
    if kind in ZBB_ONE:
        return one_operand(kind, rd, rs1)
    return shift_imm(kind, rd, rs1, rng.below(ZBB_IMM[kind][3]))


def mixed(few):
    """Zbb's among the others."""
    return zbb(few) if rng.below(2) else straight(few)


def jump(few):
    """Any jump or branch; those that go back may go into the block."""
    kind = rng.pick(["jal", "jalr", *BRANCH, "c.j", "c.beqz", "c.bnez", "c.jr", "c.jalr"])
    rd, rs1, rs2 = register(few), register(few), register(few)
    far = rng.below(2) == 0
    short = 2 * rng.pick((rng.between(2, 100), rng.between(-16, -1)))
    if kind == "jal":
        return jal(rd, 2 * rng.between(2, 2**19 - 1) if far else short)
    if kind == "jalr":
        return jalr(rd, rs1, rng.between(-2048, 2047))
    if kind in BRANCH:
        return branch(kind, rs1, rs2, 2 * rng.between(-2048, -1) if far else short)
    if kind == "c.j":
        return c_j(2 * rng.between(-1024, -1) if far else short)
    if kind in ("c.beqz", "c.bnez"):
        return cb(kind, marked(few), short)
    return cr(kind, rng.pick(few), 0)


# What stands behind a block and ends it: a helper instruction, an uncovered one, one that lacks a halfword.
ENDS = [bytes.fromhex(h) for h in (
    # LD, SD, LR.W, FLD, C.LW, C.LD, C.SW, C.SD, C.LDSP, C.SDSP, C.LDSP, C.LWSP with rd 0
    "03350500", "23b0a500", "2f25b510", "07350500", "1041", "1861", "00c1", "00e1", "0265", "22e4", "8260", "0240",
    # ECALL, EBREAK, C.EBREAK, custom-0, longer than 32 bits
    "73000000", "73001000", "0290", "0b000000", "ffffffff",
    # Reserved: zeros, C.ADDW group, C.JR 0, C.ADDI16SP 0, C.ADDIW to 0, OP, branch, MISC-MEM, SLLI, SLLIW
    "0000", "419c", "0280", "0161", "0120", "33000008", "63200000", "0f200000", "1310f0ff", "1b10f0ff",
    # Hints of rule 3: C.LUI, C.SLLI, C.MV, C.ADD with rd 0
    "0560", "0600", "0680", "0690",
    # A halfword of two, with and without a lone byte; a lone byte
    "1300", "130005", "13", "01")]


def few_registers():
    return rng.distinct([1, 2, 5, 17, 31], 2) + rng.distinct(MARKED, 3)


def block(longest, one=straight):
    few = few_registers()
    instrs = [one(few) for _ in range(rng.between(1, longest - 1))]
    tail = b""
    pc = anywhere()
    match rng.below(8):
        case 0 | 1 | 2 | 3:
            # A jump or branch ends it; more code may follow.
            instrs.append(jump(few))
            limit = rng.between(len(instrs), 255) if rng.below(2) else len(instrs)
            tail = b"".join(one(few).code for _ in range(rng.below(3)))
        case 4 | 5:
            # The limit ends it, with instructions left.
            instrs.append(one(few) if rng.below(2) else jump(few))
            limit = rng.between(1, len(instrs) - 1)
        case 6:
            # The limit is met by the last.
            instrs.append(one(few))
            limit = len(instrs)
        case _:
            tail = rng.pick(ENDS)
            limit = rng.between(len(instrs) + 1, 255)
    if sum(len(i.code) for i in instrs) + len(tail) <= 64:
        cases.append(Case(instrs, values(few), limit, pc, tail))


def fenced():
    """FENCE.I with any fields first or behind others, FENCE beside it, and behind it code that is not run."""
    few = few_registers()
    instrs = [straight(few) for _ in range(rng.below(5))]
    if rng.below(3) == 0:
        instrs.append(fence(rng.below(4096), rng.below(32), rng.below(32)))
    instrs.append(fence_i(rng.below(4096), rng.below(32), rng.below(32)))
    limit = len(instrs) + rng.pick((-1, 0, 0, 1, 2, 200))
    instrs += [straight(few) for _ in range(rng.between(1, 3))]
    instrs.append(rng.pick((fence_i(0, 0, 0), straight(few), jump(few))))
    cases.append(Case(instrs, values(few), max(limit, 1), anywhere()))


while len(cases) < 20_300:
    block(8)
while len(cases) < 20_500:
    block(24)
while len(cases) < 20_800:
    fenced()


# Zbb.

PLACES = range(64)
BITS = [1 << i for i in PLACES]
ONES = [M64 >> i for i in PLACES]  # the low bits
# Bytes and halfwords whose top bit is set or not, words that are 0 or not, and bytes that are 0 or not.
FIELDS = [0x7F, 0x80, 0xFF, 0x100, 0x7FFF, 0x8000, 0xFFFF, 0x1_0000, 0xFFFF_FFFF_FFFF_FF00, 0xFFFF_FFFF_FFFF_0000,
          0xFFFF_FFFF_0000_0000, 0x8000_0000_8000_0000, 0x1_0000_0001, 0x1234_5678_0000_0000, 0x8765_4321,
          0x0123_4567_89AB_CDEF, *(a * 0x0001_0001_0001_0001 for a in (
              0x0001, 0x0100, 0x0080, 0x8000, 0x00FF, 0xFF00, 0x0101, 0x8080, 0x7F7F, 0x5555))]


def pieces():
    """Each byte is 0, or one bit, or anything."""
    return int.from_bytes(bytes(rng.pick((0, 1 << rng.below(8), rng.below(256))) for _ in range(8)), "little")


def any_value():
    return rng.pick((pieces, rng.value, rng.value))()


for kind in ZBB_ONE:
    for a in dict.fromkeys(EDGES + FIELDS + BITS + [M64 ^ b for b in BITS] + ONES + [M64 ^ b for b in ONES]):
        rd, rs1 = rng.distinct(X, 2)
        single(one_operand(kind, rd, rs1), {rs1: a})
    for _ in range(3):
        for rd, rs1, _ in aliased():
            single(one_operand(kind, rd, rs1), {rs1: any_value()})
    for r in range(32):
        for rd, rs1 in ((r, r), (r, rng.below(32)), (rng.below(32), r)):
            single(one_operand(kind, rd, rs1), {rs1: any_value()})
    for _ in range(240):
        rd, rs1 = rng.below(32), rng.below(32)
        single(one_operand(kind, rd, rs1), {rs1: any_value()})

for kind in ZBB:
    for a, b in edge_pairs():
        rd, rs1, rs2 = three()
        single(op(kind, rd, rs1, rs2), {rs1: a, rs2: b})
    for bit in BITS:
        a = rng.next()
        for x, y in ((bit, a), (a, bit), (bit, M64 ^ bit), (a, a ^ bit)):
            rd, rs1, rs2 = three()
            single(op(kind, rd, rs1, rs2), {rs1: x, rs2: y})
    for _ in range(3):
        for registers in aliased():
            single(op(kind, *registers), {r: any_value() for r in registers[1:]})
    for r in range(32):
        for registers in ((r, r, r), (r, rng.below(32), rng.below(32)), (rng.below(32), r, rng.below(32)),
                          (rng.below(32), rng.below(32), r)):
            single(op(kind, *registers), {r: any_value() for r in registers[1:]})
    for _ in range(60):
        # Operands that are equal or beside each other.
        rd, rs1, rs2 = three()
        a = any_value()
        single(op(kind, rd, rs1, rs2), {rs1: a, rs2: (a + rng.between(-1, 1)) & M64})
for kind in ("rol", "ror", "rolw", "rorw"):
    # All counts, with and without other bits above them.
    for count in range(128):
        for a, above in ((rng.next(), 0), (any_value(), rng.next() << 7 & M64)):
            rd, rs1, rs2 = three()
            single(op(kind, rd, rs1, rs2), {rs1: a, rs2: count | above})

for kind in ZBB_IMM:
    width = ZBB_IMM[kind][3]
    for count in [*range(width)] * (64 // width):
        for a in (1, 0x8000_0000, 2**63, rng.pick(BITS), rng.next(), rng.next(), any_value()):
            rd, rs1 = rng.distinct(X, 2)
            single(shift_imm(kind, rd, rs1, count), {rs1: a})
    for a in dict.fromkeys(EDGES + FIELDS + BITS):
        rd, rs1 = rng.distinct(X, 2)
        single(shift_imm(kind, rd, rs1, rng.below(width)), {rs1: a})
    for _ in range(3):
        for rd, rs1, _ in aliased():
            single(shift_imm(kind, rd, rs1, rng.below(width)), {rs1: any_value()})
    for r in range(32):
        for rd, rs1 in ((r, r), (r, rng.below(32)), (rng.below(32), r)):
            single(shift_imm(kind, rd, rs1, rng.below(width)), {rs1: any_value()})

first = len(cases)
while len(cases) < first + 1_800:
    block(8, mixed)
while len(cases) < first + 2_000:
    block(14, mixed)


# The machine runs them.

OUTCOME = struct.Struct("<QQ32Q32Q")


def request(case, run):
    last = run[-1]
    code = b"".join(i.code for i in run)
    straight_bytes = len(code) - len(last.code) if last.jumps() else len(code)
    registers = [case.inputs.get(r, default(r)) for r in range(32)]
    return struct.pack("<QQQ64s32Q", case.pc, straight_bytes, len(code), code, *registers)


def targets(case, before):
    """Where the last instruction may lead, and where it stands."""
    last = case.run[-1]
    at = case.pc + sum(len(i.code) for i in case.run[:-1])
    behind = at + len(last.code)
    if last.base is not None:
        register, imm = last.base
        return at, {((before[register] if register else 0) + imm) & M64 & ~1}
    if last.offset is not None:
        return at, {at + last.offset} | (set() if last.kind in ("jal", "c.j") else {behind})
    return at, {behind}


def record(case, outcome):
    """The case with its outcome, or None where the machine would run on: a jump onto itself or into the recorder."""
    signal, pc, *rest = OUTCOME.unpack(outcome)
    after, before = rest[:32], rest[32:]
    at, ways = targets(case, before)
    if any(at <= t < at + len(case.run[-1].code) or t in RECORDER for t in ways):
        return None
    assert signal in (5, 11) and pc in ways, (signal, hex(pc), case)  # SIGTRAP, SIGSEGV
    changed = {r: after[r] for r in X if after[r] != case.inputs.get(r, default(r))}
    return (struct.pack("<B", len(case.code)) + case.code + struct.pack("<QB", case.pc, case.limit)
            + pairs(case.inputs) + pairs(changed) + struct.pack("<QB", pc, len(case.run)))


def miscounted(program):
    """The numbers of the cases with a CTZW of a register whose low word is 0 and whose upper is not.

    qemu 7.2 counts all 64 bits there. The machine runs what stands in front of it, and so says what the register holds.
    """
    asked = [(number, case, at, instr.zeros) for number, case in enumerate(cases)
             for at, instr in enumerate(case.run) if instr.zeros]
    outcomes = iter(machine(program, [request(case, case.run[:at]) for _, case, at, _ in asked if at], OUTCOME.size))
    found = set()
    for number, case, at, register in asked:
        value = OUTCOME.unpack(next(outcomes))[2 + register] if at else case.inputs.get(register, default(register))
        if value and value % 2**32 == 0:
            found.add(number)
    return found


def check_kinds():
    """binutils' mnemonic for each instruction must be the kind.

    Some hints have names of their own there, and FENCE and FENCE.I with reserved fields none.
    """
    same = {("fence.tso", "fence"), ("c.addi", "c.nop"), ("c.srli64", "c.srli"), ("c.srai64", "c.srai"),
            ("c.slli64", "c.slli"), (".4byte", "fence"), (".4byte", "fence.i")}
    instrs = [i for case in cases for i in case.run]
    with open("code.bin", "wb") as file:
        file.write(b"".join(i.code for i in instrs))
    with open("code.s", "w") as file:
        file.write('.incbin "code.bin"\n')
    # The object says that there is Zbb. Its one symbol goes: it says that these are data.
    subprocess.run(["riscv64-linux-gnu-as", "-march=rv64gc_zbb", "-o", "code.o", "code.s"], check=True)
    subprocess.run(["riscv64-linux-gnu-objcopy", "--strip-all", "code.o"], check=True)
    found = listed(["riscv64-linux-gnu-objdump", "-d", "-M", "no-aliases", "code.o"])
    at = 0
    for instr in instrs:
        read = found[at][0]
        assert read == instr.kind or (read, instr.kind) in same, (read, instr)
        at += len(instr.code)


def main():
    program, path = sys.argv[1:]
    check_kinds()
    outcomes = machine(program.split(), [request(case, case.run) for case in cases], OUTCOME.size)
    wrong = miscounted(program.split())
    right = [(case, outcome) for number, (case, outcome) in enumerate(zip(cases, outcomes)) if number not in wrong]
    kept = [(case, r) for case, outcome in right if (r := record(case, outcome)) is not None]
    write(path, b"RV64CASE", [r for _, r in kept])
    singles = Counter(case.run[0].kind for case, _ in kept if len(case.instrs) == 1)
    ran = Counter(i.kind for case, _ in kept for i in case.run)
    print(f"rv64: {len(kept)} cases, {len(right) - len(kept)} left out (a jump onto itself or into the recorder), "
          f"{len(wrong)} left out (CTZW of a low word 0 below an upper word that is not), "
          f"{len(kept) - sum(singles.values())} blocks, {sum(ran.values())} instructions, {len(ran)} kinds")
    print("kind: single cases, instructions in all")
    for kind in ran:
        print(f"  {kind}: {singles[kind]}, {ran[kind]}")


main()
