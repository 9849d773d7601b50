"""Makes the A64 cases, has the machine run them, and writes the record. Use: a64.py PROGRAM RECORD

The encodings are those of the Arm Architecture Reference Manual, part C6.2;
binutils reads every word back, and its mnemonic must be the case's form.
"""

import struct
import sys
from collections import Counter
from dataclasses import dataclass

from common import A64, EDGES, M64, RECORDER, Random, default, disassemble, led_to, machine, pairs, write

rng = Random(0x4136_34)

PAGES = [0x7FFF_F000, 0xFFFF_F000, 0x12_3456_7000]  # code; the first two lie on 2^31 and 2^32
MEMORY = [0x1_8000_0000, 0x7_FFFF_F000, 0x4000]  # the last is near 0: sums pass from 2^64 to it
X = range(31)
ZR = 31
SP = 31

# form: (word, binutils' mnemonic)
THREE = {"add": (0x8B00_0000, "add"), "sub": (0xCB00_0000, "sub"), "and": (0x8A00_0000, "and"),
         "orr": (0xAA00_0000, "orr"), "eor": (0xCA00_0000, "eor"), "lslv": (0x9AC0_2000, "lslv"),
         "lsrv": (0x9AC0_2400, "lsrv"), "asrv": (0x9AC0_2800, "asrv"), "mul": (0x9B00_7C00, "madd"),
         "smulh": (0x9B40_7C00, "smulh"), "umulh": (0x9BC0_7C00, "umulh"), "udiv": (0x9AC0_0800, "udiv"),
         "sdiv": (0x9AC0_0C00, "sdiv"), "bic": (0x8A20_0000, "bic"), "orn": (0xAA20_0000, "orn"),
         "eon": (0xCA20_0000, "eon"), "rorv": (0x9AC0_2C00, "rorv")}
ONE = {"rev": (0xDAC0_0C00, "rev"), "clz": (0xDAC0_1000, "clz")}
OTHERS = {"ldr": (0xF940_0000, "ldr"), "str": (0xF900_0000, "str"), "cmp": (0xEB00_001F, "subs"),
          "csel": (0x9A80_0000, "csel"), "sxtw": (0x9340_7C00, "sbfm"), "add_sp": (0x9100_03FF, "add"),
          "sub_sp": (0xD100_03FF, "sub"), "movz": (0xD280_0000, "movz"), "movk": (0xF280_0000, "movk"),
          "blr": (0xD63F_0000, "blr"), "ret": (0xD65F_03C0, "ret")}
FORMS = THREE | ONE | OTHERS


@dataclass
class Word:
    form: str
    word: int
    target: int | None = None  # BLR, RET: the register that holds it


def three(form, rd, rn, rm):
    return Word(form, FORMS[form][0] | rm << 16 | rn << 5 | rd)


def one(form, rd, rn):
    return Word(form, FORMS[form][0] | rn << 5 | rd)


def cmp(rn, rm):
    return three("cmp", 0, rn, rm)


def csel(rd, rn, rm, cond):
    return Word("csel", FORMS["csel"][0] | rm << 16 | cond << 12 | rn << 5 | rd)


def sxtw(rd, rn):
    return Word("sxtw", FORMS["sxtw"][0] | rn << 5 | rd)


def sp_imm(form, imm12):
    return Word(form, FORMS[form][0] | imm12 << 10)


def move(form, rd, halfword, imm16):
    return Word(form, FORMS[form][0] | halfword << 21 | imm16 << 5 | rd)


def access(form, rt, rn, imm12):
    return Word(form, FORMS[form][0] | imm12 << 10 | rn << 5 | rt)


def blr(rn):
    return Word("blr", FORMS["blr"][0] | rn << 5, rn)


def ret():
    return Word("ret", FORMS["ret"][0], 30)


@dataclass
class Memory:
    base: int = 0
    data: bytes = b""

    def slots(self):
        """The addresses of the 8-byte places that are multiples of 8."""
        return range(-(-self.base // 8) * 8, self.base + len(self.data) - 7, 8)


def any_memory(low=8):
    """Memory of 8 to 64 bytes that holds at least one place; its base is any number."""
    while True:
        data = b"".join(struct.pack("<Q", rng.value()) for _ in range(8))
        m = Memory(rng.pick(MEMORY) + rng.pick((0, 0, 8, rng.below(4096))), data[:rng.pick((64, rng.between(low, 64)))])
        if m.slots():
            return m


@dataclass
class Case:
    run: list
    inputs: dict
    sp: int
    nzcv: int
    memory: Memory
    tail: list  # words behind a BLR or RET, which are not run
    address: int

    def __post_init__(self):
        self.inputs = {r: v for r, v in self.inputs.items() if r != 31 and v != default(r)}
        assert len(self.run) + len(self.tail) <= 16
        assert all(w.target is None for w in self.run[:-1])
        assert not self.tail or self.run[-1].target is not None


cases = []


def anywhere():
    return rng.pick(PAGES) + 4 * (rng.below(900) if rng.below(3) else rng.between(-10, 1))


def single(word, inputs, sp=None, nzcv=None, memory=None):
    tail = []
    if word.target is not None and rng.below(4) == 0:
        tail = [rng.pick((0, 0xD65F_03C0, 0xF900_0000, 0xD280_0020))]
    cases.append(Case([word], inputs, rng.value() if sp is None else sp,
                      rng.below(16) if nzcv is None else nzcv, memory or Memory(), tail, anywhere()))


def values(registers):
    return {r: rng.value() for r in registers}


def aliased():
    """rd, rn, rm: each way in which two are equal or one is register 31."""
    a, b, c = rng.distinct(X, 3)
    return [(a, a, b), (a, b, a), (a, b, b), (a, a, a), (ZR, a, b), (ZR, a, a), (a, ZR, b), (a, b, ZR), (a, ZR, ZR),
            (a, ZR, a), (a, a, ZR), (ZR, ZR, ZR), (0, 30, 0), (30, 0, 30), (a, b, c)]


def edge_pairs():
    return [(a, b) for a in EDGES for b in EDGES]


for form in [*THREE, "cmp"]:
    for a, b in edge_pairs():
        rd, rn, rm = rng.distinct(X, 3)
        single(cmp(rn, rm) if form == "cmp" else three(form, rd, rn, rm), {rn: a, rm: b})
    for _ in range(4):
        for rd, rn, rm in aliased():
            single(cmp(rn, rm) if form == "cmp" else three(form, rd, rn, rm), values((rn, rm)))
    for _ in range(620):
        rd, rn, rm = rng.below(32), rng.below(32), rng.below(32)
        single(cmp(rn, rm) if form == "cmp" else three(form, rd, rn, rm), values((rn, rm)))
for form in ("lslv", "lsrv", "asrv", "rorv"):
    for amount in (0, 1, 31, 32, 33, 62, 63, 64, 65, 127, 128, 2**32, 2**63, M64):
        for a in (1, M64, 0x8000_0000, 2**63, 2**63 - 1, rng.next()):
            rd, rn, rm = rng.distinct(X, 3)
            single(three(form, rd, rn, rm), {rn: a, rm: amount})
BITS = [1 << i for i in range(64)]
for amount in range(128):
    for a in (rng.pick(BITS), rng.next()):
        rd, rn, rm = rng.distinct(X, 3)
        single(three("rorv", rd, rn, rm), {rn: a, rm: amount | rng.pick((0, rng.next() << 7 & M64))})
for form in ("bic", "orn", "eon"):
    for bit in BITS:
        a = rng.next()
        for x, y in ((bit, a), (a, bit)):
            rd, rn, rm = rng.distinct(X, 3)
            single(three(form, rd, rn, rm), {rn: x, rm: y})
# One bit, all but one, the low bits and the high ones; a byte in each place.
PATTERNS = [*BITS, *(M64 ^ b for b in BITS), *(b - 1 for b in BITS), *(M64 - b + 1 for b in BITS),
            *(byte << 8 * i for byte in (0x80, 0xA5, 0xFF) for i in range(8))]
for form in ONE:
    for a in dict.fromkeys(EDGES + PATTERNS):
        rd, rn = rng.distinct(X, 2)
        single(one(form, rd, rn), {rn: a})
    for rd, rn in [(a, b) for a, b, _ in aliased() * 4]:
        single(one(form, rd, rn), values((rn,)))
    for r in range(32):
        for rd, rn in ((r, r), (r, rng.below(32)), (rng.below(32), r)):
            single(one(form, rd, rn), values((rn,)))
    for _ in range(240):
        rd, rn = rng.below(32), rng.below(32)
        single(one(form, rd, rn), values((rn,)))
for _ in range(200):
    a = rng.value()
    rn, rm = rng.distinct(X, 2)
    single(cmp(rn, rm), {rn: a, rm: (a + rng.between(-1, 1)) & M64})

for cond in range(16):
    for nzcv in range(16):
        for _ in range(4):
            rd, rn, rm = rng.distinct(X, 3)
            single(csel(rd, rn, rm, cond), values((rn, rm)), nzcv=nzcv)
        rd, rn, rm = rng.pick(aliased())
        single(csel(rd, rn, rm, cond), values((rn, rm)), nzcv=nzcv)

for rd, rn in [(a, b) for a, b, _ in aliased() * 8]:
    single(sxtw(rd, rn), values((rn,)))
for a in EDGES + [0x1_7FFF_FFFF, 0x1_8000_0000, 0xFFFF_FFFF_7FFF_FFFF]:
    for _ in range(6):
        rd, rn = rng.distinct(X, 2)
        single(sxtw(rd, rn), {rn: a})

for form in ("add_sp", "sub_sp"):
    for imm in (0, 1, 8, 16, 2047, 2048, 4080, 4095):
        for sp in EDGES + [imm, imm - 1 & M64, -imm & M64]:
            single(sp_imm(form, imm), {}, sp)
    for _ in range(120):
        single(sp_imm(form, rng.below(4096)), {})

for form in ("movz", "movk"):
    for halfword in range(4):
        for imm in (0, 1, 0x7FFF, 0x8000, 0xFFFF):
            for a in EDGES:
                rd = rng.below(31)
                single(move(form, rd, halfword, imm), {rd: a})
            single(move(form, ZR, halfword, imm), {})
        for _ in range(70):
            rd = rng.below(32)
            single(move(form, rd, halfword, rng.below(2**16)), values((rd,)))

for rn in range(32):
    for _ in range(10):
        single(blr(rn), values((rn,)))
for page in PAGES:
    for rn in (0, 16, 30):
        for a in (page, page + 0x800, page - 4, 4, 2**48):
            single(blr(rn), {rn: a})
for a in EDGES + [PAGES[0], PAGES[1] + 0x100, PAGES[2] - 4]:
    for _ in range(8):
        single(ret(), {30: a})
for _ in range(60):
    single(ret(), values(rng.distinct(X, 3)))

IMM12 = [0, 0, 1, 2, 31, 2047, 2048, 4094, 4095]


def one_access(form, rt, rn, imm12, last=None):
    """One access, at the memory's first or last place or any."""
    m = any_memory()
    slots = m.slots()
    where = slots[0] if last is False else slots[-1] if last else rng.pick(slots)
    inputs = values((rt,))
    if rn == SP:
        # Through SP: its value is a multiple of 16.
        imm12 ^= (where // 8 - imm12) % 2
        single(access(form, rt, rn, imm12), inputs, (where - 8 * imm12) & M64, memory=m)
    else:
        single(access(form, rt, rn, imm12), inputs | {rn: (where - 8 * imm12) & M64}, memory=m)


for form in ("ldr", "str"):
    for imm12 in IMM12[1:]:
        for last in (False, True):
            for rn in (*rng.distinct(X, 6), SP, SP, SP):
                one_access(form, rng.below(31), rn, imm12, last)
    for r in range(32):
        for _ in range(3):
            one_access(form, r, r, rng.pick(IMM12))  # through itself; 31 is SP and zero
            one_access(form, r, rng.below(31), rng.below(4096))
            one_access(form, rng.below(32), r, rng.below(4096))
            one_access(form, ZR, r, rng.pick(IMM12))
            one_access(form, r, SP, rng.below(4096))


# Runs. Few registers, so that one word's result is the next one's operand.
# A register that holds an address of the memory is known until it is written.

class Run:
    def __init__(self):
        self.few = rng.distinct(X, 5)
        self.memory = any_memory(16) if rng.below(3) else Memory()
        self.inputs = values(self.few)
        self.sp = rng.value()
        self.known = {}
        self.words = []
        if self.memory.data:
            for r in rng.distinct(self.few, 2):
                self.inputs[r] = self.known[r] = (rng.pick(self.memory.slots()) - 8 * rng.below(64)) & M64
            self.sp = self.memory.slots()[0] & -16
        self.moving_sp = self.sp

    def register(self):
        return rng.pick(self.few) if rng.below(12) else 31

    def add(self, word, written=None):
        self.known.pop(written, None)
        self.words.append(word)

    def one_access(self):
        """A load or store through a known register or SP, if one of them reaches the memory."""
        form, rt = rng.pick(("ldr", "str", "str")), self.register()
        base, value = rng.pick([*self.known.items(), (SP, self.moving_sp)])
        where = rng.pick(self.memory.slots())
        imm12, rest = divmod(where - value & M64, 8)
        if imm12 < 4096 and rest == 0 and (base != SP or value % 16 == 0):
            self.add(access(form, rt, base, imm12), rt if form == "ldr" else None)

    def one(self):
        rd, rn, rm = self.register(), self.register(), self.register()
        choice = rng.below(18)
        if self.memory.data and rng.below(3) == 0:
            return self.one_access()
        if choice < 7:
            self.add(three(rng.pick([*THREE]), rd, rn, rm), rd)
        elif choice < 9:
            self.add(cmp(rn, rm))
        elif choice < 12:
            self.add(csel(rd, rn, rm, rng.below(16)), rd)
        elif choice < 13:
            self.add(sxtw(rd, rn), rd)
        elif choice < 14:
            form, imm = rng.pick(("add_sp", "sub_sp")), rng.pick((16, 16, 32, rng.below(4096)))
            self.moving_sp = (self.moving_sp + (imm if form == "add_sp" else -imm)) & M64
            self.add(sp_imm(form, imm))
        elif choice < 16:
            self.add(one(rng.pick([*ONE]), rd, rn), rd)
        else:
            self.add(move(rng.pick(("movz", "movk")), rd, rng.below(4), rng.below(2**16)), rd)

    def case(self, longest):
        length = rng.between(2, longest)
        end = rng.pick((None, None, "ret", "blr"))
        while len(self.words) < length - (end is not None):
            self.one()
        tail = []
        if end:
            self.words.append(ret() if end == "ret" else blr(self.register()))
            tail = [rng.pick((0, M64 >> 32, 0xD65F_03C0, 0xF900_0000)) for _ in range(rng.below(3))]
        return Case(self.words, self.inputs, self.sp, rng.below(16), self.memory, tail, anywhere())


def load_constant():
    """MOVZ, then MOVK of the nonzero halfwords (rule 8)."""
    rd, value = rng.below(31), rng.value()
    words = [move("movz", rd, 0, value & 0xFFFF)]
    words += [move("movk", rd, h, value >> 16 * h & 0xFFFF) for h in (1, 2, 3) if value >> 16 * h & 0xFFFF]
    cases.append(Case(words, {}, rng.value(), rng.below(16), Memory(), [], anywhere()))


for _ in range(200):
    load_constant()
for _ in range(4_000):
    cases.append(Run().case(8))


# The machine runs them.

RECORD = A64(64, 64)


def request(case):
    code = b"".join(struct.pack("<I", w.word) for w in case.run)
    registers = [case.inputs.get(r, default(r)) for r in X]
    return RECORD.ask(case.address, code, case.run[-1].target is not None, registers, case.sp, case.nzcv,
                      case.memory.base, case.memory.data)


def record(case, outcome):
    """The case with its outcome, or None where the machine would run on: a call onto itself or into the recorder."""
    size = len(case.memory.data)
    signal, pc, after, sp, nzcv, before, data = RECORD.took(outcome, size)
    last = case.run[-1]
    behind = case.address + 4 * len(case.run)
    if last.target is None:
        end = 1
        assert (signal, pc) == (5, behind), (signal, hex(pc), case)
    else:
        end = {"ret": 5, "blr": 6}[last.form]
        target = before[last.target] if last.target != ZR else 0
        if target == behind - 4 or target in RECORDER:
            return None
        assert led_to(signal, pc, target), (signal, hex(pc), hex(target), case)
    changed = {r: after[r] for r in X if after[r] != case.inputs.get(r, default(r))}
    words = [w.word for w in case.run] + case.tail
    return (struct.pack(f"<B{len(words)}I", len(words), *words) + struct.pack("<QQ", case.address, M64)
            + pairs(case.inputs) + struct.pack("<QBQB", case.sp, case.nzcv, case.memory.base, size) + case.memory.data
            + pairs(changed) + struct.pack("<QB", sp, nzcv) + data + struct.pack("<BB", end, len(case.run)))


def check_forms():
    """binutils' mnemonic for each word must be the form's."""
    words = [w for case in cases for w in case.run]
    found = disassemble("aarch64-linux-gnu-objdump", ["-m", "aarch64", "-M", "no-aliases"],
                        b"".join(struct.pack("<I", w.word) for w in words))
    for i, word in enumerate(words):
        assert found[4 * i] == FORMS[word.form][1], (found[4 * i], word)


def main():
    program, path = sys.argv[1:]
    check_forms()
    outcomes = machine(program.split(), [request(case) for case in cases], RECORD.outcome.size)
    kept = [(case, r) for case, o in zip(cases, outcomes) if (r := record(case, o)) is not None]
    write(path, b"A64CASES", [r for _, r in kept])
    singles = Counter(case.run[0].form for case, _ in kept if len(case.run) == 1)
    ran = Counter(w.form for case, _ in kept for w in case.run)
    print(f"a64: {len(kept)} cases, {len(cases) - len(kept)} left out (a call onto itself or into the recorder), "
          f"{len(kept) - sum(singles.values())} runs, {sum(ran.values())} words, {len(ran)} forms")
    print("form: single cases, words in all")
    for form in ran:
        print(f"  {form}: {singles[form]}, {ran[form]}")


main()
