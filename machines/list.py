"""Makes blocks and their listings, and writes the record and the program's inputs. Use: list.py RECORD FOLDER

The texts are those of the Arm Architecture Reference Manual, part C6.2, with every operand written and no alias;
GNU as makes each text's word, and binutils' mnemonic for the word must be the text's own.
RECORD is for crates/list_replay; FOLDER, for crates/list, gets stdin, stdout and data.
"""

import os
import re
import struct
import subprocess
import sys

from common import Random, disassembly, write

rng = Random(0x4C_4953_54)

THREE = ["add", "sub", "and", "orr", "eor", "lslv", "lsrv", "asrv", "mul", "smulh", "umulh", "udiv", "sdiv", "bic", "orn",
         "eon", "rorv"]
SHIFTED = ["add", "sub", "and", "orr", "eor", "bic", "orn", "eon"]
ONE = ["rev", "clz"]
CONDITIONS = ["eq", "ne", "cs", "cc", "mi", "pl", "vs", "vc", "hi", "ls", "ge", "lt", "gt", "le", "al", "nv"]
EDGE = [0, 1, 9, 10, 29, 30, 31]
ALL = range(32)

LENGTH, OUTSIDE = 12, 13  # refusals
MOST = 65_536  # bytes that the program reads
LONGEST = 45  # bytes of a line


# ---- texts

def x(n):
    return "xzr" if n == 31 else f"x{n}"


def base(n):
    return "sp" if n == 31 else f"x{n}"


def three(op, rd, rn, rm):
    if op == "mul":
        return f"madd {x(rd)}, {x(rn)}, {x(rm)}, xzr"
    return f"{op} {x(rd)}, {x(rn)}, {x(rm)}" + (", lsl #0" if op in SHIFTED else "")


def one(op, rd, rn):
    return f"{op} {x(rd)}, {x(rn)}"


def access(op, rt, rn, imm12):
    return f"{op} {x(rt)}, [{base(rn)}, #{8 * imm12}]"


def move(op, rd, halfword, imm16):
    return f"{op} {x(rd)}, #{imm16}, lsl #{16 * halfword}"


def cmp(rn, rm):
    return f"subs xzr, {x(rn)}, {x(rm)}, lsl #0"


def csel(rd, rn, rm, cond):
    return f"csel {x(rd)}, {x(rn)}, {x(rm)}, {CONDITIONS[cond]}"


def sxtw(rd, rn):
    return f"sbfm {x(rd)}, {x(rn)}, #0, #31"


def sp_imm(op, imm12):
    return f"{op} sp, sp, #{imm12}, lsl #0"


def blr(rn):
    return f"blr {x(rn)}"


RET = "ret x30"

# Each form once, with fields that differ.
FORMS = {op: three(op, 1 + i, 30 - i, 15 + i) for i, op in enumerate(THREE)}
FORMS |= {op: one(op, 3 + i, 28 + i) for i, op in enumerate(ONE)}
FORMS |= {"ldr": access("ldr", 9, 0, 8), "str": access("str", 30, 31, 1), "movz": move("movz", 0, 0, 0x1002),
          "movk": move("movk", 11, 3, 0xFFFF), "cmp": cmp(9, 10), "csel": csel(0, 9, 10, 2), "sxtw": sxtw(1, 2),
          "add_sp": sp_imm("add", 16), "sub_sp": sp_imm("sub", 16), "blr": blr(16), "ret": RET}

# ---- the words that are listed

texts = {form: {} for form in FORMS}  # in order, each once


def say(form, text):
    texts[form][text] = None


def triples():
    """Every register in each place beside two others, edges beside each other, and any."""
    for n in ALL:
        a, b = rng.distinct([r for r in ALL if r != n], 2)
        yield from ((n, a, b), (a, n, b), (a, b, n))
    for n in EDGE:
        m = rng.pick([r for r in EDGE if r != n])
        yield from ((n, n, n), (n, m, m), (m, n, m), (m, m, n))
    for _ in range(24):
        yield rng.distinct(ALL, 3)


def pairs():
    yield from ((a, b) for a in EDGE for b in EDGE)
    for n in ALL:
        m = rng.pick([r for r in ALL if r != n])
        yield from ((n, m), (m, n))


for op in THREE:
    for rd, rn, rm in triples():
        say(op, three(op, rd, rn, rm))
for op in ONE:
    for a, b in pairs():
        say(op, one(op, a, b))
for rd, rn, rm in triples():
    say("csel", csel(rd, rn, rm, rng.below(16)))
for cond in range(16):
    for _ in range(8):
        say("csel", csel(*rng.distinct(ALL, 3), cond))
for a, b in pairs():
    say("cmp", cmp(a, b))
    say("sxtw", sxtw(a, b))
# Byte offsets of one to five digits, at both ends of each number of digits.
OFFSETS = [n // 8 for n in (0, 8, 16, 24, 96, 104, 256, 504, 992, 1000, 4088, 4096, 9992, 10_000, 16_384, 32_752, 32_760)]
for op in ("ldr", "str"):
    for a, b in pairs():
        say(op, access(op, a, b, rng.pick(OFFSETS + [rng.below(4096)])))
    for imm12 in OFFSETS:
        for rn in (rng.below(31), 31):
            say(op, access(op, rng.below(32), rn, imm12))
for op in ("movz", "movk"):
    for imm16 in (0, 1, 9, 10, 99, 100, 255, 256, 999, 1000, 4098, 9999, 10_000, 32_767, 32_768, 65_534, 65_535):
        for halfword in range(4):
            say(op, move(op, rng.pick(EDGE), halfword, imm16))
    for rd in ALL:
        say(op, move(op, rd, rng.below(4), rng.below(65_536)))
for op in ("add", "sub"):
    for imm12 in (0, 1, 8, 9, 10, 16, 99, 100, 999, 1000, 2047, 2048, 4080, 4094, 4095):
        say(op + "_sp", sp_imm(op, imm12))
    for _ in range(20):
        say(op + "_sp", sp_imm(op, rng.below(4096)))
for rn in ALL:
    say("blr", blr(rn))
for form, text in FORMS.items():
    say(form, text)

# ---- words outside the forms: neighbours, as GNU as writes them

NEIGHBOURS = """
add x0, x1, x2, lsl #1; add x0, x1, x2, lsl #63; add x0, x1, x2, lsr #0; add x0, x1, x2, asr #0; add x0, x1, x2, uxtx #0
add x0, x1, w2, sxtw #0; add sp, sp, x0; adds x0, x1, x2; add w0, w1, w2; adc x0, x1, x2
sub x0, x1, x2, lsl #1; sub x0, x1, x2, lsr #0; sub sp, sp, x0; subs x0, x1, x2; sub w0, w1, w2; sbc x0, x1, x2
subs xzr, x1, x2, lsl #1; subs xzr, x1, x2, asr #0; subs x30, x1, x2; subs wzr, w1, w2; subs xzr, x1, #2; adds xzr, x1, x2
ccmp x1, x2, #0, eq; and x0, x1, x2, lsl #1; and x0, x1, x2, ror #0; and w0, w1, w2; and x0, x1, #1; ands x0, x1, x2
orr x0, x1, x2, lsr #1; orr w0, w1, w2; orr x0, x1, #1; eor x0, x1, x2, asr #1; eor w0, w1, w2; eor x0, x1, #1
bic x0, x1, x2, lsl #1; bic x0, x1, x2, lsl #63; bic x0, x1, x2, lsr #0; bic x0, x1, x2, asr #0; bic x0, x1, x2, ror #0
orn x0, x1, x2, lsl #1; orn x0, x1, x2, lsl #63; orn x0, x1, x2, lsr #0; orn x0, x1, x2, asr #0; orn x0, x1, x2, ror #0
eon x0, x1, x2, lsl #1; eon x0, x1, x2, lsl #63; eon x0, x1, x2, lsr #0; eon x0, x1, x2, asr #0; eon x0, x1, x2, ror #0
bic w0, w1, w2; orn w0, w1, w2; eon w0, w1, w2; bics x0, x1, x2; bics w0, w1, w2
lslv w0, w1, w2; lsrv w0, w1, w2; asrv w0, w1, w2; rorv w0, w1, w2; ror x0, x1, #1
madd x0, x1, x2, x3; madd x0, x1, x2, x30; madd w0, w1, w2, wzr; msub x0, x1, x2, xzr; smaddl x0, w1, w2, xzr
umaddl x0, w1, w2, xzr; udiv w0, w1, w2; sdiv w0, w1, w2; ldr w0, [x1, #8]; ldrh w0, [x1, #8]; ldrb w0, [x1, #8]
ldrsw x0, [x1, #8]; ldrsb x0, [x1, #8]; ldr d0, [x1, #8]; ldr q0, [x1, #16]; ldur x0, [x1, #8]; ldur x0, [x1, #7]
ldr x0, [x1], #8; ldr x0, [x1, #8]!; ldr x0, [x1, x2]; ldp x0, x1, [x2, #16]; ldxr x0, [x1]; prfm pldl1keep, [x1, #8]
str w0, [x1, #8]; strh w0, [x1, #8]; strb w0, [x1, #8]; str d0, [x1, #8]; stur x0, [x1, #8]; str x0, [x1], #8
str x0, [x1, #8]!; str x0, [x1, x2]; stp x0, x1, [x2, #16]; movz w0, #1; movk w0, #1; movn x0, #1; movn x0, #0, lsl #48
movn w0, #1; csel w0, w1, w2, eq; csinc x0, x1, x2, eq; csinv x0, x1, x2, cs; csneg x0, x1, x2, nv; sbfm x0, x1, #0, #30
sbfm x0, x1, #0, #63; sbfm x0, x1, #1, #31; sbfm x0, x1, #0, #7; sbfm w0, w1, #0, #31; ubfm x0, x1, #0, #31
bfm x0, x1, #0, #31; extr x0, x1, x2, #31; add sp, sp, #1, lsl #12; add x0, sp, #16; add sp, x0, #16; add x30, x29, #16
add wsp, wsp, #16; adds xzr, sp, #16; sub sp, sp, #1, lsl #12; sub x0, sp, #16; sub sp, x0, #16; subs xzr, sp, #16
sub wsp, wsp, #16; br x16; br x30; ret x1; ret x29; ret xzr; eret; drps; blraaz x16; retaa; b .; bl .; b.eq .
cbz x0, .; tbz x0, #1, .; adr x0, .; nop; yield; bti c; isb; dmb sy; svc #0; brk #0; hlt #0; udf #0; udf #65535
mrs x0, nzcv; msr nzcv, x0; clz w0, w1; cls x0, x1; cls w0, w1; rbit x0, x1; rbit w0, w1; rev w0, w1; rev16 x0, x1
rev16 w0, w1; rev32 x0, x1; crc32x w0, w1, x2; fmov d0, x0
"""
NEIGHBOURS = [text.strip() for text in re.split("[;\n]", NEIGHBOURS) if text.strip()]


# ---- GNU as, and binutils back

def assemble(lines):
    """Each line's word."""
    with open("list.s", "w") as file:
        file.write(".arch armv8.5-a+crc\n" + "".join(line + "\n" for line in lines))
    subprocess.run(["aarch64-linux-gnu-as", "-o", "list.o", "list.s"], check=True)
    subprocess.run(["aarch64-linux-gnu-objcopy", "-O", "binary", "-j", ".text", "list.o", "list.bin"], check=True)
    with open("list.bin", "rb") as file:
        code = file.read()
    assert len(code) == 4 * len(lines)
    return [word for (word,) in struct.iter_unpack("<I", code)]


def read_back(words):
    """Mnemonic and operands of each word, without aliases and remarks."""
    found = disassembly("aarch64-linux-gnu-objdump", ["-m", "aarch64", "-M", "no-aliases"], pack(words))
    return [" ".join(part for part in found[4 * i] if not part.startswith("//")) for i in range(len(words))]


def pack(words):
    return struct.pack(f"<{len(words)}I", *words)


# What binutils writes for the 30 forms; it leaves out LSL #0, a zero offset and X30 of RET.
SHAPES = re.compile("|".join((
    "(add|sub|and|orr|eor|lslv|lsrv|asrv|smulh|umulh|udiv|sdiv|bic|orn|eon|rorv) R, R, R", "(rev|clz) R, R",
    "madd R, R, R, xzr", r"(ldr|str) R, \[B(, #\d+)?\]",
    "(movz|movk) R, #0x[0-9a-f]+(, lsl #(16|32|48))?", "subs xzr, R, R", "csel R, R, R, [a-z]{2}", "sbfm R, R, #0, #31",
    "(add|sub) sp, sp, #0x[0-9a-f]+", "blr R", "ret")).replace("R", r"(x\d+|xzr)").replace("B", r"(x\d+|sp)"))


def outside(words):
    """Those whose text is of no form, or is another word's: a bit that must be set is not."""
    back = read_back(words)
    of_a_form = [(word, text) for word, text in zip(words, back) if SHAPES.fullmatch(text)]
    inside = {word for (word, text), again in zip(of_a_form, assemble([text for _, text in of_a_form])) if word == again}
    return [word for word in words if word not in inside]


# ---- blocks

every = [text for form in texts.values() for text in form]

# Document 01's marked blocks, row 5.
ROW = [access("ldr", 9, 0, 8), access("ldr", 10, 0, 8), move("movz", 0, 0, 0x1002), move("movz", 1, 0, 1), RET]
ROW_WORDS = [0xF940_2009, 0xF940_200A, 0xD282_0040, 0xD280_0021, 0xD65F_03C0]

# As many bytes as the program reads, each line of the greatest length.
FULL = [cmp(10 + i % 22, 10 + i // 22 % 22) for i in range(MOST // 4)]

words = {}  # text: word


def ask():
    """Each text's word. Texts that differ have words that differ, and no text is an alias."""
    said = dict.fromkeys(every + ROW + FULL)
    words.update(zip(said, assemble(said)))
    assert len(set(words.values())) == len(words)
    for text, back in zip(words, read_back(words.values())):
        assert text.split()[0] == back.split()[0], (text, back)
    assert outside(words.values()) == []
    assert [words[text] for text in ROW] == ROW_WORDS
    assert all(len(line) <= LONGEST for line in listing(every).splitlines(True))
    assert len(listing(FULL)) == LONGEST * len(FULL)


def listing(block):
    return "".join(f"{4 * i:08x} {words[text]:08x} {text}\n" for i, text in enumerate(block)).encode()


def record(code, refusal, offset, lines):
    return struct.pack("<H", len(code)) + code + struct.pack("<BIH", refusal, offset, len(lines)) + lines


def accepted(block):
    return record(pack([words[text] for text in block]), 0, 0, listing(block))


def one_outside(word, before, after):
    """A block with one word outside the forms."""
    block = [words[rng.pick(every)] for _ in range(before)] + [word] + [words[rng.pick(every)] for _ in range(after)]
    return record(pack(block), OUTSIDE, 4 * before, b"")


def all_accepted():
    """Every text once, in blocks of 1 to 32 words and one of 256; and no word."""
    rest = rng.distinct(every, len(every))
    yield []
    yield [rest.pop() for _ in range(256)]
    while rest:
        yield [rest.pop() for _ in range(min(len(rest), rng.between(1, 32)))]


def all_outside(neighbours, flipped):
    for word in neighbours:
        yield one_outside(word, 0, 4)
        yield one_outside(word, rng.between(1, 3), rng.between(1, 3))
        yield one_outside(word, rng.between(1, 60), 0)
    for i, word in enumerate(flipped):
        yield one_outside(word, *((0, 0), (0, 1), (1, 1), (1, 0))[i % 4])


def bad_lengths():
    """Words of the forms, and zeros, which are not: the length is told first."""
    code = pack([words[text] for text in every[:64]])
    for length in (1, 2, 3, 5, 6, 7, 253, 254, 255):
        yield record(code[:length], LENGTH, 0, b"")
        yield record(bytes(length), LENGTH, 0, b"")


def program(folder):
    """What the program is run on, and what it must write."""
    def put(name, code, lines):
        with open(f"{folder}/data/{name}.in", "wb") as file:
            file.write(code)
        with open(f"{folder}/data/{name}.out", "wb") as file:
            file.write(lines)

    def listed(name, block):
        put(name, pack([words[text] for text in block]), listing(block))

    os.makedirs(f"{folder}/data", exist_ok=True)
    with open(f"{folder}/stdin", "wb") as file:
        file.write(pack(ROW_WORDS))
    with open(f"{folder}/stdout", "wb") as file:
        file.write(listing(ROW))
    listed("empty", [])
    listed("forms", list(FORMS.values()))
    listed("longest_line", [cmp(31, 31)])
    listed("full", FULL)
    put("one_more", pack([words[text] for text in FULL]) + b"\0", b"long input\n")
    code = pack([words[text] for text in every])
    put("length_3", code[:3], b"refused 12\n")
    put("length_7", bytes(7), b"refused 12\n")
    csinc = pack(assemble(["csinc x0, x9, x10, cs"]))
    put("outside", code[:8] + csinc + code[12:20], b"refused 13 00000008\n")
    put("outside_first", csinc, b"refused 13 00000000\n")
    put("outside_last", code[:0xABC] + csinc, b"refused 13 00000abc\n")


def main():
    path, folder = sys.argv[1:]
    ask()
    neighbours = assemble(NEIGHBOURS)
    assert outside(neighbours) == neighbours
    flipped = outside({words[text] ^ 1 << bit: None for text in FORMS.values() for bit in range(32)})
    blocks = list(all_accepted())
    refused = [*all_outside(neighbours, flipped), *bad_lengths()]
    write(path, b"A64LISTS", [accepted(block) for block in blocks] + refused)
    program(folder)
    print(f"list: {len(blocks) + len(refused)} cases, {len(blocks)} accepted with {len(every)} words of {len(FORMS)} forms; "
          f"outside the forms {len(neighbours)} neighbours and {len(flipped)} words with one bit other")
    print("form: words")
    for form in texts:
        print(f"  {form}: {len(texts[form])}")


main()
