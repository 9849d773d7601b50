"""Writes the cases of document 01's own rules for A64 run. Use: a64_rules.py RECORD

No machine is asked: each outcome is worked out by hand from document 01, and the comment says how.
Words are literals, so that nothing here leans on another encoder.
"""

import struct
import sys

from common import M64, default, pairs, write

OFF_THE_END, SPENT, UNREADABLE, FAULT, RETURNED, CALLED = range(1, 7)

MOVZ_X0_1 = 0xD280_0020  # X0 = 1
MOVZ_X2_7 = 0xD280_00E2  # X2 = 7
RET = 0xD65F_03C0
BLR_X5, BLR_X30, BLR_XZR = 0xD63F_00A0, 0xD63F_03C0, 0xD63F_03E0
LDR_X1_X0 = 0xF940_0001  # X1 = [X0]
LDR_X1_X0_8 = 0xF940_0401  # X1 = [X0 + 8]
LDR_X1_X0_MOST = 0xF97F_FC01  # X1 = [X0 + 32760]
LDR_X0_X0 = 0xF940_0000  # X0 = [X0]
LDR_XZR_X0 = 0xF940_001F
LDR_X1_SP, LDR_X1_SP_8 = 0xF940_03E1, 0xF940_07E1
STR_X1_X0, STR_X1_X0_8, STR_XZR_X0 = 0xF900_0001, 0xF900_0401, 0xF900_001F
STR_X1_SP, STR_X1_SP_8 = 0xF900_03E1, 0xF900_07E1
ADD_SP_8, SUB_SP_8 = 0x9100_23FF, 0xD100_23FF
CSEL_X0_X1_X2_EQ = 0x9A82_0020
UDF = 0x0000_0000

records = []


def rule(words, end, steps, *, address=0x1000, budget=M64, x={}, sp=0x2000, nzcv=0, base=0, memory=b"",
         after={}, sp_after=None, nzcv_after=None, memory_after=None):
    """`after` has the registers that change; what is not said stays as it was."""
    assert all(after[r] != x.get(r, default(r)) for r in after)
    nzcv_after = nzcv % 16 if nzcv_after is None else nzcv_after
    sp_after = sp if sp_after is None else sp_after
    memory_after = memory if memory_after is None else memory_after
    records.append(
        struct.pack(f"<B{len(words)}I", len(words), *words) + struct.pack("<QQ", address, budget) + pairs(x)
        + struct.pack("<QBQB", sp, nzcv, base, len(memory)) + memory
        + pairs(after) + struct.pack("<QB", sp_after, nzcv_after) + memory_after + struct.pack("<BB", end, steps))


# Off the end comes before spent: an empty block is off its end with budget 0 too.
rule([], OFF_THE_END, 0)
rule([], OFF_THE_END, 0, budget=0)
rule([], OFF_THE_END, 0, budget=1)
# Budget 0: nothing runs, whatever the word is: spent comes before unreadable and fault, and before RET and BLR.
rule([MOVZ_X0_1], SPENT, 0, budget=0)
rule([UDF], SPENT, 0, budget=0)
rule([LDR_X1_X0], SPENT, 0, budget=0)
rule([RET], SPENT, 0, budget=0)
rule([BLR_X5], SPENT, 0, budget=0)
# The budget is as many words as there are: off the end, not spent.
rule([MOVZ_X0_1], OFF_THE_END, 1, budget=1, after={0: 1})
rule([MOVZ_X0_1, MOVZ_X2_7], OFF_THE_END, 2, budget=2, after={0: 1, 2: 7})
rule([MOVZ_X0_1] * 64, OFF_THE_END, 64, budget=64, after={0: 1})
# One less: spent, and the words that ran stand.
rule([MOVZ_X0_1, MOVZ_X2_7], SPENT, 1, budget=1, after={0: 1})
rule([MOVZ_X0_1, UDF], SPENT, 1, budget=1, after={0: 1})
rule([MOVZ_X0_1, LDR_X1_X0], SPENT, 1, budget=1, after={0: 1})
rule([MOVZ_X0_1, RET], SPENT, 1, budget=1, after={0: 1})
rule([MOVZ_X0_1, BLR_X5], SPENT, 1, budget=1, after={0: 1})
rule([MOVZ_X0_1] * 64, SPENT, 63, budget=63, after={0: 1})
# With budget left the word itself decides; one that cannot be read or faults is no step.
rule([MOVZ_X0_1, UDF], UNREADABLE, 1, budget=2, after={0: 1})
rule([MOVZ_X0_1, UDF, MOVZ_X2_7], UNREADABLE, 1, after={0: 1})
rule([MOVZ_X0_1, LDR_X1_X0], FAULT, 1, budget=2, after={0: 1})
rule([MOVZ_X0_1, LDR_X1_X0, MOVZ_X2_7], FAULT, 1, after={0: 1})
# RET and BLR are steps and end the run; what stands behind them is not looked at.
rule([RET], RETURNED, 1, budget=1)
rule([RET, UDF], RETURNED, 1, budget=1)
rule([MOVZ_X0_1, RET, MOVZ_X2_7], RETURNED, 2, budget=2, after={0: 1})
rule([BLR_X5], CALLED, 1, budget=1, after={30: 0x1004})
rule([BLR_X5, UDF], CALLED, 1, after={30: 0x1004})
rule([MOVZ_X0_1, BLR_X5, MOVZ_X2_7], CALLED, 2, budget=2, after={0: 1, 30: 0x1008})
rule([BLR_X30], CALLED, 1, x={30: 0x7777}, after={30: 0x1004})
rule([BLR_XZR], CALLED, 1, after={30: 0x1004})
# Where X5 leads does not matter: it may be odd, or the block itself.
rule([BLR_X5], CALLED, 1, x={5: M64}, after={30: 0x1004})
rule([BLR_X5], CALLED, 1, x={5: 0x1000}, after={30: 0x1004})
rule([RET], RETURNED, 1, x={30: 0x1000})
# The next word's address is modulo 2^64: the first word at 2^64 - 4, or the second at 2^64 - 4 or at 0.
rule([BLR_X5], CALLED, 1, address=2**64 - 4, after={30: 0})
rule([MOVZ_X0_1, BLR_X5], CALLED, 2, address=2**64 - 8, after={0: 1, 30: 0})
rule([MOVZ_X0_1, BLR_X5], CALLED, 2, address=2**64 - 4, after={0: 1, 30: 4})
# The block's address need not be a multiple of 4.
rule([BLR_X5], CALLED, 1, address=0x1003, after={30: 0x1007})
rule([BLR_X5], CALLED, 1, address=2**64 - 1, after={30: 3})
# Of NZCV the low four bits count; the others come out 0, even if nothing ran. 0xFB has Z 0, 0x14 has Z 1.
rule([], OFF_THE_END, 0, nzcv=0xF5, nzcv_after=5)
rule([UDF], UNREADABLE, 0, nzcv=0xF0, nzcv_after=0)
rule([MOVZ_X0_1], SPENT, 0, budget=0, nzcv=0xFF, nzcv_after=15)
rule([CSEL_X0_X1_X2_EQ], OFF_THE_END, 1, nzcv=0xFB, nzcv_after=0xB, x={1: 11, 2: 22}, after={0: 22})
rule([CSEL_X0_X1_X2_EQ], OFF_THE_END, 1, nzcv=0x14, nzcv_after=4, x={1: 11, 2: 22}, after={0: 11})

# Words outside the 30 forms.
OUTSIDE = [
    # Not allocated, system, branches other than BLR and RET X30.
    0x0000_0000, 0xFFFF_FFFF, 0x0000_0001, 0x8000_0000, 0xD503_201F, 0xD503_3FDF, 0xD400_0001, 0xD420_0000,
    0x1400_0000, 0x9400_0001, 0x5400_0000, 0xB400_0000, 0xB500_0000, 0x3600_0000, 0x1000_0000, 0x9000_0000,
    0xD61F_0000, 0xD61F_03C0, 0xD69F_03E0, 0xD65F_0000, 0xD65F_03A0, 0xD65F_03E0, 0xD65F_03C1, 0xD65F_07C0,
    0xD65E_03C0, 0xD63F_0001, 0xD63F_0400, 0xD63E_0000, 0xD63F_0810, 0xD73F_0800,
    # 32-bit registers.
    0x0B02_0020, 0x4B02_0020, 0x0A02_0020, 0x2A02_0020, 0x4A02_0020, 0x1AC2_2020, 0x1AC2_2420, 0x1AC2_2820,
    0x1B02_7C20, 0x1AC2_0820, 0x1AC2_0C20, 0x6B02_003F, 0x1A82_0020, 0x1300_7C20, 0x5280_0020, 0x7280_0020,
    0xB940_0000, 0xB900_0000,
    # ADD, SUB, CMP: shifted by 1, by another kind of shift, extended register, flags set, CMP with Rd other than 31.
    0x8B02_0420, 0x8B42_0020, 0x8B82_0020, 0x8B22_0020, 0xAB02_0020, 0xCB02_0420, 0xCB42_0020, 0xCB22_63FF,
    0xEB02_0020, 0xEB02_043F, 0xEB42_003F, 0xEB22_003F, 0xAB02_003F, 0xEB02_001E,
    # AND, ORR, EOR: shifted, flags set (ANDS, BICS).
    0x8A02_0420, 0x8A42_0020, 0xAA02_0420, 0xAA42_0020, 0xCA02_0420, 0xCAC2_0020, 0xEA02_0020, 0xEA22_0020,
    # BIC, ORN, EON: LSL by 1, by 63; LSR, ASR, ROR by 0, by 1.
    0x8A22_0420, 0x8A22_FC20, 0x8A62_0020, 0x8AA2_0020, 0x8AE2_0020, 0x8A62_0420, 0x8AA2_0420, 0x8AE2_0420,
    0xAA22_0420, 0xAA22_FC20, 0xAA62_0020, 0xAAA2_0020, 0xAAE2_0020, 0xAA62_0420, 0xAAA2_0420, 0xAAE2_0420,
    0xCA22_0420, 0xCA22_FC20, 0xCA62_0020, 0xCAA2_0020, 0xCAE2_0020, 0xCA62_0420, 0xCAA2_0420, 0xCAE2_0420,
    # CRC32X, other two-source words.
    0x9AC2_4C20, 0x9AC2_0020, 0x9AC2_0420, 0x9AC2_1020, 0x9AC2_3020, 0xBAC2_2020, 0xDAC2_2020,
    # One-source words: RBIT, REV16, REV32, CLS, CTZ, CNT, ABS; PACIA, XPACI.
    0xDAC0_0020, 0xDAC0_0420, 0xDAC0_0820, 0xDAC0_1420, 0xDAC0_1820, 0xDAC0_1C20, 0xDAC0_2020, 0xDAC1_0020,
    0xDAC1_43E1,
    # In 32-bit registers: BIC, ORN, EON, BICS, RORV, REV16, REV, CLZ, CLS, RBIT.
    0x0A22_0020, 0x2A22_0020, 0x4A22_0020, 0x6A22_0020, 0x1AC2_2C20, 0x5AC0_0420, 0x5AC0_0820, 0x5AC0_1020,
    0x5AC0_1420, 0x5AC0_0020,
    # MADD with Ra other than 31, MSUB, SMADDL, UMADDL; SMULH and UMULH with Ra other than 31.
    0x9B02_0020, 0x9B02_7820, 0x9B02_FC20, 0x9B22_7C20, 0x9BA2_7C20, 0x9B42_0020, 0x9B42_FC20, 0x9BC2_0020,
    0x9BC2_7820,
    # CSINC, CSINV, CSNEG; ADC, SBC; CCMP.
    0x9A82_0420, 0x9A82_0820, 0xDA82_0020, 0xDA82_0420, 0xBA82_0020, 0x9A02_0020, 0xDA02_0020, 0xFA42_0020,
    # SBFM other than SXTW: SXTB, SXTH, ASR 1, ASR 0, N 0; UBFM, BFM.
    0x9340_1C20, 0x9340_3C20, 0x9341_FC20, 0x9340_FC20, 0x9340_7820, 0x9341_7C20, 0x9300_7C20, 0xD340_7C20,
    0xB340_7C20,
    # ADD and SUB immediate: another Rd, another Rn, shifted by 12, flags set.
    0x9100_43E0, 0x9100_401F, 0x9100_0420, 0x9140_43FF, 0x9180_43FF, 0xB100_43FF, 0xD100_43E0, 0xD100_401F,
    0xD140_43FF, 0xF100_43FF, 0x1100_43FF,
    # MOVN; logical immediates.
    0x9280_0020, 0x9200_0020, 0xB200_0020, 0xD200_0020, 0xF200_0020, 0xB280_0020,
    # Loads and stores of other sizes and addressing: LDRB, LDRH, LDRSW, PRFM, LDUR, LDR post, pre, register,
    # literal; STUR, STR post; LDP, STP; SIMD.
    0x3940_0000, 0x7940_0000, 0xB980_0000, 0xF980_0000, 0xF9C0_0000, 0xF840_0000, 0xF840_8400, 0xF840_8C00,
    0xF862_6820, 0x5800_0000, 0xF800_0000, 0xF800_8400, 0xA940_0000, 0xA900_0000, 0xFD40_0000, 0xFD00_0000,
    0xF880_0000,
]
# One bit other than in BIC, ORN, EON, RORV X0, X1, X2 and REV, CLZ X0, X1, outside the registers' fields. Left out are
# the bits that make another form of it: BIC's 21, 29, 30 make AND, ORN, EON; ORN's 21, 29 ORR, BIC; EON's 21, 30 EOR,
# BIC; RORV's 10, 11, 13 ASRV, LSRV, SDIV; REV's 27, 30 MOVZ, SDIV; CLZ's 27 MOVZ.
for word, bits in (
    (0x8A22_0020, (10, 11, 12, 13, 14, 15, 22, 23, 24, 25, 26, 27, 28, 31)),
    (0xAA22_0020, (10, 11, 12, 13, 14, 15, 22, 23, 24, 25, 26, 27, 28, 30, 31)),
    (0xCA22_0020, (10, 11, 12, 13, 14, 15, 22, 23, 24, 25, 26, 27, 28, 29, 31)),
    (0x9AC2_2C20, (12, 14, 15, 21, 22, 23, 24, 25, 26, 27, 28, 29, 30, 31)),
    (0xDAC0_0C20, (10, 11, 12, 13, 14, 15, 16, 17, 18, 19, 20, 21, 22, 23, 24, 25, 26, 28, 29, 31)),
    (0xDAC0_1020, (10, 11, 12, 13, 14, 15, 16, 17, 18, 19, 20, 21, 22, 23, 24, 25, 26, 28, 29, 30, 31)),
):
    OUTSIDE += [word ^ 1 << bit for bit in bits]
for word in dict.fromkeys(OUTSIDE):  # each once
    rule([word], UNREADABLE, 0, budget=1)
    rule([MOVZ_X2_7, word, RET], UNREADABLE, 1, after={2: 7})

# An access is a multiple of 8. The memory would hold all eight bytes.
LOW = bytes(range(0x11, 0x19))  # 0x1817161514131211
HIGH = bytes(range(0x21, 0x29))  # 0x2827262524232221
V_LOW, V_HIGH = 0x1817_1615_1413_1211, 0x2827_2625_2423_2221
BYTES = LOW + HIGH
STORED = struct.pack("<Q", default(1))  # what X1 starts as
for off in (1, 2, 3, 4, 5, 6, 7):
    rule([LDR_X1_X0], FAULT, 0, x={0: 0x1000 + off}, base=0x1000, memory=BYTES)
    rule([STR_X1_X0], FAULT, 0, x={0: 0x1000 + off}, base=0x1000, memory=BYTES)
    # The address counts, not where in the memory it is: base 0x1000 + off, first byte asked for.
    rule([LDR_X1_X0], FAULT, 0, x={0: 0x1000 + off}, base=0x1000 + off, memory=BYTES)
    # 0x1008 is 8 - off bytes behind that base, a multiple of 8, and inside.
    rule([STR_X1_X0], OFF_THE_END, 1, x={0: 0x1008}, base=0x1000 + off, memory=BYTES,
         memory_after=BYTES[:8 - off] + STORED + BYTES[16 - off:])
# An X register as base need not be a multiple of 16.
rule([LDR_X1_X0], OFF_THE_END, 1, x={0: 0x1008}, base=0x1000, memory=BYTES, after={1: V_HIGH})
# SP must be: its value, not the address. SP 0x1008 faults at 0x1008 and at 0x1010; SP 0x1000 reaches 0x1008.
for sp in (0x1008, 0x1001, 0x1004, 0x100F):
    rule([LDR_X1_SP], FAULT, 0, sp=sp, base=0x1000, memory=BYTES + BYTES)
    rule([LDR_X1_SP_8], FAULT, 0, sp=sp, base=0x1000, memory=BYTES + BYTES)
    rule([STR_X1_SP], FAULT, 0, sp=sp, base=0x1000, memory=BYTES + BYTES)
    rule([STR_X1_SP_8], FAULT, 0, sp=sp, base=0x1000, memory=BYTES + BYTES)
rule([LDR_X1_SP_8], OFF_THE_END, 1, sp=0x1000, base=0x1000, memory=BYTES, after={1: V_HIGH})
rule([STR_X1_SP_8], OFF_THE_END, 1, sp=0x1000, base=0x1000, memory=BYTES, memory_after=LOW + STORED)
# The sum may leave SP unaligned without a fault; the next access through it faults, and two sums mend it.
rule([ADD_SP_8, LDR_X1_SP], FAULT, 1, sp=0x1000, base=0x1000, memory=BYTES, sp_after=0x1008)
rule([SUB_SP_8, LDR_X1_SP_8], FAULT, 1, sp=0x1000, base=0x1000, memory=BYTES, sp_after=0xFF8)
rule([ADD_SP_8, ADD_SP_8, LDR_X1_SP], OFF_THE_END, 3, sp=0x1000, base=0x1010, memory=LOW, sp_after=0x1010,
     after={1: V_LOW})
rule([SUB_SP_8], OFF_THE_END, 1, sp=0, sp_after=2**64 - 8)
# Wholly inside memory: 8 in front, first, last, 8 behind; and memory that holds a part of the eight bytes.
rule([LDR_X1_X0], FAULT, 0, x={0: 0xFF8}, base=0x1000, memory=BYTES)
rule([LDR_X1_X0], OFF_THE_END, 1, x={0: 0x1000}, base=0x1000, memory=BYTES, after={1: V_LOW})
rule([LDR_X1_X0_8], OFF_THE_END, 1, x={0: 0x1000}, base=0x1000, memory=BYTES, after={1: V_HIGH})
rule([LDR_X1_X0], FAULT, 0, x={0: 0x1010}, base=0x1000, memory=BYTES)
rule([STR_X1_X0], FAULT, 0, x={0: 0xFF8}, base=0x1000, memory=BYTES)
rule([STR_X1_X0], OFF_THE_END, 1, x={0: 0x1000}, base=0x1000, memory=BYTES, memory_after=STORED + HIGH)
rule([STR_X1_X0_8], OFF_THE_END, 1, x={0: 0x1000}, base=0x1000, memory=BYTES, memory_after=LOW + STORED)
rule([STR_X1_X0], FAULT, 0, x={0: 0x1010}, base=0x1000, memory=BYTES)
for size in range(9, 16):
    rule([LDR_X1_X0_8], FAULT, 0, x={0: 0x1000}, base=0x1000, memory=BYTES[:size])
    rule([STR_X1_X0_8], FAULT, 0, x={0: 0x1000}, base=0x1000, memory=BYTES[:size])
for size in range(8):
    rule([LDR_X1_X0], FAULT, 0, x={0: 0x1000}, base=0x1000, memory=BYTES[:size])
    rule([STR_X1_X0], FAULT, 0, x={0: 0x1000}, base=0x1000, memory=BYTES[:size])
for off in range(1, 8):
    rule([LDR_X1_X0], FAULT, 0, x={0: 0x1000}, base=0x1000 + off, memory=BYTES)
    rule([STR_X1_X0], FAULT, 0, x={0: 0x1000}, base=0x1000 + off, memory=BYTES)
rule([LDR_X1_X0], FAULT, 0, x={0: 0}, base=0)
rule([LDR_X1_X0], FAULT, 0, x={0: 2**63}, base=0x1000, memory=BYTES)
rule([LDR_X1_X0], FAULT, 0, x={0: 2**64 - 8}, base=0x1000, memory=BYTES)
# Memory up to the top of the address space: base plus length is 2^64, which refusal 11 allows.
rule([LDR_X1_X0], OFF_THE_END, 1, x={0: 2**64 - 8}, base=2**64 - 16, memory=BYTES, after={1: V_HIGH})
rule([STR_X1_X0], OFF_THE_END, 1, x={0: 2**64 - 8}, base=2**64 - 8, memory=LOW, memory_after=STORED)
rule([LDR_X1_SP], OFF_THE_END, 1, sp=2**64 - 16, base=2**64 - 16, memory=BYTES, after={1: V_LOW})
# The address is modulo 2^64: 2^64 - 8 + 8 and 2^64 - 32760 + 32760 are 0.
rule([LDR_X1_X0_8], OFF_THE_END, 1, x={0: 2**64 - 8}, base=0, memory=BYTES, after={1: V_LOW})
rule([LDR_X1_X0_MOST], OFF_THE_END, 1, x={0: 2**64 - 32760}, base=0, memory=BYTES, after={1: V_LOW})
rule([LDR_X1_X0_8], FAULT, 0, x={0: 2**64 - 8}, base=2**64 - 16, memory=BYTES)
# Register 31 as the data register makes no difference to a fault, nor does loading the base itself.
rule([LDR_XZR_X0], FAULT, 0, x={0: 0x1010}, base=0x1000, memory=BYTES)
rule([LDR_XZR_X0], OFF_THE_END, 1, x={0: 0x1000}, base=0x1000, memory=BYTES)
rule([STR_XZR_X0], FAULT, 0, x={0: 0x1010}, base=0x1000, memory=BYTES)
rule([STR_XZR_X0], OFF_THE_END, 1, x={0: 0x1000}, base=0x1000, memory=BYTES, memory_after=bytes(8) + HIGH)
rule([LDR_X0_X0], FAULT, 0, x={0: 0x1010}, base=0x1000, memory=BYTES)
rule([LDR_X0_X0, LDR_X1_X0], FAULT, 1, x={0: 0x1000}, base=0x1000, memory=BYTES, after={0: V_LOW})
# Earlier stores and registers stand, whatever ends the run.
rule([STR_X1_X0, STR_X1_X0_8], FAULT, 1, x={0: 0x1000}, base=0x1000, memory=LOW, memory_after=STORED)
rule([STR_X1_X0, UDF], UNREADABLE, 1, x={0: 0x1000}, base=0x1000, memory=LOW, memory_after=STORED)
rule([STR_X1_X0, STR_XZR_X0], SPENT, 1, budget=1, x={0: 0x1000}, base=0x1000, memory=LOW, memory_after=STORED)
# The words that run are those given: a store over the block changes memory alone.
rule([STR_X1_X0, MOVZ_X2_7, RET], RETURNED, 3, x={0: 0x1000}, base=0x1000, memory=BYTES, memory_after=STORED + HIGH,
     after={2: 7})


write(sys.argv[1], b"A64CASES", records)
print(f"a64 rules: {len(records)} cases")
