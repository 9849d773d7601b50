"""Writes the cases of RV64 run that no machine was asked for. Use: rv64_rules.py RECORD

Each outcome is worked out by hand from documents 01 and 02 and the ISA, and the comment says how.
Instructions are literals, so that nothing here leans on another encoder.
"""

import struct
import sys

from common import default, pairs, write

C_NOP = 0x0001
C_ADDI_X10_1 = 0x0505  # X10 = X10 + 1
C_EBREAK = 0x9002
C_J_0, C_J_4, C_J_BACK_2 = 0xA001, 0xA011, 0xBFFD
C_BEQZ_X8_4, C_BNEZ_X8_4, C_BEQZ_X8_BACK_2 = 0xC011, 0xE011, 0xDC7D
C_JR_X5, C_JALR_X5, C_JALR_X1 = 0x8282, 0x9282, 0x9082
NOP = 0x0000_0013
EBREAK = 0x0010_0073
LW_X0_X0 = 0x0000_2003
FENCE, FENCE_I = 0x0FF0_000F, 0x0000_100F
FENCE_FIELDS, FENCE_I_FIELDS = 0xFFFF_8F8F, 0xFFFF_9F8F  # every field other than funct3 set
# X5 = PC + 0, 0x1000, -0x1000, 2^31 - 0x1000, -2^31
AUIPC_0, AUIPC_1, AUIPC_BACK_1, AUIPC_MOST, AUIPC_LEAST = (
    0x0000_0297, 0x0000_1297, 0xFFFF_F297, 0x7FFF_F297, 0x8000_0297)
JAL_X1_8, JAL_X1_BACK_4, JAL_X0_BACK_4 = 0x0080_00EF, 0xFFDF_F0EF, 0xFFDF_F06F
JAL_X1_MOST, JAL_X1_LEAST = 0x7FFF_F0EF, 0x8000_00EF  # 2^20 - 2, -2^20
JALR_X1_X5, JALR_X0_X5, JALR_X5_X5 = 0x0002_80E7, 0x0002_8067, 0x0002_82E7
JALR_X1_X5_1, JALR_X1_X5_2, JALR_X1_X5_BACK_1 = 0x0012_80E7, 0x0022_80E7, 0xFFF2_80E7
BEQ_8, BEQ_BACK_8, BNE_8 = 0x0000_0463, 0xFE00_0CE3, 0x0000_1463  # of X0 and X0
BEQ_MOST, BEQ_LEAST = 0x7E00_0FE3, 0x8000_0063  # 4094, -4096
# X5, X6, 8
BEQ, BNE, BLT, BGE, BLTU, BGEU = (
    0x0062_8463, 0x0062_9463, 0x0062_C463, 0x0062_D463, 0x0062_E463, 0x0062_F463)

# X5, X6 where no others are named
CLZ, CTZW, CTZW_X6_X6, CTZW_X0_X6 = 0x6003_1293, 0x6013_129B, 0x6013_131B, 0x6013_101B
SLLI_X6_33 = 0x0213_1313  # X6 = X6 * 2^33

TOP = 2**64

records = []


def rule(instructions, pc, next_pc, count, *, limit=64, flag=0, x={}, after={}, refusal=0, rest=b""):
    """`after` has the registers that change; what is not said stays as it was."""
    guest = b"".join(struct.pack("<I" if i % 4 == 3 else "<H", i) for i in instructions) + rest
    assert all(after[r] != x.get(r, default(r)) for r in after)
    records.append(
        struct.pack("<B", len(guest)) + guest + struct.pack("<QBB", pc, limit, flag) + pairs(x) + pairs(after)
        + struct.pack("<QBB", next_pc, count, refusal))


# The PC passes from the top of 64 bits to 0 (rule 1): after the last halfword, after the last word, inside a word.
rule([C_NOP], TOP - 2, 0, 1)
rule([NOP], TOP - 4, 0, 1)
rule([NOP], TOP - 2, 2, 1)
rule([FENCE], TOP - 2, 2, 1)
rule([FENCE_I], TOP - 4, 0, 1)
# The block goes on at 0.
rule([C_NOP, C_NOP], TOP - 2, 2, 2)
rule([C_NOP, C_ADDI_X10_1, NOP, C_ADDI_X10_1], TOP - 4, 6, 4, x={10: 7}, after={10: 9})
rule([NOP, NOP, NOP], TOP - 6, 6, 3)
rule([C_NOP] * 32, TOP - 32, 32, 32)
rule([C_NOP] * 32, TOP - 32, 0, 16, limit=16)
# It ends past the top as elsewhere: by the limit, by a helper's instruction, by one that is not covered, by the bytes.
rule([C_NOP, C_NOP], TOP - 2, 0, 1, limit=1)
rule([C_NOP, LW_X0_X0], TOP - 2, 0, 1)
rule([NOP, EBREAK], TOP - 2, 2, 1)
rule([C_NOP, NOP], TOP - 2, 4, 2, rest=b"\x13")
rule([C_NOP], TOP - 2, 0, 1, rest=b"\x13\x00")
# AUIPC: the sum with its own PC, modulo 2^64.
rule([AUIPC_1], TOP - 4, 0, 1, after={5: 0xFFC})
rule([AUIPC_1], TOP - 2, 2, 1, after={5: 0xFFE})
rule([AUIPC_1], TOP - 0x1000, TOP - 0xFFC, 1, after={5: 0})
rule([AUIPC_MOST], TOP - 4, 0, 1, after={5: 0x7FFF_EFFC})
rule([AUIPC_BACK_1], 0, 4, 1, after={5: 0xFFFF_FFFF_FFFF_F000})
rule([AUIPC_BACK_1], 0xFFE, 0x1002, 1, after={5: 0xFFFF_FFFF_FFFF_FFFE})
rule([AUIPC_LEAST], 0, 4, 1, after={5: 0xFFFF_FFFF_8000_0000})
rule([AUIPC_0], TOP - 2, 2, 1, after={5: 0xFFFF_FFFF_FFFF_FFFE})
# Past the top its PC is small again.
rule([C_NOP, AUIPC_0], TOP - 2, 4, 2, after={5: 0})
rule([NOP, AUIPC_0], TOP - 2, 6, 2, after={5: 2})
rule([C_NOP, AUIPC_BACK_1], TOP - 2, 4, 2, after={5: 0xFFFF_FFFF_FFFF_F000})
# JAL: link and target.
rule([JAL_X1_8], TOP - 4, 4, 1, after={1: 0})
rule([JAL_X1_8], TOP - 2, 6, 1, after={1: 2})
rule([JAL_X1_8], TOP - 8, 0, 1, after={1: 0xFFFF_FFFF_FFFF_FFFC})
rule([JAL_X1_BACK_4], 0, 0xFFFF_FFFF_FFFF_FFFC, 1, after={1: 4})
rule([JAL_X1_BACK_4], 2, 0xFFFF_FFFF_FFFF_FFFE, 1, after={1: 6})
rule([JAL_X1_BACK_4], 4, 0, 1, after={1: 8})
rule([JAL_X0_BACK_4], 2, 0xFFFF_FFFF_FFFF_FFFE, 1)
rule([JAL_X1_MOST], TOP - 4, 0xF_FFFA, 1, after={1: 0})
rule([JAL_X1_LEAST], 0, 0xFFFF_FFFF_FFF0_0000, 1, after={1: 4})
rule([C_NOP, JAL_X1_8], TOP - 2, 8, 2, after={1: 4})
rule([C_NOP, JAL_X1_BACK_4], TOP - 2, 0xFFFF_FFFF_FFFF_FFFC, 2, after={1: 4})
# JALR: the link wraps, the target is the register's; a sum that wraps, bit 0 cleared.
rule([JALR_X1_X5], TOP - 4, 0x3000, 1, x={5: 0x3001}, after={1: 0})
rule([JALR_X1_X5], TOP - 2, 0x3000, 1, x={5: 0x3000}, after={1: 2})
rule([JALR_X5_X5], TOP - 4, 0x3000, 1, x={5: 0x3000}, after={5: 0})
rule([JALR_X1_X5_1], 0x1000, 0, 1, x={5: 0xFFFF_FFFF_FFFF_FFFF}, after={1: 0x1004})
rule([JALR_X1_X5_2], TOP - 4, 0, 1, x={5: 0xFFFF_FFFF_FFFF_FFFF}, after={1: 0})
rule([JALR_X1_X5_BACK_1], 0x1000, 0xFFFF_FFFF_FFFF_FFFE, 1, x={5: 0}, after={1: 0x1004})
# C.JALR links to what follows its two bytes, and reads its register before; C.JR links nothing.
rule([C_JALR_X5], TOP - 2, 0x3000, 1, x={5: 0x3001}, after={1: 0})
rule([C_JALR_X1], TOP - 2, 0x3000, 1, x={1: 0x3000}, after={1: 0})
rule([C_JR_X5], TOP - 2, 0x3000, 1, x={5: 0x3001})
# Branches: taken, the target wraps; not taken, the PC after them does.
rule([BEQ_8], TOP - 4, 4, 1)
rule([BEQ_8], TOP - 8, 0, 1)
rule([BEQ_8], TOP - 2, 6, 1)
rule([BEQ_BACK_8], 0, 0xFFFF_FFFF_FFFF_FFF8, 1)
rule([BEQ_BACK_8], 6, 0xFFFF_FFFF_FFFF_FFFE, 1)
rule([BEQ_MOST], TOP - 4, 0xFFA, 1)
rule([BEQ_LEAST], 0, 0xFFFF_FFFF_FFFF_F000, 1)
rule([BNE_8], TOP - 4, 0, 1)
rule([BNE_8], TOP - 2, 2, 1)
rule([C_NOP, BEQ_BACK_8], TOP - 2, 0xFFFF_FFFF_FFFF_FFF8, 2)
# X5 is 1 and X6 is 2: BNE, BLT and BLTU are taken. X5 is 2^64 - 1: BNE, BLT and BGEU are.
for branch, of_1, of_minus_1 in (
        (BEQ, 0, 0), (BNE, 4, 4), (BLT, 4, 4), (BGE, 0, 0), (BLTU, 4, 0), (BGEU, 0, 4)):
    rule([branch], TOP - 4, of_1, 1, x={5: 1, 6: 2})
    rule([branch], TOP - 4, of_minus_1, 1, x={5: 0xFFFF_FFFF_FFFF_FFFF, 6: 2})
rule([C_J_4], TOP - 2, 2, 1)
rule([C_J_0], TOP - 2, 0xFFFF_FFFF_FFFF_FFFE, 1)
rule([C_J_BACK_2], 0, 0xFFFF_FFFF_FFFF_FFFE, 1)
rule([C_BEQZ_X8_4], TOP - 2, 2, 1, x={8: 0})
rule([C_BEQZ_X8_4], TOP - 2, 0, 1, x={8: 1})
rule([C_BNEZ_X8_4], TOP - 2, 2, 1, x={8: 1})
rule([C_BNEZ_X8_4], TOP - 2, 0, 1, x={8: 0})
rule([C_BEQZ_X8_BACK_2], 0, 0xFFFF_FFFF_FFFF_FFFE, 1, x={8: 0})

# C.EBREAK under the flag does nothing, and counts (source readings; rule 2).
rule([C_EBREAK], 0x1000, 0x1002, 1, flag=1)
rule([C_EBREAK], TOP - 2, 0, 1, flag=1)
rule([C_ADDI_X10_1, C_EBREAK, C_ADDI_X10_1], 0x1000, 0x1006, 3, flag=1, x={10: 7}, after={10: 9})
rule([C_ADDI_X10_1, C_EBREAK, C_ADDI_X10_1], 0x1000, 0x1004, 2, flag=1, limit=2, x={10: 7}, after={10: 8})
rule([C_EBREAK] * 32, 0x1000, 0x1040, 32, flag=1)
# Without it, it is not covered: the block ends before it, and is refused where it stands first.
rule([C_ADDI_X10_1, C_EBREAK, C_ADDI_X10_1], 0x1000, 0x1002, 1, x={10: 7}, after={10: 8})
rule([C_NOP, C_EBREAK], TOP - 2, 0, 1)
rule([C_EBREAK], 0x1000, 0, 0, refusal=5)
rule([C_EBREAK, C_ADDI_X10_1], 0x1000, 0, 0, refusal=5)
# The flag is for C.EBREAK alone: EBREAK is SYSTEM; C.ADD with rd 0 and C.JR with rs1 0 stand beside C.EBREAK.
rule([C_NOP, EBREAK], 0x1000, 0x1002, 1, flag=1)
rule([EBREAK], 0x1000, 0, 0, flag=1, refusal=5)
rule([C_NOP, 0x9006], 0x1000, 0x1002, 1, flag=1)
rule([C_NOP, 0x8002], 0x1000, 0x1002, 1, flag=1)
rule([0x9006], 0x1000, 0, 0, flag=1, refusal=5)
rule([0x8002], 0x1000, 0, 0, flag=1, refusal=5)
# It changes nothing of the others.
rule([C_JALR_X5], 0x1000, 0x3000, 1, flag=1, x={5: 0x3001}, after={1: 0x1002})
rule([C_NOP], TOP - 1, 0, 0, flag=1, refusal=3)

# A jump or a branch into its own bytes ends the block as any other: to its start, or to its second halfword.
rule([0x0000_00EF], 0x1000, 0x1000, 1, after={1: 0x1004})  # JAL X1, 0
rule([0x0020_00EF], 0x1000, 0x1002, 1, after={1: 0x1004})  # JAL X1, 2
rule([0x0000_0063], 0x1000, 0x1000, 1)  # BEQ X0, X0, 0
rule([0x0000_0163], 0x1000, 0x1002, 1)  # BEQ X0, X0, 2
rule([C_J_0], 0x1000, 0x1000, 1)
rule([0xC001], 0x1000, 0x1000, 1, x={8: 0})  # C.BEQZ X8, 0
rule([JALR_X1_X5], 0x1000, 0x1002, 1, x={5: 0x1003}, after={1: 0x1004})

# Register 0's entry is read as 0, whatever it is, and comes back as 0 (document 02, No. 6); where refused it stays.
for entry in (1, 0xDEAD_BEEF, 2**63, 2**64 - 1):
    rule([C_NOP], 0x1000, 0x1002, 1, x={0: entry}, after={0: 0})
    rule([0x557D], 0x1000, 0x1002, 1, x={0: entry}, after={0: 0, 10: 2**64 - 1})  # C.LI X10, -1
    rule([0x0010_0293], 0x1000, 0x1004, 1, x={0: entry, 5: 7}, after={0: 0, 5: 1})  # ADDI X5, X0, 1
    rule([0x0060_02B3], 0x1000, 0x1004, 1, x={0: entry, 6: 9}, after={0: 0, 5: 9})  # ADD X5, X0, X6
    rule([0x4003_02B3], 0x1000, 0x1004, 1, x={0: entry, 6: 9}, after={0: 0, 5: 9})  # SUB X5, X6, X0
    rule([0x0000_02B3], 0x1000, 0x1004, 1, x={0: entry}, after={0: 0, 5: 0})  # ADD X5, X0, X0
    rule([0x0010_0013], 0x1000, 0x1004, 1, x={0: entry}, after={0: 0})  # ADDI X0, X0, 1
    rule([0x0040_0067], 0x1000, 4, 1, x={0: entry}, after={0: 0})  # JALR X0, 4(X0)
    rule([BEQ_8], 0x1000, 0x1008, 1, x={0: entry}, after={0: 0})
    rule([BNE_8], 0x1000, 0x1004, 1, x={0: entry}, after={0: 0})
    rule([C_BEQZ_X8_4], 0x1000, 0x1004, 1, x={0: entry, 8: 0}, after={0: 0})
    rule([FENCE_I], 0x1000, 0x1004, 1, x={0: entry}, after={0: 0})
    rule([C_NOP, LW_X0_X0], 0x1000, 0x1002, 1, x={0: entry}, after={0: 0})
    rule([C_NOP, EBREAK], 0x1000, 0x1002, 1, x={0: entry}, after={0: 0})
    rule([LW_X0_X0], 0x1000, 0, 0, x={0: entry}, refusal=5)
    rule([], 0x1000, 0, 0, rest=b"\x13\x00", x={0: entry}, refusal=4)
    rule([C_NOP], 0x1001, 0, 0, x={0: entry}, refusal=3)

# JALR with any funct3 is JALR (source readings).
for funct3 in range(1, 8):
    more = funct3 * 0x1000
    rule([JALR_X1_X5 + more], 0x1000, 0x3000, 1, x={5: 0x3001}, after={1: 0x1004})
    rule([JALR_X0_X5 + more], 0x1000, 0x3000, 1, x={5: 0x3000})
    rule([JALR_X5_X5 + more], 0x1000, 0x3000, 1, x={5: 0x3001}, after={5: 0x1004})
    rule([JALR_X1_X5_2 + more], 0x1000, 0x3002, 1, x={5: 0x3001}, after={1: 0x1004})
    rule([JALR_X1_X5_BACK_1 + more], 0x1000, 0x2FFE, 1, x={5: 0x3000}, after={1: 0x1004})
    rule([C_ADDI_X10_1, JALR_X1_X5 + more, C_ADDI_X10_1], 0x1000, 0x3000, 2, x={5: 0x3000, 10: 7},
         after={1: 0x1006, 10: 8})

# FENCE.I is counted and ends the block: the next PC is the one behind it, and what stands there is not done (document 02, No. 3).
# Its other fields are ignored: rd, rs1, the immediate (source readings).
for fence_i in (FENCE_I, 0x0000_1F8F, 0x000F_900F, 0xFFF0_100F, FENCE_I_FIELDS):
    rule([fence_i], 0x1000, 0x1004, 1)
    rule([fence_i, C_ADDI_X10_1], 0x1000, 0x1004, 1)
    rule([C_ADDI_X10_1, fence_i, C_ADDI_X10_1], 0x1000, 0x1006, 2, x={10: 7}, after={10: 8})
    rule([C_ADDI_X10_1, C_ADDI_X10_1, fence_i, C_ADDI_X10_1], 0x1000, 0x1008, 3, x={10: 7}, after={10: 9})
    # The limit's last, and just beyond the limit.
    rule([C_ADDI_X10_1, fence_i, C_ADDI_X10_1], 0x1000, 0x1006, 2, limit=2, x={10: 7}, after={10: 8})
    rule([C_ADDI_X10_1, fence_i, C_ADDI_X10_1], 0x1000, 0x1002, 1, limit=1, x={10: 7}, after={10: 8})
    rule([fence_i, C_ADDI_X10_1], 0x1000, 0x1004, 1, limit=1)
# The first of two ends it; a jump behind it is not taken, and what ends a block elsewhere is not looked at.
rule([FENCE_I, FENCE_I], 0x1000, 0x1004, 1)
rule([FENCE_I, JAL_X1_8], 0x1000, 0x1004, 1)
rule([C_NOP, FENCE_I, JALR_X1_X5], 0x1000, 0x1006, 2)
rule([FENCE_I, LW_X0_X0], 0x1000, 0x1004, 1)
rule([FENCE_I, EBREAK], 0x1000, 0x1004, 1)
rule([FENCE_I], 0x1000, 0x1004, 1, rest=b"\x13\x00")
# It is not reached behind a helper's instruction, one that is not covered, or a jump.
rule([C_NOP, LW_X0_X0, FENCE_I], 0x1000, 0x1002, 1)
rule([C_NOP, EBREAK, FENCE_I], 0x1000, 0x1002, 1)
rule([JAL_X1_8, FENCE_I], 0x1000, 0x1008, 1, after={1: 0x1004})
rule([LW_X0_X0, FENCE_I], 0x1000, 0, 0, refusal=5)
# Without its second halfword it is not fetched.
rule([C_NOP], 0x1000, 0x1002, 1, rest=b"\x0F\x10")
rule([C_NOP], 0x1000, 0x1002, 1, rest=b"\x0F\x10\x00")
rule([], 0x1000, 0, 0, rest=b"\x0F\x10", refusal=4)
rule([], 0x1000, 0, 0, rest=b"\x0F\x10\x00", refusal=4)
# Past the top of 64 bits as elsewhere.
rule([FENCE_I, C_ADDI_X10_1], TOP - 4, 0, 1)
rule([FENCE_I, C_ADDI_X10_1], TOP - 2, 2, 1)
rule([C_NOP, FENCE_I, C_ADDI_X10_1], TOP - 2, 4, 2)
# 24 instructions before it; the flag changes nothing.
rule([C_NOP] * 24 + [FENCE_I, C_ADDI_X10_1], 0x1000, 0x1034, 25)
rule([C_EBREAK, FENCE_I, C_ADDI_X10_1], 0x1000, 0x1006, 2, flag=1)
# FENCE is no end, whatever its other fields.
for fence in (FENCE, 0x0000_000F, 0x8330_000F, FENCE_FIELDS):
    rule([fence, C_ADDI_X10_1], 0x1000, 0x1006, 2, x={10: 7}, after={10: 8})
    rule([fence, C_ADDI_X10_1, fence, C_ADDI_X10_1], 0x1000, 0x100C, 4, x={10: 7}, after={10: 9})
    rule([fence, FENCE_I, C_ADDI_X10_1], 0x1000, 0x1008, 2)
    rule([FENCE_I, fence, C_ADDI_X10_1], 0x1000, 0x1004, 1)

# Zbb (document 02, No. 7). CTZW counts in the low word alone: 32 where that is 0, whatever stands above it (ISA, Zbb).
# qemu 7.2 counts on into the upper word there, 33 for 2^33, so that the machine's record has none of these.
for place in range(32, 64):
    rule([CTZW], 0x1000, 0x1004, 1, x={6: 2**place}, after={5: 32})
for upper in (0x2, 0x3, 0x6, 0xFFFF_FFFF, 0xFFFF_FFFE, 0x8000_0000, 0xC000_0000, 0x8000_0001, 0x1234_5678, 0xAAAA_AAAA,
              0x5555_5555, 0xFFFF_0000):
    rule([CTZW], 0x1000, 0x1004, 1, x={6: upper * 2**32}, after={5: 32})
    rule([CTZW_X6_X6], 0x1000, 0x1004, 1, x={6: upper * 2**32}, after={6: 32})
    rule([CTZW_X0_X6], 0x1000, 0x1004, 1, x={6: upper * 2**32})
# Beside others; of what another made: 1 shifted by 33 is 2^33; the count 32 counted again has five zeros.
rule([C_ADDI_X10_1, CTZW, C_ADDI_X10_1], 0x1000, 0x1008, 3, x={6: 2**33, 10: 7}, after={5: 32, 10: 9})
rule([SLLI_X6_33, CTZW], 0x1000, 0x1008, 2, x={6: 1}, after={5: 32, 6: 2**33})
rule([CTZW_X6_X6, CTZW], 0x1000, 0x1008, 2, x={6: 2**63}, after={5: 5, 6: 32})
rule([CTZW_X6_X6, CTZW], 0x1000, 0x1004, 1, limit=1, x={6: 2**63}, after={6: 32})

# Zbb reads register 0's entry as 0 too, and leaves it 0.
for entry in (1, 0xDEAD_BEEF, 2**63, 2**64 - 1):
    for of_x0, value in (
            (0x6000_1293, 64), (0x6010_1293, 64), (0x6020_1293, 0),  # CLZ, CTZ, CPOP X5, X0
            (0x6000_129B, 32), (0x6010_129B, 32), (0x6020_129B, 0),  # CLZW, CTZW, CPOPW X5, X0
            (0x6040_1293, 0), (0x6050_1293, 0), (0x0800_42BB, 0),  # SEXT.B, SEXT.H, ZEXT.H X5, X0
            (0x2870_5293, 0), (0x6B80_5293, 0), (0x6010_5293, 0)):  # ORC.B, REV8 X5, X0; RORI X5, X0, 1
        rule([of_x0], 0x1000, 0x1004, 1, x={0: entry}, after={0: 0, 5: value})
    for with_x0, value in (
            (0x4003_72B3, 9), (0x4003_62B3, 2**64 - 1), (0x4003_42B3, 2**64 - 10),  # ANDN, ORN, XNOR X5, X6, X0
            (0x0A60_62B3, 9), (0x0A60_72B3, 9), (0x0A60_42B3, 0), (0x0A60_52B3, 0),  # MAX, MAXU, MIN, MINU X5, X0, X6
            (0x6003_12B3, 9), (0x6003_52B3, 9), (0x6003_12BB, 9), (0x6003_52BB, 9)):  # ROL, ROR, ROLW, RORW X5, X6, X0
        rule([with_x0], 0x1000, 0x1004, 1, x={0: entry, 6: 9}, after={0: 0, 5: value})
    rule([0x6003_1013], 0x1000, 0x1004, 1, x={0: entry}, after={0: 0})  # CLZ X0, X6
    rule([0x4073_7033], 0x1000, 0x1004, 1, x={0: entry}, after={0: 0})  # ANDN X0, X6, X7

# It is fetched as any other: past the top of 64 bits, and not without its second halfword.
rule([CLZ], TOP - 4, 0, 1, x={6: 1}, after={5: 63})
rule([CLZ], TOP - 2, 2, 1, x={6: 1}, after={5: 63})
rule([C_NOP, CLZ], TOP - 2, 4, 2, x={6: 1}, after={5: 63})
rule([C_NOP], 0x1000, 0x1002, 1, rest=b"\x93\x12")
rule([C_NOP], 0x1000, 0x1002, 1, rest=b"\x93\x12\x03")
rule([CLZ], 0x1000, 0x1004, 1, x={6: 1}, after={5: 63}, rest=b"\x93\x12\x03")
rule([], 0x1000, 0, 0, rest=b"\x93\x12", refusal=4)
rule([], 0x1000, 0, 0, rest=b"\x93\x12\x03", refusal=4)

# Words beside Zbb's are not covered: the block ends before one, and is refused where it stands first.
for word in (
    # ZEXT.H with rs2 1, 2, 7, 16, 31 (PACKW of Zbkb), and in OP (ZEXT.H of RV32; with rs2 7 PACK); PACKH.
    0x0813_42BB, 0x0823_42BB, 0x0873_42BB, 0x0903_42BB, 0x09F3_42BB, 0x0803_42B3, 0x0873_42B3, 0x0873_72B3,
    # CLZ, CTZ, CPOP, SEXT.B, SEXT.H have funct12 0x600, 0x601, 0x602, 0x604, 0x605. These: 0x603, 0x606 to 0x608,
    # 0x60F, 0x610, 0x618, 0x61F, 0x620, 0x621, 0x63F.
    0x6033_1293, 0x6063_1293, 0x6073_1293, 0x6083_1293, 0x60F3_1293, 0x6103_1293, 0x6183_1293, 0x61F3_1293,
    0x6203_1293, 0x6213_1293, 0x63F3_1293,
    # CLZ with bit 26, 28 or 31 set, or 30 clear.
    0x6403_1293, 0x7003_1293, 0xE003_1293, 0x2003_1293,
    # CLZW, CTZW, CPOPW have 0x600 to 0x602. These: 0x603 to 0x608, 0x610, 0x611, 0x61F, 0x620, 0x621; CTZW with bit
    # 26 or 31 set, or 30 clear.
    0x6033_129B, 0x6043_129B, 0x6053_129B, 0x6063_129B, 0x6073_129B, 0x6083_129B, 0x6103_129B, 0x6113_129B, 0x61F3_129B,
    0x6203_129B, 0x6213_129B, 0x6413_129B, 0xE013_129B, 0x2013_129B,
    # RORIW of 1 with bit 25, 26, 27, 28 or 31 set, or 30 clear (without 29 it is SRAIW); of 31 with bit 25 set.
    0x6213_529B, 0x6413_529B, 0x6813_529B, 0x7013_529B, 0xE013_529B, 0x2013_529B, 0x63F3_529B,
    # RORI of 1 with bit 26, 27, 28 or 31 set, or 30 clear (without 29 it is SRAI).
    0x6413_5293, 0x6813_5293, 0x7013_5293, 0xE013_5293, 0x2013_5293,
    # ORC.B has funct12 0x287. These: 0x280, 0x281, 0x283, 0x285, 0x286, 0x288, 0x28F, 0x297, 0x29F, 0x2A7, 0x2BF.
    0x2803_5293, 0x2813_5293, 0x2833_5293, 0x2853_5293, 0x2863_5293, 0x2883_5293, 0x28F3_5293, 0x2973_5293, 0x29F3_5293,
    0x2A73_5293, 0x2BF3_5293,
    # REV8 has 0x6B8. These: 0x698 (RV32's), 0x687 (BREV8), 0x680, 0x6A8, 0x6B0, 0x6B9, 0x6BC, 0x6BF, 0x2B8, 0x7B8.
    0x6983_5293, 0x6873_5293, 0x6803_5293, 0x6A83_5293, 0x6B03_5293, 0x6B93_5293, 0x6BC3_5293, 0x6BF3_5293, 0x2B83_5293,
    0x7B83_5293,
    # ORC.B and REV8 in OP-IMM-32, ORC.B with funct3 1 (BSETI), REV8 with funct3 1 (BINVI).
    0x2873_529B, 0x6B83_529B, 0x2873_1293, 0x6B83_1293,
    # MIN, MINU, MAX, MAXU with funct7 4, 7 (of Zicond among them) and 0x25; in OP-32.
    0x0873_52B3, 0x0873_62B3, 0x0E73_42B3, 0x0E73_52B3, 0x0E73_62B3, 0x0E73_72B3, 0x4A73_42B3, 0x4A73_72B3,
    0x0A73_42BB, 0x0A73_52BB, 0x0A73_62BB, 0x0A73_72BB,
    # ANDN, ORN, XNOR in OP-32, and with funct7 0x21 and 0x60; funct7 0x20 with funct3 1 to 3.
    0x4073_72BB, 0x4073_62BB, 0x4073_42BB, 0x4273_72B3, 0x4273_62B3, 0x4273_42B3, 0xC073_72B3, 0xC073_62B3, 0xC073_42B3,
    0x4073_12B3, 0x4073_22B3, 0x4073_32B3,
    # ROL, ROR with funct3 0, 2, 3, 4, 6, 7, with funct7 0x31 and 0x70.
    0x6073_02B3, 0x6073_22B3, 0x6073_32B3, 0x6073_42B3, 0x6073_62B3, 0x6073_72B3, 0x6273_12B3, 0x6273_52B3, 0xE073_12B3,
    0xE073_52B3,
    # ROLW, RORW with funct3 0, 2, 3, 4, 6, 7, with funct7 0x31 and 0x10.
    0x6073_02BB, 0x6073_22BB, 0x6073_32BB, 0x6073_42BB, 0x6073_62BB, 0x6073_72BB, 0x6273_12BB, 0x6273_52BB, 0x2073_12BB,
    0x2073_52BB,
    # Zbs: BSET, BCLR, BINV, BEXT, BSETI of 8, BCLRI, BINVI, BEXTI of 7.
    0x2873_12B3, 0x4873_12B3, 0x6873_12B3, 0x4873_52B3, 0x2883_1293, 0x4873_1293, 0x6873_1293, 0x4873_5293,
    # Zba: SH1ADD, SH2ADD, SH3ADD, the same .UW, ADD.UW, SLLI.UW.
    0x2073_22B3, 0x2073_42B3, 0x2073_62B3, 0x2073_22BB, 0x2073_42BB, 0x2073_62BB, 0x0873_02BB, 0x0873_129B,
    # Zbc: CLMUL, CLMULH, CLMULR. Zbkx: XPERM4, XPERM8.
    0x0A73_12B3, 0x0A73_32B3, 0x0A73_22B3, 0x2873_22B3, 0x2873_42B3,
):
    rule([word], 0x1000, 0, 0, refusal=5)
    rule([C_ADDI_X10_1, word, C_ADDI_X10_1], 0x1000, 0x1002, 1, x={10: 7}, after={10: 8})
    rule([CLZ, word, CLZ], 0x1000, 0x1004, 1, x={6: 1}, after={5: 63})


write(sys.argv[1], b"RV64RULE", records)
print(f"rv64 rules: {len(records)} cases")
