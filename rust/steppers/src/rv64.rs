//! RV64 run: the RISC-V Unprivileged ISA (RV64I, M, C, Zbb) with document 01's source readings; FENCE.I ends it
//! (document 02, No. 3).

use crate::zbb;

#[derive(Clone, Copy, Debug, PartialEq, Eq)]
pub struct Rv64Answer {
    pub refusal: u32,
    pub count: u32,
    pub next_pc: u64,
}

/// What an instruction does to the block.
enum Flow {
    Next,
    /// Ends it, and the next PC is this.
    End(u64),
    /// Neither inline nor known; helper instructions are among these.
    Uncovered,
}

use Flow::{End, Next, Uncovered};

fn refused(refusal: u32) -> Rv64Answer {
    Rv64Answer { refusal, count: 0, next_pc: 0 }
}

/// Runs the block at the front of `guest`, whose first byte is at `pc`.
pub fn rv64_run(
    guest: &[u8],
    pc: u64,
    limit: u32,
    ignore_ebreak: bool,
    regs: &mut [u64; 32],
) -> Rv64Answer {
    if limit == 0 {
        return refused(2);
    }
    if pc & 1 != 0 {
        return refused(3);
    }
    // Register 0 is read as 0, whatever its entry is (document 02, No. 6); a refusal leaves that.
    let entry = std::mem::take(&mut regs[0]);
    let answer = run(guest, pc, limit.min(64), ignore_ebreak, regs);
    if answer.refusal != 0 {
        regs[0] = entry;
    }
    answer
}

/// At most `limit` instructions.
fn run(guest: &[u8], pc: u64, limit: u32, ignore_ebreak: bool, regs: &mut [u64; 32]) -> Rv64Answer {
    let (mut rest, mut pc, mut count) = (guest, pc, 0);
    while count < limit {
        let Some((low, after)) = rest.split_first_chunk() else {
            if count == 0 {
                return refused(4);
            }
            break;
        };
        let low = u16::from_le_bytes(*low);
        let (flow, length) = if low & 3 != 3 {
            rest = after;
            (step16(low, pc, ignore_ebreak, regs), 2)
        } else {
            let Some((high, after)) = after.split_first_chunk() else {
                if count == 0 {
                    return refused(4);
                }
                break;
            };
            rest = after;
            let instr = u32::from(low) | u32::from(u16::from_le_bytes(*high)) << 16;
            (step32(instr, pc, regs), 4)
        };
        match flow {
            Next => pc = pc.wrapping_add(length),
            End(next_pc) => return Rv64Answer { refusal: 0, count: count + 1, next_pc },
            Uncovered if count == 0 => return refused(5),
            Uncovered => break,
        }
        count += 1;
    }
    Rv64Answer { refusal: 0, count, next_pc: pc }
}

#[inline(always)]
fn set(x: &mut [u64; 32], rd: usize, value: u64) {
    x[rd] = value;
    x[0] = 0;
}

/// The value into rd; without one the instruction is not covered.
#[inline(always)]
fn set_covered(x: &mut [u64; 32], rd: usize, value: Option<u64>) -> Flow {
    let Some(value) = value else { return Uncovered };
    set(x, rd, value);
    Next
}

/// The low 32 bits, sign-extended.
#[inline(always)]
fn word(value: u64) -> u64 {
    value as i32 as u64
}

/// Sign-extends the low `width` bits.
#[inline(always)]
fn sign_extend(value: u32, width: u32) -> u64 {
    ((value << (32 - width)) as i32 >> (32 - width)) as u64
}

fn step32(instr: u32, pc: u64, x: &mut [u64; 32]) -> Flow {
    let rd = (instr >> 7 & 31) as usize;
    let rs1 = (instr >> 15 & 31) as usize;
    let rs2 = (instr >> 20 & 31) as usize;
    let funct3 = instr >> 12 & 7;
    let funct7 = instr >> 25;
    let imm_i = (instr as i32 >> 20) as u64;
    let imm_u = (instr & 0xFFFF_F000) as i32 as u64;
    let (a, b) = (x[rs1], x[rs2]);
    let value = match instr & 0x7F {
        // LUI, AUIPC
        0x37 => imm_u,
        0x17 => pc.wrapping_add(imm_u),
        // JAL
        0x6F => {
            let imm = (instr as i32 >> 31 << 20) as u32
                | instr & 0xF_F000
                | (instr >> 20 & 1) << 11
                | (instr >> 21 & 0x3FF) << 1;
            set(x, rd, pc.wrapping_add(4));
            return End(pc.wrapping_add(imm as i32 as u64));
        }
        // JALR, with any funct3
        0x67 => {
            set(x, rd, pc.wrapping_add(4));
            return End(a.wrapping_add(imm_i) & !1);
        }
        // BRANCH
        0x63 => {
            let taken = match funct3 {
                0 => a == b,
                1 => a != b,
                4 => (a as i64) < b as i64,
                5 => a as i64 >= b as i64,
                6 => a < b,
                7 => a >= b,
                _ => return Uncovered,
            };
            let imm = (instr as i32 >> 31 << 12) as u32
                | (instr >> 7 & 1) << 11
                | (instr >> 25 & 0x3F) << 5
                | (instr >> 8 & 0xF) << 1;
            return End(pc.wrapping_add(if taken { imm as i32 as u64 } else { 4 }));
        }
        // OP-IMM
        0x13 => match funct3 {
            0 => a.wrapping_add(imm_i),
            2 => u64::from((a as i64) < imm_i as i64),
            3 => u64::from(a < imm_i),
            4 => a ^ imm_i,
            6 => a | imm_i,
            7 => a & imm_i,
            _ => match (funct3, instr >> 26) {
                (1, 0) => a << (imm_i & 63),
                (5, 0) => a >> (imm_i & 63),
                (5, 0x10) => (a as i64 >> (imm_i & 63)) as u64,
                _ => return set_covered(x, rd, zbb::op_imm(funct3, instr >> 20, a)),
            },
        },
        // OP-IMM-32
        0x1B => match (funct3, funct7) {
            (0, _) => word(a.wrapping_add(imm_i)),
            (1, 0) => word(a << (imm_i & 31)),
            (5, 0) => word(u64::from(a as u32 >> (imm_i & 31))),
            (5, 0x20) => (a as i32 >> (imm_i & 31)) as u64,
            _ => return set_covered(x, rd, zbb::op_imm_32(funct3, instr >> 20, a)),
        },
        // OP
        0x33 => match (funct7, funct3) {
            (0, 0) => a.wrapping_add(b),
            (0, 1) => a << (b & 63),
            (0, 2) => u64::from((a as i64) < b as i64),
            (0, 3) => u64::from(a < b),
            (0, 4) => a ^ b,
            (0, 5) => a >> (b & 63),
            (0, 6) => a | b,
            (0, 7) => a & b,
            (0x20, 0) => a.wrapping_sub(b),
            (0x20, 5) => (a as i64 >> (b & 63)) as u64,
            (1, 0) => a.wrapping_mul(b),
            (1, 1) => ((i128::from(a as i64) * i128::from(b as i64)) >> 64) as u64,
            (1, 2) => ((i128::from(a as i64) * i128::from(b)) >> 64) as u64,
            (1, 3) => ((u128::from(a) * u128::from(b)) >> 64) as u64,
            (1, 4) => div(a as i64, b as i64) as u64,
            (1, 5) => a.checked_div(b).unwrap_or(u64::MAX),
            (1, 6) => rem(a as i64, b as i64) as u64,
            (1, 7) => a.checked_rem(b).unwrap_or(a),
            _ => return set_covered(x, rd, zbb::op(funct7, funct3, a, b)),
        },
        // OP-32
        0x3B => match (funct7, funct3) {
            (0, 0) => word(a.wrapping_add(b)),
            (0, 1) => word(a << (b & 31)),
            (0, 5) => word(u64::from(a as u32 >> (b & 31))),
            (0x20, 0) => word(a.wrapping_sub(b)),
            (0x20, 5) => (a as i32 >> (b & 31)) as u64,
            (1, 0) => word(a.wrapping_mul(b)),
            // The quotient 2^31 of an overflow, in 32 bits, is the dividend.
            (1, 4) => word(div(i64::from(a as i32), i64::from(b as i32)) as u64),
            (1, 5) => word((a as u32).checked_div(b as u32).unwrap_or(u32::MAX).into()),
            (1, 6) => word(rem(i64::from(a as i32), i64::from(b as i32)) as u64),
            (1, 7) => word((a as u32).checked_rem(b as u32).unwrap_or(a as u32).into()),
            _ => return set_covered(x, rd, zbb::op_32(funct7, funct3, rs2, a, b)),
        },
        // MISC-MEM: FENCE, FENCE.I
        0x0F if funct3 == 0 => return Next,
        0x0F if funct3 == 1 => return End(pc.wrapping_add(4)),
        _ => return Uncovered,
    };
    set(x, rd, value);
    Next
}

#[inline(always)]
fn div(a: i64, b: i64) -> i64 {
    if b == 0 {
        -1
    } else {
        a.wrapping_div(b)
    }
}

#[inline(always)]
fn rem(a: i64, b: i64) -> i64 {
    if b == 0 {
        a
    } else {
        a.wrapping_rem(b)
    }
}

fn step16(instr: u16, pc: u64, ignore_ebreak: bool, x: &mut [u64; 32]) -> Flow {
    let i = u32::from(instr);
    let bit = |from: u32, to: u32| (i >> from & 1) << to;
    let rd = (i >> 7 & 31) as usize;
    let rs2 = (i >> 2 & 31) as usize;
    let rd_marked = (i >> 7 & 7) as usize + 8;
    let rs2_marked = (i >> 2 & 7) as usize + 8;
    let shamt = bit(12, 5) | i >> 2 & 31;
    let imm_ci = sign_extend(shamt, 6);
    match (i & 3, i >> 13) {
        // C.ADDI4SPN; all zeros and immediate 0 are reserved
        (0, 0) => {
            let imm = (i >> 7 & 15) << 6 | (i >> 11 & 3) << 4 | bit(5, 3) | bit(6, 2);
            if imm == 0 {
                return Uncovered;
            }
            set(x, rs2_marked, x[2].wrapping_add(u64::from(imm)));
        }
        // C.NOP, C.ADDI
        (1, 0) => set(x, rd, x[rd].wrapping_add(imm_ci)),
        // C.ADDIW
        (1, 1) if rd != 0 => set(x, rd, word(x[rd].wrapping_add(imm_ci))),
        // C.LI
        (1, 2) => set(x, rd, imm_ci),
        // C.ADDI16SP, C.LUI; immediate 0 is reserved
        (1, 3) if rd != 0 && shamt != 0 => {
            if rd == 2 {
                let imm = bit(12, 9) | (i >> 3 & 3) << 7 | bit(5, 6) | bit(2, 5) | bit(6, 4);
                set(x, 2, x[2].wrapping_add(sign_extend(imm, 10)));
            } else {
                set(x, rd, imm_ci << 12);
            }
        }
        (1, 4) => {
            let (a, b) = (x[rd_marked], x[rs2_marked]);
            let value = match (i >> 10 & 3, i >> 12 & 1, i >> 5 & 3) {
                (0, _, _) => a >> shamt,
                (1, _, _) => (a as i64 >> shamt) as u64,
                (2, _, _) => a & imm_ci,
                (3, 0, 0) => a.wrapping_sub(b),
                (3, 0, 1) => a ^ b,
                (3, 0, 2) => a | b,
                (3, 0, 3) => a & b,
                (3, 1, 0) => word(a.wrapping_sub(b)),
                (3, 1, 1) => word(a.wrapping_add(b)),
                _ => return Uncovered,
            };
            set(x, rd_marked, value);
        }
        // C.J
        (1, 5) => {
            let imm = bit(12, 11)
                | bit(8, 10)
                | (i >> 9 & 3) << 8
                | bit(6, 7)
                | bit(7, 6)
                | bit(2, 5)
                | bit(11, 4)
                | (i >> 3 & 7) << 1;
            return End(pc.wrapping_add(sign_extend(imm, 12)));
        }
        // C.BEQZ, C.BNEZ
        (1, 6 | 7) => {
            let imm =
                bit(12, 8) | (i >> 5 & 3) << 6 | bit(2, 5) | (i >> 10 & 3) << 3 | (i >> 3 & 3) << 1;
            let taken = (x[rd_marked] == 0) == (i >> 13 == 6);
            return End(pc.wrapping_add(if taken { sign_extend(imm, 9) } else { 2 }));
        }
        // C.SLLI
        (2, 0) if rd != 0 => set(x, rd, x[rd] << shamt),
        (2, 4) => match (i >> 12 & 1, rd, rs2) {
            // C.EBREAK
            (1, 0, 0) if ignore_ebreak => {}
            (_, 0, _) => return Uncovered,
            // C.JR, C.JALR
            (0, _, 0) => return End(x[rd] & !1),
            (_, _, 0) => {
                let target = x[rd] & !1;
                x[1] = pc.wrapping_add(2);
                return End(target);
            }
            // C.MV, C.ADD
            (0, _, _) => x[rd] = x[rs2],
            _ => x[rd] = x[rd].wrapping_add(x[rs2]),
        },
        _ => return Uncovered,
    }
    Next
}

#[cfg(test)]
mod tests {
    use super::*;
    use draw::class::{class16, Class};

    fn from_zeros(guest: &[u8], pc: u64, limit: u32, ignore_ebreak: bool) -> Rv64Answer {
        rv64_run(guest, pc, limit, ignore_ebreak, &mut [0; 32])
    }

    #[test]
    fn refusals_lowest_first_with_registers_unchanged() {
        let cases: [(&[u8], u64, u32, u64, u32); 10] = [
            (&[], 1, 0, 1, 2),
            (&[], 1, 1, 1, 3),
            (&[], 0, 1, 1, 4),
            (&[1], 0, 1, 0, 4),
            (&[3, 0], 0, 1, 1, 4),
            (&[3, 0, 0], 0, 1, 0, 4),
            (&[0, 0], 0, 1, 1, 5),
            (&[0x73, 0, 0, 0], 0, 1, 0, 5),
            (&[0x03, 0x35, 0x05, 0x00], 0, 1, 0, 5),
            (&[0x41, 0x9C], 0, 1, 0, 5),
        ];
        for (guest, pc, limit, x0, refusal) in cases {
            let mut regs = [7; 32];
            regs[0] = x0;
            let before = regs;
            assert_eq!(
                rv64_run(guest, pc, limit, false, &mut regs),
                refused(refusal),
                "{guest:02x?}"
            );
            assert_eq!(regs, before);
        }
    }

    /// c.li x10, -1, which adds to register 0; add x5, x0, x6; c.nop.
    #[test]
    fn register_0_whatever_its_entry() {
        for (guest, changed) in
            [(&[0x7D, 0x55][..], (10, u64::MAX)), (&[0xB3, 2, 0x60, 0], (5, 7)), (&[1, 0], (0, 0))]
        {
            let (mut regs, mut expected) = ([7; 32], [7; 32]);
            expected[0] = 0;
            expected[changed.0] = changed.1;
            assert_eq!(rv64_run(guest, 0, 1, false, &mut regs).refusal, 0);
            assert_eq!(regs, expected, "{guest:02x?}");
        }
    }

    #[test]
    fn ends_of_a_block() {
        let answer = |count, next_pc| Rv64Answer { refusal: 0, count, next_pc };
        // The limit is clamped to 64; the PC passes from the top to 0.
        assert_eq!(from_zeros(&[1, 0].repeat(65), 0x1000, 65, false), answer(64, 0x1080));
        assert_eq!(from_zeros(&[1, 0].repeat(65), 0x1000, u32::MAX, false), answer(64, 0x1080));
        assert_eq!(from_zeros(&[1, 0, 1, 0], u64::MAX - 1, 2, false), answer(2, 2));
        // A lone byte, a helper instruction, an uncovered one.
        assert_eq!(from_zeros(&[1, 0, 1], 0x1000, 9, false), answer(1, 0x1002));
        assert_eq!(from_zeros(&[1, 0, 0x10, 0x41], 0x1000, 9, false), answer(1, 0x1002));
        assert_eq!(from_zeros(&[1, 0, 0x41, 0x9C], 0x1000, 9, false), answer(1, 0x1002));
        // C.EBREAK under the flag.
        assert_eq!(from_zeros(&[2, 0x90], 0x1000, 9, true), answer(1, 0x1002));
        assert_eq!(from_zeros(&[2, 0x90], 0x1000, 9, false), refused(5));
        // Jumps: JALR with funct3 7, C.J 0 onto itself.
        assert_eq!(from_zeros(&[0x67, 0x70, 0x50, 0x12], 0x1000, 9, false), answer(1, 0x124));
        assert_eq!(from_zeros(&[0x01, 0xA0], 0x1000, 9, false), answer(1, 0x1000));
        // FENCE with every field other than funct3 set.
        assert_eq!(from_zeros(&[0x8F, 0x8F, 0xFF, 0xFF], 0x1000, 9, false), answer(1, 0x1004));
    }

    /// It is counted, and what stands after it is not done.
    #[test]
    fn fence_i_ends_a_block() {
        let li = [0x7D, 0x55];
        for fence_i in [[0x0F, 0x10, 0, 0], [0x8F, 0x9F, 0xFF, 0xFF]] {
            for (before, limit, pc, count, next_pc) in [
                (0, 9, 0x1000, 1, 0x1004),
                (1, 9, 0x1000, 2, 0x1006),
                (2, 3, 0x1000, 3, 0x1008),
                (1, 1, 0x1000, 1, 0x1002),
                (63, 65, 0x1000, 64, 0x1082),
                (64, 65, 0x1000, 64, 0x1080),
                (0, 9, u64::MAX - 1, 1, 2),
            ] {
                let guest = [&[1, 0].repeat(before)[..], &fence_i, &li].concat();
                let mut regs = [0; 32];
                let answer = rv64_run(&guest, pc, limit, false, &mut regs);
                assert_eq!(answer, Rv64Answer { refusal: 0, count, next_pc }, "{guest:02x?}");
                assert_eq!(regs, [0; 32]);
            }
        }
        // FENCE is no end.
        let answer = Rv64Answer { refusal: 0, count: 2, next_pc: 0x1008 };
        assert_eq!(from_zeros(&[0x0F, 0, 0, 0, 0x0F, 0x10, 0, 0, 1, 0], 0x1000, 9, false), answer);
    }

    #[test]
    fn every_halfword_as_rules_two_to_four_say() {
        for instr in 0..=u16::MAX {
            if instr & 3 == 3 {
                continue;
            }
            let covered = matches!(class16(instr, true), Class::Next | Class::Ends);
            let answer = from_zeros(&instr.to_le_bytes(), 0x1000, 1, true);
            assert_eq!(answer.refusal, if covered { 0 } else { 5 }, "{instr:04x}");
        }
    }
}
