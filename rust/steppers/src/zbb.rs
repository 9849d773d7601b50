//! Zbb by opcode, from the RISC-V Unprivileged ISA, 'Zbb: Basic bit-manipulation': the value of rd, or none where the
//! encoding is no instruction of Zbb.

/// OP.
#[inline(always)]
pub(crate) fn op(funct7: u32, funct3: u32, a: u64, b: u64) -> Option<u64> {
    Some(match (funct7, funct3) {
        // XNOR, ORN, ANDN
        (0x20, 4) => !(a ^ b),
        (0x20, 6) => a | !b,
        (0x20, 7) => a & !b,
        // MIN, MINU, MAX, MAXU
        (5, 4) => (a as i64).min(b as i64) as u64,
        (5, 5) => a.min(b),
        (5, 6) => (a as i64).max(b as i64) as u64,
        (5, 7) => a.max(b),
        // ROL, ROR
        (0x30, 1) => a.rotate_left((b & 63) as u32),
        (0x30, 5) => a.rotate_right((b & 63) as u32),
        _ => return None,
    })
}

/// OP-32.
#[inline(always)]
pub(crate) fn op_32(funct7: u32, funct3: u32, rs2: usize, a: u64, b: u64) -> Option<u64> {
    Some(match (funct7, funct3) {
        // ZEXT.H, ROLW, RORW
        (4, 4) if rs2 == 0 => a & 0xFFFF,
        (0x30, 1) => word((a as u32).rotate_left((b & 31) as u32)),
        (0x30, 5) => word((a as u32).rotate_right((b & 31) as u32)),
        _ => return None,
    })
}

/// OP-IMM.
#[inline(always)]
pub(crate) fn op_imm(funct3: u32, funct12: u32, a: u64) -> Option<u64> {
    Some(match (funct3, funct12) {
        // CLZ, CTZ, CPOP, SEXT.B, SEXT.H
        (1, 0x600) => a.leading_zeros().into(),
        (1, 0x601) => a.trailing_zeros().into(),
        (1, 0x602) => a.count_ones().into(),
        (1, 0x604) => a as i8 as u64,
        (1, 0x605) => a as i16 as u64,
        // RORI, ORC.B, REV8
        (5, 0x600..=0x63F) => a.rotate_right(funct12 & 63),
        (5, 0x287) => {
            u64::from_le_bytes(a.to_le_bytes().map(|byte| if byte == 0 { 0 } else { 0xFF }))
        }
        (5, 0x6B8) => a.swap_bytes(),
        _ => return None,
    })
}

/// OP-IMM-32.
#[inline(always)]
pub(crate) fn op_imm_32(funct3: u32, funct12: u32, a: u64) -> Option<u64> {
    let low = a as u32;
    Some(match (funct3, funct12) {
        // CLZW, CTZW, CPOPW, RORIW
        (1, 0x600) => low.leading_zeros().into(),
        (1, 0x601) => low.trailing_zeros().into(),
        (1, 0x602) => low.count_ones().into(),
        (5, 0x600..=0x61F) => word(low.rotate_right(funct12 & 31)),
        _ => return None,
    })
}

#[inline(always)]
fn word(value: u32) -> u64 {
    value as i32 as u64
}
