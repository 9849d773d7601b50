//! The words of Zbb's instructions, which the Rust has not: a table from the two manuals (document 02, No. 7).
//! Operands are in X9 and X10, the result in X11; X12 to X14 are free.

use draw::zbb::{kind, FORMS};

// The A64 forms with three registers, and those with two.
const ADD: u32 = 0x8B00_0000;
const SUB: u32 = 0xCB00_0000;
const AND: u32 = 0x8A00_0000;
const ORR: u32 = 0xAA00_0000;
const BIC: u32 = 0x8A20_0000;
const ORN: u32 = 0xAA20_0000;
const EON: u32 = 0xCA20_0000;
const LSLV: u32 = 0x9AC0_2000;
const LSRV: u32 = 0x9AC0_2400;
const ASRV: u32 = 0x9AC0_2800;
const RORV: u32 = 0x9AC0_2C00;
const MUL: u32 = 0x9B00_7C00;
const CMP: u32 = 0xEB00_001F;
const CSEL: u32 = 0x9A80_0000;
const CLZ: u32 = 0xDAC0_1000;
const REV: u32 = 0xDAC0_0C00;
const SXTW: u32 = 0x9340_7C00;
// Conditions.
const CS: u32 = 2;
const CC: u32 = 3;
const GE: u32 = 10;
const LT: u32 = 11;
/// 1 in each byte.
const EACH: u64 = 0x0101_0101_0101_0101;

fn three(form: u32, d: u32, n: u32, m: u32) -> Vec<u32> {
    vec![form | m << 16 | n << 5 | d]
}

fn two(form: u32, d: u32, n: u32) -> Vec<u32> {
    three(form, d, n, 0)
}

/// MOVZ, and MOVK for each of the upper halfwords that is not 0.
pub fn constant(register: u32, value: u64) -> Vec<u32> {
    let half = |n: u32| (value >> (16 * n)) as u32 & 0xFFFF;
    let upper = (1..4).filter(|&n| half(n) != 0);
    let movk = upper.map(|n| 0xF280_0000 | n << 21 | half(n) << 5 | register);
    [0xD280_0000 | half(0) << 5 | register].into_iter().chain(movk).collect()
}

/// A guest register into X9 or X10; register 0 is 0 (document 02, No. 6).
fn load(to: u32, register: u32, slot_offset: u64) -> Vec<u32> {
    match register {
        0 => constant(to, 0),
        n => vec![0xF940_0000 | (slot_offset as u32 / 8 + n) << 10 | to],
    }
}

/// X9 where the comparison with X10 meets the condition, else X10.
fn picked(condition: u32) -> Vec<u32> {
    [three(CMP, 0, 9, 10), three(CSEL | condition << 12, 11, 9, 10)].concat()
}

/// The low bits of X9 but for `unused`, extended by their sign.
fn extended(unused: u64) -> Vec<u32> {
    [constant(12, unused), three(LSLV, 11, 9, 12), three(ASRV, 11, 11, 12)].concat()
}

/// The low word of X9 alone.
fn low_word() -> Vec<u32> {
    [constant(12, 0xFFFF_FFFF), three(AND, 9, 9, 12)].concat()
}

/// The low word of X9 by the low five bits of X10 one way, and by 32 less those the other.
fn rotated(there: u32, back: u32) -> Vec<u32> {
    [
        low_word(),
        constant(12, 31),
        three(AND, 10, 10, 12),
        three(there, 11, 9, 10),
        constant(12, 32),
        three(SUB, 12, 12, 10),
        three(back, 12, 9, 12),
        three(ORR, 11, 11, 12),
        two(SXTW, 11, 11),
    ]
    .concat()
}

/// 64 less the leading zeros of (X9 - 1) AND NOT X9.
fn trailing() -> Vec<u32> {
    [
        constant(12, 1),
        three(SUB, 11, 9, 12),
        three(BIC, 11, 11, 9),
        two(CLZ, 11, 11),
        constant(12, 64),
        three(SUB, 11, 12, 11),
    ]
    .concat()
}

/// X13 is the byte in each byte, from X12.
fn bytes_of(byte: u64) -> Vec<u32> {
    [constant(13, byte), three(MUL, 13, 12, 13)].concat()
}

/// X11 is Xn shifted right.
fn shifted(n: u32, by: u64) -> Vec<u32> {
    [constant(14, by), three(LSRV, 11, n, 14)].concat()
}

/// The ones of X9: of pairs of bits, of fours, of bytes, and the bytes' sum.
fn ones() -> Vec<u32> {
    [
        constant(12, EACH),
        [bytes_of(0x55), shifted(9, 1), three(AND, 11, 11, 13), three(SUB, 9, 9, 11)].concat(),
        [bytes_of(0x33), shifted(9, 2), three(AND, 11, 11, 13), three(AND, 9, 9, 13)].concat(),
        three(ADD, 9, 9, 11),
        [bytes_of(0x0F), shifted(9, 4), three(ADD, 9, 9, 11), three(AND, 9, 9, 13)].concat(),
        three(MUL, 9, 9, 12),
        shifted(9, 56),
    ]
    .concat()
}

/// 255 in each byte of X9 that is not 0: adding 127 to its low seven bits, or its own bit 7, makes bit 7 one.
fn combined() -> Vec<u32> {
    [
        [constant(12, EACH), bytes_of(0x7F), three(AND, 11, 9, 13)].concat(),
        [three(ADD, 11, 11, 13), three(ORR, 11, 11, 9), shifted(11, 7)].concat(),
        [three(AND, 11, 11, 12), constant(14, 255), three(MUL, 11, 11, 14)].concat(),
    ]
    .concat()
}

/// Between the operands and the result.
fn body(name: &str) -> Vec<u32> {
    match name {
        "ANDN" => three(BIC, 11, 9, 10),
        "ORN" => three(ORN, 11, 9, 10),
        "XNOR" => three(EON, 11, 9, 10),
        "CLZ" => two(CLZ, 11, 9),
        "CLZW" => [low_word(), two(CLZ, 11, 9), constant(12, 32), three(SUB, 11, 11, 12)].concat(),
        "CTZ" => trailing(),
        "CTZW" => [constant(12, 1 << 32), three(ORR, 9, 9, 12), trailing()].concat(),
        "CPOP" => ones(),
        "CPOPW" => [constant(12, 32), three(LSLV, 9, 9, 12), ones()].concat(),
        "MAX" => picked(GE),
        "MAXU" => picked(CS),
        "MIN" => picked(LT),
        "MINU" => picked(CC),
        "SEXT.B" => extended(56),
        "SEXT.H" => extended(48),
        "ZEXT.H" => [constant(12, 0xFFFF), three(AND, 11, 9, 12)].concat(),
        "ROL" => [three(SUB, 10, 31, 10), three(RORV, 11, 9, 10)].concat(),
        "ROLW" => rotated(LSLV, LSRV),
        "ROR" | "RORI" => three(RORV, 11, 9, 10),
        "RORW" | "RORIW" => rotated(LSRV, LSLV),
        "ORC.B" => combined(),
        "REV8" => two(REV, 11, 9),
        _ => unreachable!("{name} is not of Zbb"),
    }
}

/// The second operand into X10, where the instruction has one: rs2, or the number of RORI and RORIW.
fn second(name: &str, instr: u32, slot_offset: u64) -> Vec<u32> {
    match name {
        "RORI" => constant(10, (instr >> 20 & 63).into()),
        "RORIW" => constant(10, (instr >> 20 & 31).into()),
        "ANDN" | "ORN" | "XNOR" | "MAX" | "MAXU" | "MIN" | "MINU" | "ROL" | "ROLW" | "ROR"
        | "RORW" => load(10, instr >> 20 & 31, slot_offset),
        _ => vec![],
    }
}

/// The words of an instruction of Zbb; none where it is not of Zbb.
pub fn words(instr: u32, slot_offset: u64) -> Option<Vec<u32>> {
    let (name, _) = FORMS[kind(instr)?];
    let store = match instr >> 7 & 31 {
        0 => vec![],
        rd => vec![0xF900_0000 | (slot_offset as u32 / 8 + rd) << 10 | 11],
    };
    let first = load(9, instr >> 15 & 31, slot_offset);
    Some([first, second(name, instr, slot_offset), body(name), store].concat())
}
