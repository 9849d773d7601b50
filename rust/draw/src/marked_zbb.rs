//! Zbb's marked blocks (document 02, No. 7): each instruction as a block of its own, with its words written out, and
//! rows around it. The instructions are as GNU as makes them of their texts.

use crate::marked::{Found, Row, LONG_PC};
use crate::{Case, LONGEST};

/// An instruction and its words.
type Words = (&'static str, u32, &'static [u32]);

/// Of each instruction, with slot 0 at X0.
pub const WORDS: [Words; 24] = [
    ("andn x5, x6, x7", 0x407372B3, &[0xF9401809, 0xF9401C0A, 0x8A2A012B, 0xF900140B]),
    ("orn x5, x6, x7", 0x407362B3, &[0xF9401809, 0xF9401C0A, 0xAA2A012B, 0xF900140B]),
    ("xnor x5, x6, x7", 0x407342B3, &[0xF9401809, 0xF9401C0A, 0xCA2A012B, 0xF900140B]),
    ("clz x5, x6", 0x60031293, &[0xF9401809, 0xDAC0112B, 0xF900140B]),
    (
        "clzw x5, x6",
        0x6003129B,
        &[
            0xF9401809, 0xD29FFFEC, 0xF2BFFFEC, 0x8A0C0129, 0xDAC0112B, 0xD280040C, 0xCB0C016B,
            0xF900140B,
        ],
    ),
    (
        "ctz x5, x6",
        0x60131293,
        &[
            0xF9401809, 0xD280002C, 0xCB0C012B, 0x8A29016B, 0xDAC0116B, 0xD280080C, 0xCB0B018B,
            0xF900140B,
        ],
    ),
    (
        "ctzw x5, x6",
        0x6013129B,
        &[
            0xF9401809, 0xD280000C, 0xF2C0002C, 0xAA0C0129, 0xD280002C, 0xCB0C012B, 0x8A29016B,
            0xDAC0116B, 0xD280080C, 0xCB0B018B, 0xF900140B,
        ],
    ),
    (
        "cpop x5, x6",
        0x60231293,
        &[
            0xF9401809, 0xD280202C, 0xF2A0202C, 0xF2C0202C, 0xF2E0202C, 0xD2800AAD, 0x9B0D7D8D,
            0xD280002E, 0x9ACE252B, 0x8A0D016B, 0xCB0B0129, 0xD280066D, 0x9B0D7D8D, 0xD280004E,
            0x9ACE252B, 0x8A0D016B, 0x8A0D0129, 0x8B0B0129, 0xD28001ED, 0x9B0D7D8D, 0xD280008E,
            0x9ACE252B, 0x8B0B0129, 0x8A0D0129, 0x9B0C7D29, 0xD280070E, 0x9ACE252B, 0xF900140B,
        ],
    ),
    (
        "cpopw x5, x6",
        0x6023129B,
        &[
            0xF9401809, 0xD280040C, 0x9ACC2129, 0xD280202C, 0xF2A0202C, 0xF2C0202C, 0xF2E0202C,
            0xD2800AAD, 0x9B0D7D8D, 0xD280002E, 0x9ACE252B, 0x8A0D016B, 0xCB0B0129, 0xD280066D,
            0x9B0D7D8D, 0xD280004E, 0x9ACE252B, 0x8A0D016B, 0x8A0D0129, 0x8B0B0129, 0xD28001ED,
            0x9B0D7D8D, 0xD280008E, 0x9ACE252B, 0x8B0B0129, 0x8A0D0129, 0x9B0C7D29, 0xD280070E,
            0x9ACE252B, 0xF900140B,
        ],
    ),
    ("max x5, x6, x7", 0x0A7362B3, &[0xF9401809, 0xF9401C0A, 0xEB0A013F, 0x9A8AA12B, 0xF900140B]),
    ("maxu x5, x6, x7", 0x0A7372B3, &[0xF9401809, 0xF9401C0A, 0xEB0A013F, 0x9A8A212B, 0xF900140B]),
    ("min x5, x6, x7", 0x0A7342B3, &[0xF9401809, 0xF9401C0A, 0xEB0A013F, 0x9A8AB12B, 0xF900140B]),
    ("minu x5, x6, x7", 0x0A7352B3, &[0xF9401809, 0xF9401C0A, 0xEB0A013F, 0x9A8A312B, 0xF900140B]),
    ("sext.b x5, x6", 0x60431293, &[0xF9401809, 0xD280070C, 0x9ACC212B, 0x9ACC296B, 0xF900140B]),
    ("sext.h x5, x6", 0x60531293, &[0xF9401809, 0xD280060C, 0x9ACC212B, 0x9ACC296B, 0xF900140B]),
    ("zext.h x5, x6", 0x080342BB, &[0xF9401809, 0xD29FFFEC, 0x8A0C012B, 0xF900140B]),
    ("rol x5, x6, x7", 0x607312B3, &[0xF9401809, 0xF9401C0A, 0xCB0A03EA, 0x9ACA2D2B, 0xF900140B]),
    (
        "rolw x5, x6, x7",
        0x607312BB,
        &[
            0xF9401809, 0xF9401C0A, 0xD29FFFEC, 0xF2BFFFEC, 0x8A0C0129, 0xD28003EC, 0x8A0C014A,
            0x9ACA212B, 0xD280040C, 0xCB0A018C, 0x9ACC252C, 0xAA0C016B, 0x93407D6B, 0xF900140B,
        ],
    ),
    ("ror x5, x6, x7", 0x607352B3, &[0xF9401809, 0xF9401C0A, 0x9ACA2D2B, 0xF900140B]),
    ("rori x5, x6, 63", 0x63F35293, &[0xF9401809, 0xD28007EA, 0x9ACA2D2B, 0xF900140B]),
    (
        "roriw x5, x6, 31",
        0x61F3529B,
        &[
            0xF9401809, 0xD28003EA, 0xD29FFFEC, 0xF2BFFFEC, 0x8A0C0129, 0xD28003EC, 0x8A0C014A,
            0x9ACA252B, 0xD280040C, 0xCB0A018C, 0x9ACC212C, 0xAA0C016B, 0x93407D6B, 0xF900140B,
        ],
    ),
    (
        "rorw x5, x6, x7",
        0x607352BB,
        &[
            0xF9401809, 0xF9401C0A, 0xD29FFFEC, 0xF2BFFFEC, 0x8A0C0129, 0xD28003EC, 0x8A0C014A,
            0x9ACA252B, 0xD280040C, 0xCB0A018C, 0x9ACC212C, 0xAA0C016B, 0x93407D6B, 0xF900140B,
        ],
    ),
    (
        "orc.b x5, x6",
        0x28735293,
        &[
            0xF9401809, 0xD280202C, 0xF2A0202C, 0xF2C0202C, 0xF2E0202C, 0xD2800FED, 0x9B0D7D8D,
            0x8A0D012B, 0x8B0D016B, 0xAA09016B, 0xD28000EE, 0x9ACE256B, 0x8A0C016B, 0xD2801FEE,
            0x9B0E7D6B, 0xF900140B,
        ],
    ),
    ("rev8 x5, x6", 0x6B835293, &[0xF9401809, 0xDAC00D2B, 0xF900140B]),
];

/// With register 0 as an operand, and as rd.
const REGISTER_0: [Words; 4] = [
    ("andn x5, x0, x7", 0x407072B3, &[0xD2800009, 0xF9401C0A, 0x8A2A012B, 0xF900140B]),
    ("andn x5, x6, x0", 0x400372B3, &[0xF9401809, 0xD280000A, 0x8A2A012B, 0xF900140B]),
    ("andn x0, x6, x7", 0x40737033, &[0xF9401809, 0xF9401C0A, 0x8A2A012B]),
    ("clz x0, x0", 0x60001013, &[0xD2800009, 0xDAC0112B]),
];

/// Next to Zbb: zext.h with rs2 1, roriw with bit 25, clz and clzw with the number 0x603, min with funct7 4, rev8 of
/// RV32.
const NEAR: [(&str, u32); 6] = [
    ("zext.h, rs2 1", 0x081342BB),
    ("roriw, bit 25", 0x63F3529B),
    ("clz, 0x603", 0x60331293),
    ("clzw, 0x603", 0x6033129B),
    ("min, funct7 4", 0x087342B3),
    ("rev8, 0x698", 0x69835293),
];

/// CPOPW x5, x6, the instruction with the most words.
pub const CPOPW: [u8; 4] = [0x9B, 0x12, 0x23, 0x60];
/// Document 01's row 5: uncovered, with two words left over.
const LEAVES: [u8; 2] = [0x41, 0x9C];
const LEFT: [u32; 2] = [0xF9402009, 0xF940200A];
/// Next PC 0x1004, count 1.
const END: [u32; 3] = [0xD2820080, 0xD2800021, 0xD65F03C0];

/// One instruction.
fn alone((name, instr, words): Words) -> Row {
    let case = Case::new(&instr.to_le_bytes(), 1);
    Row { name, case, found: Found::Block([words, &END].concat(), 1) }
}

/// One instruction, and one after it that leaves words.
fn before_leftover((name, instr, words): Words) -> Row {
    let case = Case::new(&[&instr.to_le_bytes()[..], &LEAVES].concat(), 2);
    Row { name, case, found: Found::Block([words, &LEFT, &END].concat(), 1) }
}

pub fn rows() -> Vec<Row> {
    let many = |room| Case { pc: LONG_PC, room, ..Case::new(&CPOPW.repeat(64), 64) };
    let near = |(name, instr): (&'static str, u32)| {
        let case = Case::new(&instr.to_le_bytes(), 1);
        Row { name, case, found: Found::Refused(5) }
    };
    let mut rows: Vec<Row> = WORDS.into_iter().chain(REGISTER_0).map(alone).collect();
    rows.extend(WORDS.into_iter().map(before_leftover));
    rows.extend(NEAR.map(near));
    // 30 words each, and six of the end.
    let longest = 4 * (64 * 30 + 6);
    for room in [longest, LONGEST] {
        let found = Found::Size(longest / 4, 64);
        rows.push(Row { name: "64 CPOPW", case: many(room), found });
    }
    rows.push(Row { name: "64 CPOPW", case: many(longest - 1), found: Found::Refused(6) });
    rows
}

#[cfg(test)]
mod tests {
    use super::*;
    use crate::zbb::{kind, FORMS};

    #[test]
    fn each_instruction_once() {
        let kinds = WORDS.map(|(_, instr, _)| kind(instr));
        assert_eq!(kinds, std::array::from_fn(Some));
        for ((text, _, words), (name, _)) in WORDS.into_iter().zip(FORMS) {
            assert_eq!(text.split(' ').next().unwrap().to_uppercase(), name);
            assert!(words.len() <= 30, "{text}");
        }
    }
}
