//! Zbb (document 02, No. 7): its forms, encodings next to them, and guest code around it.

use crate::class::first;
use crate::forms::{self, encode, Form, FENCE_I, LEFTOVER};
use crate::guest::{instruction, next_instruction, stream, Guests};
use crate::Random;

/// The instructions by name, as the RISC-V Unprivileged ISA has their encodings.
pub const FORMS: [(&str, Form); 24] = [
    ("ANDN", (0x4000_7033, 0xfe00_707f)),
    ("ORN", (0x4000_6033, 0xfe00_707f)),
    ("XNOR", (0x4000_4033, 0xfe00_707f)),
    ("CLZ", (0x6000_1013, 0xfff0_707f)),
    ("CLZW", (0x6000_101b, 0xfff0_707f)),
    ("CTZ", (0x6010_1013, 0xfff0_707f)),
    ("CTZW", (0x6010_101b, 0xfff0_707f)),
    ("CPOP", (0x6020_1013, 0xfff0_707f)),
    ("CPOPW", (0x6020_101b, 0xfff0_707f)),
    ("MAX", (0x0a00_6033, 0xfe00_707f)),
    ("MAXU", (0x0a00_7033, 0xfe00_707f)),
    ("MIN", (0x0a00_4033, 0xfe00_707f)),
    ("MINU", (0x0a00_5033, 0xfe00_707f)),
    ("SEXT.B", (0x6040_1013, 0xfff0_707f)),
    ("SEXT.H", (0x6050_1013, 0xfff0_707f)),
    ("ZEXT.H", (0x0800_403b, 0xfff0_707f)),
    ("ROL", (0x6000_1033, 0xfe00_707f)),
    ("ROLW", (0x6000_103b, 0xfe00_707f)),
    ("ROR", (0x6000_5033, 0xfe00_707f)),
    ("RORI", (0x6000_5013, 0xfc00_707f)),
    ("RORIW", (0x6000_501b, 0xfe00_707f)),
    ("RORW", (0x6000_503b, 0xfe00_707f)),
    ("ORC.B", (0x2870_5013, 0xfff0_707f)),
    ("REV8", (0x6b80_5013, 0xfff0_707f)),
];

/// Next to Zbb and uncovered, with scratch words.
pub const NEAR: [Form; 36] = [
    // ZEXT.H with an rs2 that has a bit set, and in OP
    (0x0810_403b, 0xfe10_707f),
    (0x0820_403b, 0xfe20_707f),
    (0x0840_403b, 0xfe40_707f),
    (0x0880_403b, 0xfe80_707f),
    (0x0900_403b, 0xff00_707f),
    (0x0800_4033, 0xfe00_707f),
    // RORIW with bit 25, and RORI with a lower or higher funct6
    (0x6200_501b, 0xfe00_707f),
    (0x5c00_5013, 0xfc00_707f),
    (0x6400_5013, 0xfc00_707f),
    // CLZ, CTZ, CPOP, SEXT.B and SEXT.H with the other numbers from 0x600 to 0x63f
    (0x6030_1013, 0xfff0_707f),
    (0x6060_1013, 0xffe0_707f),
    (0x6080_1013, 0xff80_707f),
    (0x6100_1013, 0xff00_707f),
    (0x6200_1013, 0xfe00_707f),
    // CLZW, CTZW, CPOPW likewise
    (0x6030_101b, 0xfff0_707f),
    (0x6040_101b, 0xffc0_707f),
    (0x6080_101b, 0xff80_707f),
    (0x6100_101b, 0xff00_707f),
    (0x6200_101b, 0xfe00_707f),
    // MIN to MAXU with another funct7, in OP-32, and the funct3 below
    (0x0c00_4033, 0xfe00_707f),
    (0x0e00_5033, 0xfe00_707f),
    (0x1a00_7033, 0xfe00_707f),
    (0x0a00_403b, 0xfe00_707f),
    (0x0a00_703b, 0xfe00_707f),
    (0x0a00_0033, 0xfe00_407f),
    // ROL and ROR with another funct3 or funct7
    (0x6000_0033, 0xfe00_707f),
    (0x6000_2033, 0xfe00_207f),
    (0x6000_403b, 0xfe00_707f),
    (0x6200_1033, 0xfe00_707f),
    (0x6200_503b, 0xfe00_707f),
    // ANDN, ORN and XNOR with another funct7, and in OP-32
    (0x4200_4033, 0xfe00_707f),
    (0x6000_6033, 0xfe00_707f),
    (0x4000_603b, 0xfe00_607f),
    // ORC.B and REV8 with another number: with the number 0x698 it is REV8 of RV32
    (0x2860_5013, 0xfff0_707f),
    (0x6980_5013, 0xfff0_707f),
    (0x6b90_5013, 0xfff0_707f),
];

/// The forms alone.
pub fn forms() -> Vec<Form> {
    FORMS.iter().map(|&(_, form)| form).collect()
}

/// An instruction's place in FORMS; none where it is not of Zbb.
pub fn kind(instr: u32) -> Option<usize> {
    FORMS.iter().position(|&(_, (value, fixed))| instr & fixed == value)
}

/// The places in FORMS of those of Zbb among the first `count` instructions.
pub fn kinds(guest: &[u8], count: u32) -> Vec<usize> {
    let (mut rest, mut kinds) = (guest, Vec::new());
    for _ in 0..count {
        let Some((_, size)) = first(rest, false) else { break };
        let (instr, after) = rest.split_at(size);
        kinds.extend(instr.first_chunk().and_then(|&word| kind(u32::from_le_bytes(word))));
        rest = after;
    }
    kinds
}

/// `many` instructions of Zbb, each as often, their fields anywhere.
pub fn plain_straight(random: &mut Random, many: usize) -> Vec<u8> {
    let mut instr = || {
        let (_, form) = random.pick(&FORMS);
        encode(form, random.next() as u32)
    };
    (0..many).flat_map(|_| instr().to_le_bytes()).collect()
}

/// What stands together: Zbb before and after a helper's instruction, FENCE.I, leftover words or an encoding next to
/// Zbb; one after the other; one of them last, or again and again.
fn together(random: &mut Random) -> Vec<Form> {
    let [one, two] = [(); 2].map(|()| random.pick(&FORMS).1);
    match random.below(16) {
        0 | 1 => vec![one, random.pick(&forms::helper()), two],
        2 | 3 => vec![one, FENCE_I, two],
        4 => vec![FENCE_I, one],
        5 | 6 => vec![one, random.pick(&LEFTOVER), two],
        7 | 8 => vec![one, random.pick(&NEAR), two],
        9 => vec![random.pick(&NEAR), one],
        10 => vec![one; 1 + random.below(8)],
        _ => vec![one, two],
    }
}

impl Guests {
    /// Code around Zbb, as one of the first instructions or about the 64th; half the time nothing stands after it.
    pub(crate) fn around_zbb(&self, random: &mut Random) -> Vec<u8> {
        let before = if random.below(8) == 0 { 58 + random.below(8) } else { random.below(3) };
        let mut guest = Vec::new();
        for _ in 0..before {
            guest.extend(next_instruction(random, &self.inline));
        }
        for form in together(random) {
            guest.extend(instruction(random, form));
        }
        if random.below(2) == 0 {
            let after = random.below(3);
            guest.extend(stream(random, after, &self.inline, &self.all));
        }
        guest
    }
}

#[cfg(test)]
mod tests {
    use super::*;
    use crate::class::{class32, Class};

    /// No two of the forms have a word in common, and those next to them are uncovered.
    #[test]
    fn forms_apart() {
        let mut random = Random(1);
        for (number, (_, form)) in FORMS.into_iter().enumerate() {
            for _ in 0..1_000 {
                let instr = encode(form, random.pattern());
                let found: Vec<usize> =
                    (0..FORMS.len()).filter(|&n| instr & FORMS[n].1 .1 == FORMS[n].1 .0).collect();
                assert_eq!((found, kind(instr)), (vec![number], Some(number)), "{instr:08x}");
                assert_eq!(class32(instr), Class::Next, "{instr:08x}");
            }
        }
        for form in NEAR {
            for _ in 0..1_000 {
                let instr = encode(form, random.pattern());
                assert_eq!((kind(instr), class32(instr)), (None, Class::Uncovered), "{instr:08x}");
            }
        }
    }

    /// How many of the words of the four opcodes are Zbb, registers aside: by the ISA's list.
    #[test]
    fn how_many() {
        let number = |opcode: u32| {
            let words = (0..1 << 15).map(|n: u32| (n >> 3) << 20 | (n & 7) << 12 | opcode);
            words.filter(|&word| kind(word).is_some()).count()
        };
        // 9 with any rs2; two with any rs2 and ZEXT.H; CLZ to SEXT.H, 64 of RORI, ORC.B, REV8; three and 32 of RORIW.
        assert_eq!([0x33, 0x3b, 0x13, 0x1b].map(number), [9 * 32, 2 * 32 + 1, 5 + 64 + 2, 3 + 32]);
    }

    #[test]
    fn kinds_among() {
        let clz = encode(FORMS[3].1, 0).to_le_bytes();
        let guest = [&clz[..], &[1, 0], &clz, &[0x13, 0, 0, 0], &[3]].concat();
        for (count, found) in [(0, 0), (1, 1), (2, 1), (3, 2), (4, 2), (9, 2)] {
            assert_eq!(kinds(&guest, count), vec![3; found]);
        }
        let guest = plain_straight(&mut Random(1), 1_000);
        let found = kinds(&guest, u32::MAX);
        assert_eq!(found.len(), 1_000);
        assert!((0..FORMS.len()).all(|number| found.contains(&number)));
    }
}
