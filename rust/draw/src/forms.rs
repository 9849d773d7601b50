//! Instruction forms: document 01's rules 2, 4 and 7 for RV64; for A64 its 24 forms and document 02's six of No. 7.

use crate::Random;

/// The values of the fixed bits, and which bits are fixed.
pub type Form = (u32, u32);

pub const FENCE: Form = (0x000f, 0x707f);
pub const FENCE_I: Form = (0x100f, 0x707f);

/// Rule 2's 32-bit forms.
pub fn inline32() -> Vec<Form> {
    let mut forms = vec![(0x37, 0x7f), (0x17, 0x7f), (0x6f, 0x7f), (0x67, 0x707f), (0x67, 0x7f)];
    let funct3 = |opcode: u32, values: &[u32]| -> Vec<Form> {
        values.iter().map(|f| (opcode | f << 12, 0x707f)).collect()
    };
    let funct7 = |opcode: u32, funct7: u32, values: &[u32]| -> Vec<Form> {
        values.iter().map(|f| (opcode | f << 12 | funct7 << 25, 0xfe00_707f)).collect()
    };
    forms.extend(funct3(0x63, &[0, 1, 4, 5, 6, 7]));
    forms.extend(funct3(0x13, &[0, 2, 3, 4, 6, 7]));
    forms.extend([0x1013, 0x5013, 0x4000_5013].map(|value| (value, 0xfc00_707f)));
    forms.extend(funct3(0x1b, &[0]));
    forms.extend(funct7(0x1b, 0, &[1, 5]));
    forms.extend(funct7(0x1b, 32, &[5]));
    forms.extend(funct7(0x33, 0, &[0, 1, 2, 3, 4, 5, 6, 7]));
    forms.extend(funct7(0x33, 1, &[0, 1, 2, 3, 4, 5, 6, 7]));
    forms.extend(funct7(0x33, 32, &[0, 5]));
    forms.extend(funct7(0x3b, 0, &[0, 1, 5]));
    forms.extend(funct7(0x3b, 1, &[0, 4, 5, 6, 7]));
    forms.extend(funct7(0x3b, 32, &[0, 5]));
    forms.extend([FENCE, FENCE_I]);
    forms
}

/// Rule 2's 16-bit forms. Some fields of a form may make it another one, or uncovered.
pub const INLINE16: [Form; 25] = [
    (0x0000, 0xe003), // C.ADDI4SPN
    (0x0001, 0xef83), // C.NOP
    (0x0001, 0xe003), // C.ADDI
    (0x2001, 0xe003), // C.ADDIW
    (0x4001, 0xe003), // C.LI
    (0x6101, 0xef83), // C.ADDI16SP
    (0x6001, 0xe003), // C.LUI
    (0x8001, 0xec03), // C.SRLI
    (0x8401, 0xec03), // C.SRAI
    (0x8801, 0xec03), // C.ANDI
    (0x8c01, 0xfc63), // C.SUB
    (0x8c21, 0xfc63), // C.XOR
    (0x8c41, 0xfc63), // C.OR
    (0x8c61, 0xfc63), // C.AND
    (0x9c01, 0xfc63), // C.SUBW
    (0x9c21, 0xfc63), // C.ADDW
    (0xa001, 0xe003), // C.J
    (0xc001, 0xe003), // C.BEQZ
    (0xe001, 0xe003), // C.BNEZ
    (0x0002, 0xe003), // C.SLLI
    (0x8002, 0xf07f), // C.JR
    (0x8002, 0xf003), // C.MV
    (0x9002, 0xffff), // C.EBREAK
    (0x9002, 0xf07f), // C.JALR
    (0x9002, 0xf003), // C.ADD
];

/// All of rule 2's forms.
pub fn inline() -> Vec<Form> {
    [inline32(), INLINE16.to_vec()].concat()
}

/// Rule 4's forms.
pub fn helper() -> Vec<Form> {
    let mut forms = Vec::new();
    for quadrant in [0, 2] {
        forms.extend([2, 3, 6, 7].map(|funct3| (quadrant | funct3 << 13, 0xe003)));
    }
    forms.extend([0, 1, 2, 3, 4, 5, 6].map(|funct3| (0x03 | funct3 << 12, 0x707f)));
    forms.extend([0, 1, 2, 3].map(|funct3| (0x23 | funct3 << 12, 0x707f)));
    forms.extend([(0x07, 0x7f), (0x3007, 0x707f), (0x27, 0x7f), (0x3027, 0x707f)]);
    forms.extend([(0x2f, 0x7f), (0x202f, 0x707f), (0x302f, 0x707f)]);
    forms
}

/// Rule 4's instructions by kind, with the manual's names for those of 16 bits.
pub const HELPER_KINDS: [(&str, Form); 22] = [
    ("LB", (0x0003, 0x707f)),
    ("LH", (0x1003, 0x707f)),
    ("LW", (0x2003, 0x707f)),
    ("LD", (0x3003, 0x707f)),
    ("LBU", (0x4003, 0x707f)),
    ("LHU", (0x5003, 0x707f)),
    ("LWU", (0x6003, 0x707f)),
    ("SB", (0x0023, 0x707f)),
    ("SH", (0x1023, 0x707f)),
    ("SW", (0x2023, 0x707f)),
    ("SD", (0x3023, 0x707f)),
    ("FP load", (0x07, 0x7f)),
    ("FP store", (0x27, 0x7f)),
    ("AMO", (0x2f, 0x7f)),
    ("C.LW", (0x4000, 0xe003)),
    ("C.LD", (0x6000, 0xe003)),
    ("C.SW", (0xc000, 0xe003)),
    ("C.SD", (0xe000, 0xe003)),
    ("C.LWSP", (0x4002, 0xe003)),
    ("C.LDSP", (0x6002, 0xe003)),
    ("C.SWSP", (0xc002, 0xe003)),
    ("C.SDSP", (0xe002, 0xe003)),
];

/// Rule 7's forms: uncovered, with scratch words.
pub const LEFTOVER: [Form; 26] = [
    (0x0400_0033, 0xfe00_007f),
    (0xfe00_0033, 0xfe00_007f),
    (0x4000_1033, 0xfe00_707f),
    (0x4000_2033, 0xfe00_707f),
    (0x4000_3033, 0xfe00_707f),
    (0x0600_0033, 0xfe00_007f),
    (0x0000_203b, 0xfe00_707f),
    (0x0000_403b, 0xfe00_707f),
    (0x0000_703b, 0xfe00_707f),
    (0x0200_103b, 0xfe00_707f),
    (0x0200_303b, 0xfe00_707f),
    (0x4000_103b, 0xfe00_707f),
    (0x0810_003b, 0xfe10_007f),
    (0x0400_1013, 0xfc00_707f),
    (0x4000_1013, 0xfc00_707f),
    (0x0400_5013, 0xfc00_707f),
    (0x8000_5013, 0xfc00_707f),
    (0xc000_5013, 0xfc00_707f),
    (0x0000_201b, 0x0000_707f),
    (0x0000_601b, 0x0000_707f),
    (0x0200_101b, 0xfe00_707f),
    (0x4000_101b, 0xfe00_707f),
    (0x0200_501b, 0xfe00_707f),
    (0x4200_501b, 0xfe00_707f),
    (0x9c41, 0xfc63),
    (0x9c61, 0xfc63),
];

/// Uncovered, with no scratch words.
pub const UNCOVERED: [Form; 40] = [
    (0x0000_0073, 0xffff_ffff),
    (0x0010_0073, 0xffff_ffff),
    (0x73, 0x7f),
    (0x2063, 0x707f),
    (0x3063, 0x707f),
    (0x7003, 0x707f),
    (0x4023, 0x707f),
    (0x7023, 0x707f),
    (0x200f, 0x707f),
    (0x700f, 0x707f),
    (0x53, 0x7f),
    (0x43, 0x7f),
    (0x47, 0x7f),
    (0x4b, 0x7f),
    (0x4f, 0x7f),
    (0x0b, 0x7f),
    (0x2b, 0x7f),
    (0x57, 0x7f),
    (0x5b, 0x7f),
    (0x6b, 0x7f),
    (0x77, 0x7f),
    (0x7b, 0x7f),
    (0x1f, 0x7f),
    (0x3f, 0x7f),
    (0x5f, 0x7f),
    (0x7f, 0x7f),
    (0x0000, 0xffff),
    (0x0000, 0xffe3),
    (0x2000, 0xe003),
    (0x8000, 0xe003),
    (0xa000, 0xe003),
    (0x2001, 0xef83),
    (0x6101, 0xffff),
    (0x6001, 0xef83),
    (0x6001, 0xf07f),
    (0x2002, 0xe003),
    (0xa002, 0xe003),
    (0x0002, 0xef83),
    (0x8002, 0xff83),
    (0x9002, 0xff83),
];

/// All of the forms above; Zbb's stand in [`crate::zbb`].
pub fn all() -> Vec<Form> {
    [&inline()[..], &helper(), &LEFTOVER, &UNCOVERED].concat()
}

/// The 30 forms of A64. The last two, BLR and RET, end a run.
pub const A64: [Form; 30] = [
    (0xF940_0000, 0xFFC0_0000), // LDR
    (0xF900_0000, 0xFFC0_0000), // STR
    (0x8B00_0000, 0xFFE0_FC00), // ADD
    (0xCB00_0000, 0xFFE0_FC00), // SUB
    (0x8A00_0000, 0xFFE0_FC00), // AND
    (0xAA00_0000, 0xFFE0_FC00), // ORR
    (0xCA00_0000, 0xFFE0_FC00), // EOR
    (0x9AC0_2000, 0xFFE0_FC00), // LSLV
    (0x9AC0_2400, 0xFFE0_FC00), // LSRV
    (0x9AC0_2800, 0xFFE0_FC00), // ASRV
    (0x9B00_7C00, 0xFFE0_FC00), // MUL
    (0x9B40_7C00, 0xFFE0_FC00), // SMULH
    (0x9BC0_7C00, 0xFFE0_FC00), // UMULH
    (0x9AC0_0800, 0xFFE0_FC00), // UDIV
    (0x9AC0_0C00, 0xFFE0_FC00), // SDIV
    (0xEB00_001F, 0xFFE0_FC1F), // CMP
    (0x9A80_0000, 0xFFE0_0C00), // CSEL
    (0x9340_7C00, 0xFFFF_FC00), // SXTW
    (0x9100_03FF, 0xFFC0_03FF), // ADD SP
    (0xD100_03FF, 0xFFC0_03FF), // SUB SP
    (0xD280_0000, 0xFF80_0000), // MOVZ
    (0xF280_0000, 0xFF80_0000), // MOVK
    (0x8A20_0000, 0xFFE0_FC00), // BIC
    (0xAA20_0000, 0xFFE0_FC00), // ORN
    (0xCA20_0000, 0xFFE0_FC00), // EON
    (0x9AC0_2C00, 0xFFE0_FC00), // RORV
    (0xDAC0_0C00, 0xFFFF_FC00), // REV
    (0xDAC0_1000, 0xFFFF_FC00), // CLZ
    (0xD63F_0000, 0xFFFF_FC1F), // BLR
    (0xD65F_03C0, 0xFFFF_FFFF), // RET
];

/// The six that document 02's No. 7 added.
pub const ADDED: std::ops::Range<usize> = 22..28;

/// Whether a word has one of the forms.
pub fn is_a64(word: u32) -> bool {
    A64.iter().any(|&(value, fixed)| word & fixed == value)
}

/// A word next to the forms: one of the six that were added, with a bit changed.
pub fn near_a64(random: &mut Random) -> u32 {
    let form = random.pick(&A64[ADDED]);
    encode(form, random.pattern()) ^ 1 << random.below(32)
}

/// The word of a form whose free bits are these.
pub fn encode((value, fixed): Form, free: u32) -> u32 {
    value | free & !fixed
}
