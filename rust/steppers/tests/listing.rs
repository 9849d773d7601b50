//! The two plain writers of a listing: document 02's line, each form's text, refusals, and that they agree.

use draw::forms::{encode, is_a64, A64};
use draw::{listing, Random};
use steppers::{list, list_fmt, ListAnswer};

const FILL: u8 = 0xA5;
const LONGEST_LINE: usize = 45;

/// What both answer, and leave in `room` bytes.
fn both(block: &[u8], room: usize) -> (ListAnswer, Vec<u8>) {
    let (mut one, mut other) = (vec![FILL; room], vec![FILL; room]);
    let (answer, by_fmt) = (list(block, &mut one), list_fmt(block, &mut other));
    assert_eq!((answer, &one), (by_fmt, &other), "{block:x?} {room}");
    (answer, one)
}

/// The line of a word, as text; none if the word is outside the forms.
fn line(word: u32) -> Option<String> {
    let (answer, output) = both(&word.to_le_bytes(), LONGEST_LINE + 8);
    let length = answer.length as usize;
    assert!(output[length..].iter().all(|&byte| byte == FILL));
    (answer.refusal == 0).then(|| String::from_utf8(output[..length].to_vec()).unwrap())
}

/// A text of each form, with registers 31 and the ends of the fields. llvm-mc makes the same words of them.
const TEXTS: [(u32, &str); 74] = [
    (0xD282_0040, "movz x0, #4098, lsl #0"),
    (0xD2FF_FFFE, "movz x30, #65535, lsl #48"),
    (0xD2A0_001F, "movz xzr, #0, lsl #16"),
    (0xF2C0_0129, "movk x9, #9, lsl #32"),
    (0xF280_014A, "movk x10, #10, lsl #0"),
    (0xF2A0_0C6B, "movk x11, #99, lsl #16"),
    (0xF2E0_0C8C, "movk x12, #100, lsl #48"),
    (0xF280_7CF3, "movk x19, #999, lsl #0"),
    (0xF2C0_7D14, "movk x20, #1000, lsl #32"),
    (0xF284_E1FD, "movk x29, #9999, lsl #0"),
    (0xF2A4_E21F, "movk xzr, #10000, lsl #16"),
    (0x8B03_0041, "add x1, x2, x3, lsl #0"),
    (0xCB09_015F, "sub xzr, x10, x9, lsl #0"),
    (0x8A00_03FE, "and x30, xzr, x0, lsl #0"),
    (0xAA1F_03C0, "orr x0, x30, xzr, lsl #0"),
    (0xCA17_02D5, "eor x21, x22, x23, lsl #0"),
    (0x8A23_0041, "bic x1, x2, x3, lsl #0"),
    (0x8A29_03DF, "bic xzr, x30, x9, lsl #0"),
    (0xAA20_03FE, "orn x30, xzr, x0, lsl #0"),
    (0xAA2A_012B, "orn x11, x9, x10, lsl #0"),
    (0xCA3F_03C0, "eon x0, x30, xzr, lsl #0"),
    (0xCA37_02D5, "eon x21, x22, x23, lsl #0"),
    (0x9AC3_2C41, "rorv x1, x2, x3"),
    (0x9AC9_2FDF, "rorv xzr, x30, x9"),
    (0xDAC0_0C41, "rev x1, x2"),
    (0xDAC0_0FDF, "rev xzr, x30"),
    (0xDAC0_0FFE, "rev x30, xzr"),
    (0xDAC0_1041, "clz x1, x2"),
    (0xDAC0_13BE, "clz x30, x29"),
    (0xDAC0_13FF, "clz xzr, xzr"),
    (0x9AC3_2041, "lslv x1, x2, x3"),
    (0x9AC9_27DF, "lsrv xzr, x30, x9"),
    (0x9ACA_2BF8, "asrv x24, xzr, x10"),
    (0x9B03_7C41, "madd x1, x2, x3, xzr"),
    (0x9B1E_7FDE, "madd x30, x30, x30, xzr"),
    (0x9B46_7CA4, "smulh x4, x5, x6"),
    (0x9B5F_7FFF, "smulh xzr, xzr, xzr"),
    (0x9BDE_7FDE, "umulh x30, x30, x30"),
    (0x9AC9_0907, "udiv x7, x8, x9"),
    (0x9ADF_0F59, "sdiv x25, x26, xzr"),
    (0xEB0A_013F, "subs xzr, x9, x10, lsl #0"),
    (0xEB1F_03FF, "subs xzr, xzr, xzr, lsl #0"),
    (0xEB1E_03DF, "subs xzr, x30, x30, lsl #0"),
    (0x9A8A_0120, "csel x0, x9, x10, eq"),
    (0x9A9E_13DE, "csel x30, x30, x30, ne"),
    (0x9A8A_2120, "csel x0, x9, x10, cs"),
    (0x9A8A_3120, "csel x0, x9, x10, cc"),
    (0x9A82_403F, "csel xzr, x1, x2, mi"),
    (0x9A82_53E1, "csel x1, xzr, x2, pl"),
    (0x9A9F_6041, "csel x1, x2, xzr, vs"),
    (0x9A89_7129, "csel x9, x9, x9, vc"),
    (0x9A8A_814A, "csel x10, x10, x10, hi"),
    (0x9A80_9000, "csel x0, x0, x0, ls"),
    (0x9A8D_A18B, "csel x11, x12, x13, ge"),
    (0x9A90_B1EE, "csel x14, x15, x16, lt"),
    (0x9A93_C251, "csel x17, x18, x19, gt"),
    (0x9A96_D2B4, "csel x20, x21, x22, le"),
    (0x9A99_E317, "csel x23, x24, x25, al"),
    (0x9A9C_F37A, "csel x26, x27, x28, nv"),
    (0x9340_7C41, "sbfm x1, x2, #0, #31"),
    (0x9340_7FBF, "sbfm xzr, x29, #0, #31"),
    (0x9100_43FF, "add sp, sp, #16, lsl #0"),
    (0x9100_03FF, "add sp, sp, #0, lsl #0"),
    (0xD13F_FFFF, "sub sp, sp, #4095, lsl #0"),
    (0xF940_0841, "ldr x1, [x2, #16]"),
    (0xF940_03FF, "ldr xzr, [sp, #0]"),
    (0xF97F_FFDE, "ldr x30, [x30, #32760]"),
    (0xF900_07FE, "str x30, [sp, #8]"),
    (0xF901_F41F, "str xzr, [x0, #1000]"),
    (0xF900_3549, "str x9, [x10, #104]"),
    (0xD63F_0200, "blr x16"),
    (0xD63F_0000, "blr x0"),
    (0xD63F_03E0, "blr xzr"),
    (0xD65F_03C0, "ret x30"),
];

#[test]
fn texts() {
    for (word, text) in TEXTS {
        assert_eq!(line(word).unwrap(), format!("00000000 {word:08x} {text}\n"));
    }
    for (value, fixed) in A64 {
        assert!(TEXTS.iter().any(|(word, _)| word & fixed == value), "{value:08x}");
    }
}

#[test]
fn longest_line() {
    let (answer, _) = both(&0xEB1E_03DF_u32.to_le_bytes(), LONGEST_LINE);
    assert_eq!(answer, ListAnswer { refusal: 0, length: LONGEST_LINE as u64, offset: 0 });
    let mut random = Random(1);
    for _ in 0..100_000 {
        let word = listing::word(&mut random);
        assert!(line(word).unwrap().len() <= LONGEST_LINE, "{word:08x}");
    }
}

/// Each form with many fields, and the words one or two bits away.
#[test]
fn readable_words_are_the_forms() {
    let mut random = Random(2);
    for form in A64 {
        for _ in 0..20 {
            let word = encode(form, random.next() as u32);
            for (i, j) in (0..32).flat_map(|i| (0..33).map(move |j| (i, j))) {
                let word = word ^ 1 << i ^ (1_u64 << j) as u32;
                assert_eq!(line(word).is_some(), is_a64(word), "{word:08x}");
            }
        }
    }
}

#[test]
fn blocks() {
    let mut random = Random(3);
    let mut met = [0; 15];
    for _ in 0..50_000 {
        let block = listing::block(&mut random);
        let (whole, lines) = both(&block, LONGEST_LINE * block.len().div_ceil(4));
        let room = listing::room(&mut random, whole.length as usize);
        let (answer, output) = both(&block, room);
        let fits = whole.refusal != 0 || room as u64 >= whole.length;
        let refusal = if fits { whole.refusal } else { 14 };
        assert_eq!(answer.refusal, refusal, "{block:x?} {room}");
        let (written, rest) = output.split_at(answer.length as usize);
        assert_eq!(written, &lines[..written.len()]);
        assert!(rest.iter().all(|&byte| byte == FILL));
        met[refusal as usize] += 1;
    }
    assert!([0, 12, 13, 14].iter().all(|&refusal: &usize| met[refusal] > 500), "{met:?}");
}

#[test]
fn refusals() {
    let refused = |refusal, offset| ListAnswer { refusal, length: 0, offset };
    let movz = 0xD282_0040_u32.to_le_bytes();
    let outside = [movz, [0; 4], movz].concat();
    let line = b"00000000 d2820040 movz x0, #4098, lsl #0\n";
    // Each number before those above it.
    assert_eq!(both(&outside[..7], 0).0, refused(12, 0));
    assert_eq!(both(&outside, 0).0, refused(13, 4));
    assert_eq!(both(&outside, 200), (refused(13, 4), vec![FILL; 200]));
    for room in 0..line.len() {
        assert_eq!(both(&movz, room), (refused(14, 0), vec![FILL; room]));
    }
    let accepted = ListAnswer { refusal: 0, length: line.len() as u64, offset: 0 };
    assert_eq!(both(&movz, line.len()), (accepted, line.to_vec()));
    assert_eq!(both(&[], 3), (ListAnswer::default(), vec![FILL; 3]));
}
