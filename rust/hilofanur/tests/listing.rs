//! Listings: document 02's line, document 01's marked blocks, words of every form beside the plain writer.

use draw::{listing, marked, Random};
use hilofanur::{boundary, list, list_into, translate, Guest, Host, LONGEST_BLOCK, LONGEST_LINE};

const FILL: u8 = 0xA5;

#[test]
fn sample() {
    let line = "00000000 d2820040 movz x0, #4098, lsl #0\n";
    assert_eq!(list(&[0x40, 0x00, 0x82, 0xD2]).as_deref(), Ok(line));
    let mut output = [FILL; 64];
    assert_eq!(list_into(&[0x40, 0x00, 0x82, 0xD2], &mut output), Ok(line.len()));
    assert_eq!(output[..line.len()], *line.as_bytes());
    assert!(output[line.len()..].iter().all(|&byte| byte == FILL));
}

/// Document 01's row of 82 80 and its division, read back.
#[test]
fn translations() {
    let host =
        Host { slot_offset: 0, memory_helper: 0x10000, helper32: 0x20000, helper16: 0x30000 };
    let mut output = [0; LONGEST_BLOCK];
    let guest = Guest { bytes: &[0x82, 0x80], pc: 0x1000, limit: 1, ignore_ebreak: false };
    let block = translate(&guest, &host, &mut output).unwrap();
    let text = "\
00000000 f9400409 ldr x9, [x0, #8]
00000004 d29fffca movz x10, #65534, lsl #0
00000008 f2bfffea movk x10, #65535, lsl #16
0000000c f2dfffea movk x10, #65535, lsl #32
00000010 f2ffffea movk x10, #65535, lsl #48
00000014 8a0a0120 and x0, x9, x10, lsl #0
00000018 d2800021 movz x1, #1, lsl #0
0000001c d65f03c0 ret x30
";
    assert_eq!(list(&output[..block.length]).as_deref(), Ok(text));

    let guest = Guest { bytes: &marked::DIV.repeat(64), limit: 64, pc: marked::LONG_PC, ..guest };
    let block = translate(&guest, &host, &mut output).unwrap();
    let text = list(&output[..block.length]).unwrap();
    let lines: Vec<&str> = text.lines().collect();
    assert_eq!((block.length, lines.len()), (4 * 1_862, 1_862));
    for (n, (line, word)) in lines.iter().zip(draw::words(&output)).enumerate() {
        assert!(line.starts_with(&format!("{:08x} {word:08x} ", 4 * n)), "{line}");
    }
}

/// One whose text is the longest fills LONGEST_LINE, and no word of any form is listed by more.
#[test]
fn longest_line() {
    let text = list(&0xEB1E_03DF_u32.to_le_bytes()).unwrap();
    assert_eq!(text, "00000000 eb1e03df subs xzr, x30, x30, lsl #0\n");
    assert_eq!(text.len(), LONGEST_LINE);
    let mut random = Random(1);
    for _ in 0..20_000 {
        let text = list(&listing::word(&mut random).to_le_bytes()).unwrap();
        assert!(text.len() <= LONGEST_LINE, "{text}");
    }
}

/// Words of all forms; the output is long enough, or exactly so.
#[test]
fn words_of_every_form() {
    let mut random = Random(2);
    for _ in 0..200 {
        let block = listing::plain_words(&mut random, 100);
        let mut plain = vec![FILL; 100 * LONGEST_LINE];
        let expected = steppers::list(&block, &mut plain);
        let length = expected.length as usize;
        for room in [length, length + 1, 100 * LONGEST_LINE] {
            let mut output = vec![FILL; room];
            let answer = boundary::list(&block, &mut output);
            let numbers = (answer.refusal, answer.length, answer.offset);
            assert_eq!(numbers, (0, expected.length, 0));
            assert!(output == plain[..room], "{block:x?}");
        }
    }
}
