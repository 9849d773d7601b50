//! The rows of document 01's "Marked blocks".

use crate::case::PLAIN;
use crate::{words, Case, LONGEST};

/// What document 01 has found.
#[derive(Debug)]
pub enum Found {
    /// The words and the count.
    Block(Vec<u32>, u32),
    /// The number of words and the count.
    Size(usize, u32),
    Refused(u32),
}

use Found::{Block, Refused, Size};

/// A row: its name, the question, and what is found. The end kind of each block is plain.
pub struct Row {
    pub name: &'static str,
    pub case: Case,
    pub found: Found,
}

/// Memory, 32-bit, 16-bit.
pub const HELPERS: [u64; 3] = [0x10000, 0x20000, 0x30000];
/// DIV x5, x6, x7, one of the two instructions of document 01 with the most words.
pub const DIV: [u8; 4] = [0xB3, 0x42, 0x73, 0x02];
/// A PC that needs four words.
pub const LONG_PC: u64 = 0x0001_0001_0001_0000;
/// What a program prints of row 5, `01 00 41 9C`.
pub const PRINTED: &str = "f9402009\nf940200a\nd2820040\nd2800021\nd65f03c0\n1\n";

const FILL: u8 = 0xA5;
const ROW_1: [u32; 3] = [0xD2820040, 0xD2800021, 0xD65F03C0];

fn row(name: &'static str, case: Case, found: Found) -> Row {
    Row { name, case, found }
}

fn block(words: &[u32]) -> Found {
    Block(words.to_vec(), 1)
}

pub fn rows() -> Vec<Row> {
    let li = [&[0xD29FFFEB, 0xF2BFFFEB, 0xF2DFFFEB, 0xF2FFFFEB, 0xF900280B][..], &ROW_1].concat();
    let jr = [
        0xF9400409, 0xD29FFFCA, 0xF2BFFFEA, 0xF2DFFFEA, 0xF2FFFFEA, 0x8A0A0120, 0xD2800021,
        0xD65F03C0,
    ];
    let left = [&[0xF9402009, 0xF940200A][..], &ROW_1].concat();
    let nops = vec![0xD2821000, 0xD2800801, 0xD65F03C0];
    let top = [0xD2800000, 0xD2800021, 0xD65F03C0];
    let ask = Case::new;
    let nop = ask(&[0x01, 0x00], 1);
    let slot = |slot_offset| Case { slot_offset, ..nop.clone() };
    let divisions = |room| Case { pc: LONG_PC, room, ..ask(&DIV.repeat(64), 64) };
    vec![
        row("01 00", nop.clone(), block(&ROW_1)),
        row("01 00 at the top", Case { pc: !1, ..nop.clone() }, block(&top)),
        row("7D 55", ask(&[0x7D, 0x55], 1), block(&li)),
        row("82 80", ask(&[0x82, 0x80], 1), block(&jr)),
        row("01 00 41 9C", ask(&[0x01, 0x00, 0x41, 0x9C], 2), block(&left)),
        row("41 9C", ask(&[0x41, 0x9C], 1), Refused(5)),
        row("00 00", ask(&[0x00, 0x00], 1), Refused(5)),
        row("03 00", ask(&[0x03, 0x00], 1), Refused(4)),
        row("none", ask(&[], 0), Refused(2)),
        row("65 times 01 00", ask(&[0x01, 0x00].repeat(65), 65), Block(nops, 64)),
        row("73 00 00 00", ask(&[0x73, 0x00, 0x00, 0x00], 1), Refused(5)),
        row("slot offset 32,520", slot(32_520), Refused(1)),
        row("slot offset 32,512", slot(32_512), block(&ROW_1)),
        row("64 DIV", divisions(LONGEST), Size(1_862, 64)),
        row("64 DIV", divisions(4 * 1_862 - 1), Refused(6)),
    ]
}

/// What differs from the row in what `translate` answers (refusal, length, count, end kind) and leaves in the output.
pub fn differs(row: &Row, translate: impl FnOnce(&mut [u8]) -> [u32; 4]) -> Option<String> {
    let mut output = vec![FILL; LONGEST + 8];
    let answer = translate(&mut output[..row.case.room]);
    let (written, rest) = output.split_at(answer[1] as usize);
    let words = words(written);
    let expected = match &row.found {
        Refused(number) => [*number, 0, 0, 0],
        Block(words, count) => [0, 4 * words.len() as u32, *count, PLAIN],
        Size(words, count) => [0, 4 * *words as u32, *count, PLAIN],
    };
    let same = match &row.found {
        Block(found, _) => *found == words,
        _ => true,
    };
    if answer == expected && same && rest.iter().all(|&byte| byte == FILL) {
        return None;
    }
    Some(format!("row {}: {answer:?} {words:x?}, it has {:x?}", row.name, row.found))
}
