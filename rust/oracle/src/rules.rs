//! Document 01's "How a block is read" with document 02's Nos. 3 and 7, and "Place", read a second time and compared
//! with the Rust.

use crate::{expected, place, Answer};
use draw::case::{DROP, HELPER, PLAIN};
use draw::class::{first, Class};
use draw::{longest, Case, Random, LONGEST};

/// Rule 7: the uncovered encodings that leave scratch words.
fn leaves(instr: u32) -> bool {
    matches!(instr & 0x7f, 0x13 | 0x1b | 0x33 | 0x3b) || instr & 0xffff_fc43 == 0x9c41
}

/// Rules 1 and 5, and FENCE.I: refusal, count and end kind. Refusals 1 and 6 stand aside.
fn walk(guest: &[u8], pc: u64, limit: u32, ignore_ebreak: bool) -> (u32, u32, u32) {
    if limit == 0 {
        return (2, 0, 0);
    }
    if pc % 2 == 1 {
        return (3, 0, 0);
    }
    let (mut at, mut count) = (0, 0);
    while count < limit.min(64) {
        match first(&guest[at..], ignore_ebreak) {
            None if count == 0 => return (4, 0, 0),
            Some((Class::Uncovered, _)) if count == 0 => return (5, 0, 0),
            None | Some((Class::Uncovered, _)) => break,
            Some((Class::Ends, _)) => return (0, count + 1, PLAIN),
            Some((Class::Helper, _)) => return (0, count + 1, HELPER),
            Some((Class::FenceI, _)) => return (0, count + 1, DROP),
            Some((Class::Next, size)) => {
                at += size;
                count += 1;
            }
        }
    }
    (0, count, PLAIN)
}

const FILL: u8 = 0xA5;
const RET: [u8; 4] = [0xC0, 0x03, 0x5F, 0xD6];

/// What is expected of Translate if it is as the rules say, else what differs.
pub fn compare(case: &Case) -> Result<Answer, String> {
    let mut output = vec![FILL; case.room];
    let answer = expected(case, &mut output);
    let (refusal, count, end) = if !case.slot_offset.is_multiple_of(8) || case.slot_offset > 32_512
    {
        (1, 0, 0)
    } else {
        walk(&case.guest, case.pc, case.limit, case.ignore_ebreak)
    };
    let length = answer.length as usize;
    let good = if answer.refusal == 6 && refusal == 0 {
        let mut longest = vec![FILL; LONGEST];
        let whole = expected(case, &mut longest);
        whole.refusal == 0 && case.room < whole.length as usize && length == 0
    } else if answer.refusal != 0 {
        answer == Answer { refusal, ..Answer::default() }
    } else {
        (refusal, count, end) == (0, answer.count, answer.end)
            && length.is_multiple_of(4)
            && length <= longest(case.limit)
            && output[..length].ends_with(&RET)
    };
    if good && output[length..].iter().all(|&byte| byte == FILL) {
        Ok(answer)
    } else {
        Err(format!("{case:x?}: {answer:?}, the rules give {:?}", (refusal, count, end)))
    }
}

/// One instruction first, with a C.NOP after it, and after a C.NOP.
fn instruction(instr: u32, ignore_ebreak: bool, wrong: &mut Vec<String>) {
    let size = if instr & 3 == 3 { 4 } else { 2 };
    let bytes = &instr.to_le_bytes()[..size];
    let nop = [0x01, 0x00];
    let block = |guest: [&[u8]; 2]| Case { ignore_ebreak, ..Case::new(&guest.concat(), 2) };
    wrong.extend(compare(&block([bytes, &nop])).err());
    match compare(&block([&nop, bytes])) {
        Err(text) => wrong.push(text),
        Ok(answer) if answer.count == 1 && (answer.length > 12) != leaves(instr) => {
            wrong.push(format!("{instr:x}: {answer:?} against rule 7"));
        }
        Ok(_) => {}
    }
}

/// Every halfword with both flags; every opcode, funct3 and funct7 with several other fields.
fn instructions(wrong: &mut Vec<String>) -> usize {
    let mut random = Random(1);
    let mut asked = 0;
    for instr in (0..=0xffff).filter(|instr| instr & 3 != 3) {
        instruction(instr, false, wrong);
        instruction(instr, true, wrong);
        asked += 2;
    }
    for high in 0..128 << 8 {
        let fixed = (high >> 8) << 25 | (high >> 5 & 7) << 12 | (high & 31) << 2 | 3;
        for rest in [0, u32::MAX, random.next() as u32, random.next() as u32] {
            instruction(fixed | rest & 0x01ff_8f80, false, wrong);
            asked += 1;
        }
    }
    asked
}

/// Place on short stores, against whole numbers.
fn places(wrong: &mut Vec<String>) -> usize {
    let mut asked = 0;
    for size in 0..20usize {
        for used in (0..24).chain([1 << 32, u64::MAX - 3, u64::MAX]) {
            for length in 0..12usize {
                let code: Vec<u8> = (1..=length as u8).collect();
                let mut store = vec![FILL; size];
                let answer = place(&mut store, used, &code);
                let start = u128::from(used).next_multiple_of(4);
                let end = start + length as u128;
                let mut expected = vec![FILL; size];
                let numbers = if u128::from(used) > size as u128 {
                    (7, 0, 0)
                } else if end > size as u128 {
                    (8, 0, 0)
                } else {
                    expected[start as usize..end as usize].copy_from_slice(&code);
                    (0, start as u64, end as u64)
                };
                if (answer.refusal, answer.start, answer.used) != numbers || store != expected {
                    wrong.push(format!("place {size} {used} {length}: {answer:?}"));
                }
                asked += 1;
            }
        }
    }
    asked
}

/// How many questions were asked and what differs.
pub fn check() -> (usize, Vec<String>) {
    let mut wrong = Vec::new();
    let asked = instructions(&mut wrong) + places(&mut wrong);
    (asked, wrong)
}
