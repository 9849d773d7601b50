//! emuko's own translator, built from its source text, under document 01's operations.

mod emuko;
pub mod program;
pub mod record;
pub mod rows;
pub mod rules;
mod zbb;

use draw::case::DROP;
use draw::class::{first, instruction, Class};
use draw::{Case, LONGEST};
pub use emuko::{compressed_immediates, decode, place, translate, Answer, Decoded, Placed};

/// Whether the Rust is built with its overflow checks and assertions.
pub const CHECKED: bool = cfg!(debug_assertions);

/// Opcode and funct3 of FENCE.I.
const FENCE_I: (u8, u8) = (0x0f, 1);

/// What the Rust answers to a question at this limit; `output` takes the block. FENCE.I ends nothing there.
pub fn ask_rust(case: &Case, limit: u32, output: &mut [u8]) -> Answer {
    let Case { guest, pc, ignore_ebreak, slot_offset, helpers, .. } = case;
    translate(guest, *pc, limit, *ignore_ebreak, *slot_offset, *helpers, output)
}

/// C.NOP, which has no words.
const NOP: [u8; 2] = [0x01, 0x00];

/// What Translate must answer to a question; `output` takes the block: the Rust's up to FENCE.I, with the words of Zbb
/// where the block reaches it, each load from slot 0 read as MOVZ with 0 (document 02, No. 6).
pub fn expected(case: &Case, output: &mut [u8]) -> Answer {
    let answer = match up_to_last_zbb(case) {
        None => up_to_fence_i(case, output),
        Some((words, rest)) => behind(&words, &rest, output),
    };
    without_slot_0(case.slot_offset, &mut output[..answer.length as usize]);
    answer
}

/// The block that begins with these bytes, and goes on as the Rust's for `rest`.
fn behind(front: &[u8], rest: &Case, output: &mut [u8]) -> Answer {
    let mut block = [0; LONGEST];
    let answer = up_to_fence_i(rest, &mut block);
    let length = front.len() + answer.length as usize;
    let Some(output) = output.get_mut(..length) else {
        return Answer { refusal: 6, ..Answer::default() };
    };
    output[..front.len()].copy_from_slice(front);
    output[front.len()..].copy_from_slice(&block[..answer.length as usize]);
    Answer { length: length as u32, ..answer }
}

/// The bytes of a block up to the last instruction of Zbb that it reaches, and what is left of the question; none
/// where it reaches none. C.NOPs stand in what is left for the instructions that are done: they have no words, and so
/// count, next PC and helper are the whole block's.
fn up_to_last_zbb(case: &Case) -> Option<(Vec<u8>, Case)> {
    first_zbb(case)?;
    let nop = Case { guest: NOP.to_vec(), ..case.clone() };
    if ask_rust(&nop, case.limit, &mut [0; LONGEST]).refusal != 0 {
        return None;
    }
    let (mut block, mut rest, mut done) = (Vec::new(), case.clone(), 0);
    while let Some((number, at, instr)) = first_zbb(&rest) {
        if number > done {
            block.extend(before(&rest, number, at));
        }
        let words = zbb::words(instr, case.slot_offset)?;
        block.extend(words.iter().flat_map(|word| word.to_le_bytes()));
        done = number + 1;
        rest = after(&rest, done, at + 4);
    }
    Some((block, rest))
}

/// The first instruction of Zbb that a block reaches: how many are before it, their bytes, and the instruction.
fn first_zbb(case: &Case) -> Option<(u32, usize, u32)> {
    let mut at = 0;
    for number in 0..case.limit.min(64) {
        let guest = &case.guest[at..];
        let (Class::Next, size) = first(guest, case.ignore_ebreak)? else { return None };
        let instr = instruction(guest)?;
        if draw::zbb::kind(instr).is_some() {
            return Some((number, at, instr));
        }
        at += size;
    }
    None
}

/// What the Rust has of the first `number` instructions, which are `at` bytes and go on, without the block's end: next
/// PC into X0, count into X1, RET.
fn before(case: &Case, number: u32, at: usize) -> Vec<u8> {
    let upto = Case { guest: case.guest[..at].to_vec(), ..case.clone() };
    let mut block = vec![0; LONGEST];
    let answer = ask_rust(&upto, number, &mut block);
    assert_eq!((answer.refusal, answer.count), (0, number), "{upto:x?}");
    block.truncate(answer.length as usize);
    let pc = zbb::constant(0, case.pc.wrapping_add(at as u64));
    let end = [pc, zbb::constant(1, number.into()), vec![0xD65F_03C0]].concat();
    for word in end.iter().rev() {
        assert_eq!(block.split_off(block.len() - 4), word.to_le_bytes(), "{upto:x?}");
    }
    block
}

/// The question from the byte `from` on, with C.NOPs for the `done` instructions before it.
fn after(case: &Case, done: u32, from: usize) -> Case {
    let nops = NOP.repeat(done as usize);
    let pc = case.pc.wrapping_add(from as u64).wrapping_sub(nops.len() as u64);
    Case { guest: [&nops, &case.guest[from..]].concat(), pc, ..case.clone() }
}

/// Where FENCE.I is among the instructions that the Rust counts, the Rust's block at the limit that the first one
/// meets, and its end kind is drop (document 02, No. 3).
fn up_to_fence_i(case: &Case, output: &mut [u8]) -> Answer {
    let whole = ask_rust(case, case.limit, &mut [0; LONGEST]);
    let Some(number) = first_fence_i(&case.guest, whole.count) else {
        return ask_rust(case, case.limit, output);
    };
    match ask_rust(case, number, output) {
        answer if answer.refusal == 0 => Answer { end: DROP, ..answer },
        refused => refused,
    }
}

/// LDR with base X0 and the slot offset becomes MOVZ with 0, into the same register.
fn without_slot_0(slot_offset: u64, block: &mut [u8]) {
    let load = 0xF940_0000 | (slot_offset as u32 / 8) << 10;
    for bytes in block.as_chunks_mut().0 {
        let word = u32::from_le_bytes(*bytes);
        if word & !31 == load {
            *bytes = (0xD280_0000 | word & 31).to_le_bytes();
        }
    }
}

/// The number, from 1, of the first FENCE.I among the first `count` instructions, which are all there.
fn first_fence_i(guest: &[u8], count: u32) -> Option<u32> {
    let mut rest = guest;
    (1..=count).find(|_| {
        let short = rest[0] & 3 != 3;
        let (instr, after) = rest.split_at(if short { 2 } else { 4 });
        rest = after;
        let fields = instr.first_chunk().map(|word| decode(u32::from_le_bytes(*word)));
        fields.is_some_and(|fields| (fields.opcode, fields.funct3) == FENCE_I)
    })
}
