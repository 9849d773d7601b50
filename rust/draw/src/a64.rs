//! A64 words, and questions to A64 run and A64 run from.

use crate::case::{Case, SLOTS};
use crate::forms::{encode, near_a64, A64};
use crate::guest::Guests;
use crate::values::{value, Pool};
use crate::Random;

// Where the forms with fields of their own stand in A64.
const LDR: usize = 0;
const STR: usize = 1;
const ADD_SP: usize = 18;
const SUB_SP: usize = 19;
const RET: usize = 29;
/// The forms before BLR and RET.
const STRAIGHT: usize = 28;
/// SP changes by 16.
const SIXTEEN: u32 = 16 << 10;

/// A word of one of the forms, now and then one next to them. Most loads and stores go through X0 or SP and a small
/// offset; most changes of SP are by 16.
fn word(random: &mut Random) -> u32 {
    if random.below(256) == 0 {
        return near_a64(random);
    }
    let forms = if random.below(16) == 0 { A64.len() } else { STRAIGHT };
    let form = random.below(forms);
    let mut free = random.next() as u32;
    let plain = random.below(8) != 0;
    match form {
        LDR | STR if plain => {
            let (offset, base) = (random.below(40) as u32, random.pick(&[0, 0, 31]));
            free = offset << 10 | base << 5 | free & 31;
        }
        ADD_SP | SUB_SP if plain => free = SIXTEEN,
        _ => {}
    }
    encode(A64[form], free)
}

/// A run of `length` words of all forms but BLR, of which the last is RET; each form comes as often.
/// Loads and stores go through X0, which stays, or SP, which moves by 16 down and up again.
pub fn plain_run(random: &mut Random, length: usize) -> Vec<u8> {
    let mut block = Vec::new();
    let mut lowered = false;
    for _ in 1..length {
        let mut form = random.below(STRAIGHT);
        // X1 to X30 or none, where the form writes a register.
        let mut free = random.next() as u32 & !31 | (1 + random.below(31) as u32);
        match form {
            LDR | STR => free = free & !(31 << 5) | random.pick(&[0, 0, 0, 31]) << 5,
            ADD_SP | SUB_SP => {
                form = if lowered { ADD_SP } else { SUB_SP };
                free = SIXTEEN;
                lowered = !lowered;
            }
            _ => {}
        }
        block.extend(encode(A64[form], free).to_le_bytes());
    }
    block.extend(encode(A64[RET], 0).to_le_bytes());
    block
}

/// A question to A64 run from; where `first` is 0, to A64 run.
#[derive(Clone, Debug)]
pub struct A64Case {
    pub block: Vec<u8>,
    pub address: u64,
    pub first: u64,
    pub x: [u64; 31],
    pub sp: u64,
    pub nzcv: u64,
    pub budget: u64,
    pub memory: Vec<u8>,
    pub base: u64,
}

/// Draws questions to A64 run from.
#[derive(Default)]
pub struct A64Cases {
    guests: Guests,
    pool: Pool,
}

impl A64Cases {
    /// `translate` gives the words of a block; none where it is refused.
    pub fn case(&self, random: &mut Random, translate: impl FnOnce(&Case) -> Vec<u8>) -> A64Case {
        let (block, slot_offset) = self.block(random, translate);
        let (memory, base) = self.memory(random);
        let (x, sp) = state(random, base.wrapping_sub(slot_offset), base);
        let words = block.len() as u64 / 4;
        let first = first(random, words);
        let left = words.saturating_sub(first);
        let budget = match random.below(8) {
            0 => random.below(left as usize + 3) as u64,
            1 => left,
            2 => left.saturating_sub(1),
            3 => random.pick(&[0, 1, left + 1]),
            _ => u64::MAX,
        };
        let address = match random.below(4) {
            0 => (random.below(block.len() + 8) as u64).wrapping_neg(),
            1 => random.next(),
            _ => 0x4000,
        };
        A64Case { block, address, first, x, sp, nzcv: random.next(), budget, memory, base }
    }

    /// Block bytes and the slot offset: a translation, words of the forms, or any words.
    fn block(
        &self,
        random: &mut Random,
        translate: impl FnOnce(&Case) -> Vec<u8>,
    ) -> (Vec<u8>, u64) {
        let many = 1 + random.below(24);
        let (mut block, slot_offset) = match random.below(16) {
            0..=6 => {
                let case = Case { slot_offset: random.pick(&SLOTS), ..self.guests.case(random) };
                (translate(&case), case.slot_offset)
            }
            7..=14 => ((0..many).flat_map(|_| word(random).to_le_bytes()).collect(), 0),
            _ => (random.bytes_below(17), 0),
        };
        if random.below(8) == 0 {
            random.change_bit(&mut block);
        }
        (block, slot_offset)
    }

    /// Memory bytes and their base: at an edge of the addresses or anywhere, refusal 11 now and then.
    fn memory(&self, random: &mut Random) -> (Vec<u8>, u64) {
        let size = random.pick(&[0, 8, 255, 256, 264, 320, 512, 512, 512, 512, 512, 512]);
        let top = (size as u64).wrapping_neg();
        let base = match random.below(16) {
            0 => 0,
            1 => top,
            2 => top.wrapping_add(1 + random.below(8) as u64),
            3 => random.next(),
            4..=9 => random.next() & !15,
            _ => 0x10_0000,
        };
        (self.pool.cut(random, size), base)
    }
}

/// The number of the word to begin at: 0 half the time, inside, the last, and at or beyond the number of words.
fn first(random: &mut Random, words: u64) -> u64 {
    match random.below(16) {
        0..=7 => 0,
        8..=11 => random.below(words as usize + 1) as u64,
        12 => words.saturating_sub(1),
        13 => words,
        14 => words + 1,
        // Four times these, modulo 2^64, may be a word's offset.
        _ => random.pick(&[1 << 62, (1 << 62) + words / 2, 1 << 63, u64::MAX]),
    }
}

/// X0 to X30, and SP. X0 makes the slots lie in memory, or nearly; SP mostly points into it.
fn state(random: &mut Random, slots: u64, base: u64) -> ([u64; 31], u64) {
    let mut x = std::array::from_fn(|_| value(random));
    x[0] = match random.below(8) {
        0 => slots.wrapping_add(8 * random.below(80) as u64).wrapping_sub(8 * 8),
        1 => slots.wrapping_add(random.below(32) as u64),
        _ => slots,
    };
    let sp = match random.below(8) {
        0 => base.wrapping_add(random.below(600) as u64),
        1 => value(random),
        _ => base.wrapping_add(16 * random.below(34) as u64) & !15,
    };
    (x, sp)
}
