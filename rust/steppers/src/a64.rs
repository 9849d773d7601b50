//! A64 run: document 01's 24 forms and document 02's six of No. 7, by the Arm Architecture Reference Manual.

#[derive(Clone, Copy, Debug, PartialEq, Eq)]
pub struct A64State {
    pub x: [u64; 31],
    pub sp: u64,
    /// The low four bits count, N highest.
    pub nzcv: u64,
}

impl A64State {
    /// The state as the library takes it: X0 to X30, SP, NZCV, eight little-endian bytes each.
    pub fn to_bytes(&self) -> [u8; 264] {
        let mut bytes = [0; 264];
        let numbers = self.x.into_iter().chain([self.sp, self.nzcv]);
        for (eight, number) in bytes.as_chunks_mut().0.iter_mut().zip(numbers) {
            *eight = number.to_le_bytes();
        }
        bytes
    }
}

#[derive(Clone, Copy, Debug, PartialEq, Eq)]
pub struct A64Answer {
    pub refusal: u32,
    pub end: u32,
    pub steps: u64,
}

pub const OFF_THE_END: u32 = 1;
pub const SPENT: u32 = 2;
pub const UNREADABLE: u32 = 3;
pub const FAULT: u32 = 4;
pub const RETURNED: u32 = 5;
pub const CALLED: u32 = 6;

/// Runs the block from word 0. `address` is that of word 0, `base` that of the memory's first byte.
pub fn a64_run(
    block: &[u8],
    address: u64,
    state: &mut A64State,
    budget: u64,
    memory: &mut [u8],
    base: u64,
) -> A64Answer {
    run_from(block, address, 0, state, budget, memory, base)
}

/// Runs the block from the word numbered `first` on; `address` is still that of word 0.
pub fn a64_run_from(
    block: &[u8],
    address: u64,
    first: u64,
    state: &mut A64State,
    budget: u64,
    memory: &mut [u8],
    base: u64,
) -> A64Answer {
    run_from(block, address, first, state, budget, memory, base)
}

// Inlined, so that A64 run is compiled for word 0.
#[inline(always)]
fn run_from(
    block: &[u8],
    address: u64,
    first: u64,
    state: &mut A64State,
    budget: u64,
    memory: &mut [u8],
    base: u64,
) -> A64Answer {
    let (words, rest) = block.as_chunks::<4>();
    if !rest.is_empty() {
        return A64Answer { refusal: 10, end: 0, steps: 0 };
    }
    if u128::from(base) + memory.len() as u128 > 1 << 64 {
        return A64Answer { refusal: 11, end: 0, steps: 0 };
    }

    state.nzcv &= 15;
    let left = usize::try_from(first).ok().and_then(|first| words.get(first..)).unwrap_or_default();
    let address = address.wrapping_add(first.wrapping_mul(4));
    let mut steps = 0;
    let mut end = OFF_THE_END;
    for word in left {
        if steps == budget {
            end = SPENT;
            break;
        }
        let next = address.wrapping_add(4 * (steps + 1));
        match step(u32::from_le_bytes(*word), next, state, memory, base) {
            Ok(()) => steps += 1,
            Err(stop) => {
                end = stop;
                steps += u64::from(stop >= RETURNED);
                break;
            }
        }
    }
    A64Answer { refusal: 0, end, steps }
}

/// One word, or why the run ends at it.
#[inline(always)]
fn step(
    word: u32,
    next: u64,
    state: &mut A64State,
    memory: &mut [u8],
    base: u64,
) -> Result<(), u32> {
    let rd = (word & 31) as usize;
    let rn = (word >> 5 & 31) as usize;
    let rm = (word >> 16 & 31) as usize;
    let imm12 = word >> 10 & 0xFFF;
    // Register 31 is past the end of the 31: it reads 0 and takes nothing.
    let read = |r: usize| state.x.get(r).copied().unwrap_or(0);
    let (a, b) = (read(rn), read(rm));
    let low = word & 0x00E0_FC00; // all but the registers of a three-register word

    let value = match word >> 24 {
        0x8B if low == 0 => a.wrapping_add(b),
        0xCB if low == 0 => a.wrapping_sub(b),
        0x8A if low == 0 => a & b,
        0xAA if low == 0 => a | b,
        0xCA if low == 0 => a ^ b,
        // BIC, ORN, EON
        0x8A if low == 0x20_0000 => a & !b,
        0xAA if low == 0x20_0000 => a | !b,
        0xCA if low == 0x20_0000 => a ^ !b,
        0x9A => match low {
            0xC0_2000 => a << (b & 63),
            0xC0_2400 => a >> (b & 63),
            0xC0_2800 => (a as i64 >> (b & 63)) as u64,
            0xC0_2C00 => a.rotate_right((b & 63) as u32),
            0xC0_0800 => a.checked_div(b).unwrap_or(0),
            0xC0_0C00 if b == 0 => 0,
            0xC0_0C00 => (a as i64).wrapping_div(b as i64) as u64,
            // CSEL
            _ if low & 0xE0_0C00 == 0x80_0000 => {
                if holds(word >> 12 & 15, state.nzcv) {
                    a
                } else {
                    b
                }
            }
            _ => return Err(UNREADABLE),
        },
        0x9B => match low {
            0x00_7C00 => a.wrapping_mul(b),
            0x40_7C00 => ((i128::from(a as i64) * i128::from(b as i64)) >> 64) as u64,
            0xC0_7C00 => ((u128::from(a) * u128::from(b)) >> 64) as u64,
            _ => return Err(UNREADABLE),
        },
        // REV, CLZ
        0xDA if word & 0xFF_FC00 == 0xC0_0C00 => a.swap_bytes(),
        0xDA if word & 0xFF_FC00 == 0xC0_1000 => a.leading_zeros().into(),
        // SXTW
        0x93 if word & 0xFF_FC00 == 0x40_7C00 => a as i32 as u64,
        // MOVZ, MOVK
        0xD2 if word & 0x80_0000 != 0 => u64::from(word >> 5 & 0xFFFF) << (word >> 17 & 0x30),
        0xF2 if word & 0x80_0000 != 0 => {
            let shift = word >> 17 & 0x30;
            read(rd) & !(0xFFFF << shift) | u64::from(word >> 5 & 0xFFFF) << shift
        }
        // CMP
        0xEB if low == 0 && rd == 31 => {
            state.nzcv = compare(a, b);
            return Ok(());
        }
        // ADD SP, SUB SP
        0x91 if word & 0xC0_03FF == 0x03FF => {
            state.sp = state.sp.wrapping_add(u64::from(imm12));
            return Ok(());
        }
        0xD1 if word & 0xC0_03FF == 0x03FF => {
            state.sp = state.sp.wrapping_sub(u64::from(imm12));
            return Ok(());
        }
        // LDR, STR
        0xF9 if word & 0x80_0000 == 0 => {
            if rn == 31 && !state.sp.is_multiple_of(16) {
                return Err(FAULT);
            }
            let from = if rn == 31 { state.sp } else { a };
            let slot = slot(memory, from.wrapping_add(u64::from(imm12) * 8), base).ok_or(FAULT)?;
            if word & 0x40_0000 == 0 {
                *slot = read(rd).to_le_bytes();
                return Ok(());
            }
            u64::from_le_bytes(*slot)
        }
        0xD6 if word == 0xD65F_03C0 => return Err(RETURNED),
        0xD6 if word & 0xFF_FC1F == 0x3F_0000 => {
            state.x[30] = next;
            return Err(CALLED);
        }
        _ => return Err(UNREADABLE),
    };
    if let Some(x) = state.x.get_mut(rd) {
        *x = value;
    }
    Ok(())
}

/// The eight bytes at an address that is a multiple of 8, if all lie in memory.
#[inline(always)]
fn slot(memory: &mut [u8], address: u64, base: u64) -> Option<&mut [u8; 8]> {
    if !address.is_multiple_of(8) {
        return None;
    }
    let offset = usize::try_from(address.wrapping_sub(base)).ok()?;
    memory.get_mut(offset..)?.first_chunk_mut()
}

/// The flags of `a - b`, as AddWithCarry(a, NOT(b), 1) gives them.
#[inline(always)]
fn compare(a: u64, b: u64) -> u64 {
    let (result, overflow) = (a as i64).overflowing_sub(b as i64);
    u64::from(result < 0) << 3
        | u64::from(result == 0) << 2
        | u64::from(a >= b) << 1
        | u64::from(overflow)
}

/// ConditionHolds: 14 and 15 always do.
#[inline(always)]
fn holds(cond: u32, nzcv: u64) -> bool {
    let (n, z, c, v) = (nzcv & 8 != 0, nzcv & 4 != 0, nzcv & 2 != 0, nzcv & 1 != 0);
    let result = match cond >> 1 {
        0 => z,
        1 => c,
        2 => n,
        3 => v,
        4 => c && !z,
        5 => n == v,
        6 => n == v && !z,
        _ => return true,
    };
    result != (cond & 1 == 1)
}

#[cfg(test)]
mod tests {
    use super::*;
    use draw::forms::{encode, is_a64, A64};
    use draw::Random;

    const RET: u32 = 0xD65F_03C0;
    const BLR_X16: u32 = 0xD63F_0200;
    const BEFORE: A64State = A64State { x: [7; 31], sp: 3, nzcv: u64::MAX };
    /// Beyond two words; four times the second and third, modulo 2^64, is a word's offset.
    const BEYOND: [u64; 6] = [2, 3, 1 << 62, (1 << 62) + 1, 1 << 63, u64::MAX];

    fn bytes(words: &[u32]) -> Vec<u8> {
        words.iter().flat_map(|word| word.to_le_bytes()).collect()
    }

    /// Runs at address 0 with 16 bytes of memory, which stay: the answer and the state.
    fn run(block: &[u8], first: u64, budget: u64, base: u64) -> (A64Answer, A64State) {
        let (mut state, mut memory) = (BEFORE, [9; 16]);
        let answer = a64_run_from(block, 0, first, &mut state, budget, &mut memory, base);
        assert_eq!(memory, [9; 16]);
        if first == 0 {
            let mut whole = BEFORE;
            let same = a64_run(block, 0, &mut whole, budget, &mut memory, base);
            assert_eq!((same, whole, memory), (answer, state, [9; 16]));
        }
        (answer, state)
    }

    #[test]
    fn refusals_change_nothing() {
        let refused = |refusal| (A64Answer { refusal, end: 0, steps: 0 }, BEFORE);
        for first in [0, 1].into_iter().chain(BEYOND) {
            for length in [1, 2, 3, 5, 7] {
                assert_eq!(run(&vec![0; length], first, 9, u64::MAX - 14), refused(10));
            }
            for base in [u64::MAX - 14, u64::MAX] {
                assert_eq!(run(&[], first, 0, base), refused(11));
                assert_eq!(run(&bytes(&[RET, RET]), first, 9, base), refused(11));
            }
        }
    }

    /// No word is left from the start, whatever the budget.
    #[test]
    fn beyond_the_last_is_off_the_end() {
        let end = A64Answer { refusal: 0, end: OFF_THE_END, steps: 0 };
        let after = A64State { nzcv: 15, ..BEFORE };
        for budget in [0, 1, u64::MAX] {
            for first in BEYOND {
                assert_eq!(run(&bytes(&[RET, RET]), first, budget, 0), (end, after));
            }
            for first in [0, 1].into_iter().chain(BEYOND) {
                assert_eq!(run(&[], first, budget, u64::MAX - 15), (end, after));
            }
        }
    }

    /// Steps count from 0, and X30 is the address of the word after BLR, whichever word was the first.
    #[test]
    fn begins_at_its_word() {
        let mut words = [0xD280_0020; 9]; // MOVZ X0, #1
        words[6] = BLR_X16;
        for (first, address) in (0..7).flat_map(|first| [0, 0x4000, !0 - 27].map(|at| (first, at)))
        {
            let left = 7 - first;
            for (budget, end) in (0..9).map(|b| (b, if b < left { SPENT } else { CALLED })) {
                let mut state = BEFORE;
                let block = bytes(&words);
                let answer = a64_run_from(&block, address, first, &mut state, budget, &mut [], 0);
                assert_eq!(answer, A64Answer { refusal: 0, end, steps: budget.min(left) });
                let link = if end == CALLED { address.wrapping_add(28) } else { 7 };
                let x0 = if answer.steps == 0 || left == 1 { 7 } else { 1 };
                assert_eq!((state.x[0], state.x[30]), (x0, link), "{first} {address:x} {budget}");
            }
        }
    }

    /// Each form with many fields, and the words one or two bits away.
    #[test]
    fn readable_words_are_the_forms() {
        let mut random = Random(1);
        for form in A64 {
            for _ in 0..100 {
                let word = encode(form, random.next() as u32);
                for (i, j) in (0..32).flat_map(|i| (0..33).map(move |j| (i, j))) {
                    let word = word ^ 1 << i ^ (1_u64 << j) as u32;
                    let mut state = A64State { x: [0; 31], sp: 0, nzcv: 0 };
                    let answer = a64_run(&word.to_le_bytes(), 0, &mut state, 1, &mut [], 0);
                    assert_eq!(answer.end != UNREADABLE, is_a64(word), "{word:08x}");
                }
            }
        }
    }
}
