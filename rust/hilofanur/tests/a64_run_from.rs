//! Document 02, No. 5: A64 run goes on after a call, at a word that the caller names; blocks that a helper ends.
//! Words, arguments and steps worked out by hand.

use hilofanur::{a64_run, a64_run_from, translate, LONGEST_BLOCK};
use hilofanur::{A64Run, A64State, End, EndKind, Guest, Host, Memory, Refusal, Words};

const HOST: Host =
    Host { slot_offset: 8, memory_helper: 0x10000, helper32: 0x20000, helper16: 0x30000 };
const PC: u64 = 0x1000;

fn bytes(words: &[u32]) -> Vec<u8> {
    words.iter().flat_map(|word| word.to_le_bytes()).collect()
}

/// Xn is n + 0x100.
fn state(sp: u64) -> A64State {
    A64State { x: std::array::from_fn(|n| n as u64 + 0x100), sp, nzcv: 9 }
}

/// From the word numbered `first`, without memory.
fn run_from(
    (block, address): (&[u8], u64),
    first: u64,
    state: &mut A64State,
    budget: u64,
) -> Result<A64Run, Refusal> {
    let none = Memory { bytes: &mut [], base: 0 };
    a64_run_from(Words { bytes: block, address }, first, state, budget, none)
}

/// MOVZ X0, #0, MOVZ X1, #1, .., MOVZ X7, #7, RET: those from `first` on are done, as many as the budget has, and the
/// steps count from 0.
#[test]
fn begins_at_its_word() {
    let mut words: Vec<u32> = (0..8).map(|n| 0xD280_0000 | n << 5 | n).collect();
    words.push(0xD65F_03C0);
    for (first, budget) in (0..9).flat_map(|first| (0..11).map(move |budget| (first, budget))) {
        let (mut after, left) = (state(3), 9 - first);
        let run = run_from((&bytes(&words), 0), first, &mut after, budget);
        let end = if budget < left { End::Spent } else { End::Returned };
        assert_eq!(run, Ok(A64Run { end, steps: budget.min(left) }), "{first} {budget}");
        let mut expected = state(3);
        for n in first..8.min(first + budget) {
            expected.x[n as usize] = n;
        }
        assert_eq!(after, expected, "{first} {budget}");
    }
}

/// `address` is that of word 0: X30 is the address of the word after BLR, whichever word was the first.
#[test]
fn link_counts_from_word_0() {
    let mut words = [0xD280_0009; 9]; // MOVZ X9, #0
    words[6] = 0xD63F_0200; // BLR X16
    for address in [0, 4, 0x4000, 1 << 63, !0 - 31, !0 - 27, !0 - 26, !0 - 3, !0] {
        for first in 0..7 {
            let mut after = state(3);
            let run = run_from((&bytes(&words), address), first, &mut after, 9);
            assert_eq!(run, Ok(A64Run { end: End::Called, steps: 7 - first }));
            assert_eq!(after.x[30], address.wrapping_add(4 * 7), "{address:x} {first}");
        }
    }
}

/// A fault, an unreadable word and the end are met after the first word as at it.
#[test]
fn ends_after_its_word() {
    // MOVZ X1, #0; LDR X2, [X1]; MOVZ X1, #0; no word of the forms; MOVZ X1, #0.
    let block = bytes(&[0xD280_0001, 0xF940_0022, 0xD280_0001, 0, 0xD280_0001]);
    let rows = [(0, End::Fault), (2, End::Unreadable), (4, End::OffTheEnd)];
    for (first, end) in rows {
        let run = run_from((&block, 0), first, &mut state(3), 9);
        assert_eq!(run, Ok(A64Run { end, steps: 1 }));
        let run = run_from((&block, 0), first + 1, &mut state(3), 9);
        assert_eq!(run, Ok(A64Run { end, steps: 0 }));
    }
}

/// A block that a helper ends: at the call the helper's address and its arguments, from X0 on; the words up to the
/// call and after it.
struct Row {
    guest: &'static [u8],
    count: u32,
    helper: u64,
    arguments: &'static [u64],
    steps: [u64; 2],
}

/// Register n is 0x1000 * n at entry, and C.LI changes x13.
const ROWS: [Row; 4] = [
    // ld x10, 8(x11)
    Row {
        guest: &[0x03, 0xB5, 0x85, 0x00],
        count: 1,
        helper: 0x10000,
        arguments: &[0x101, 0x102, 0x103, 3, 10, 0, 0xB008, PC],
        steps: [16, 3],
    },
    // c.li x13, -1; sw x12, -4(x13)
    Row {
        guest: &[0xFD, 0x56, 0x23, 0xAE, 0xC6, 0xFE],
        count: 2,
        helper: 0x10000,
        arguments: &[0x101, 0x102, 0x103, 18, 28, 0xC000, u64::MAX - 4, PC + 2],
        steps: [25, 5],
    },
    // amoadd.w x0, x0, (x0)
    Row {
        guest: &[0x2F, 0x20, 0x00, 0x00],
        count: 1,
        helper: 0x20000,
        arguments: &[0x101, 0x102, 0x103, 0x104, 0x105, 0x202F, PC],
        steps: [12, 3],
    },
    // c.nop, c.nop, c.lw x8, 0(x8)
    Row {
        guest: &[0x01, 0x00, 0x01, 0x00, 0x00, 0x40],
        count: 3,
        helper: 0x30000,
        arguments: &[0x101, 0x102, 0x103, 0x104, 0x105, 0x4000, PC + 4],
        steps: [12, 5],
    },
];

/// Where the 16 bytes below SP stand in memory, between the slots and the rest.
const STACK: usize = 256;

impl Row {
    fn block(&self) -> Vec<u8> {
        let guest = Guest { bytes: self.guest, pc: PC, limit: 64, ignore_ebreak: false };
        let mut output = vec![0; LONGEST_BLOCK];
        let block = translate(&guest, &HOST, &mut output).unwrap();
        assert_eq!((block.count, block.end_kind), (self.count, EndKind::Helper));
        output.truncate(block.length);
        output
    }

    /// What the slots hold at the call.
    fn slots(&self, memory: &mut [u8]) {
        if self.guest[..2] == [0xFD, 0x56] {
            memory[8 * 13..8 * 14].fill(0xFF);
        }
    }

    /// With SP after the slots and 16 bytes, and `after` bytes of memory after SP.
    fn hold(&self, base: u64, after: usize, address: u64) {
        let block = &self.block();
        let words = Words { bytes: block, address };
        let mut entry = state(base.wrapping_add(STACK as u64 + 16));
        entry.x[0] = base.wrapping_sub(HOST.slot_offset);
        let mut memory: Vec<u8> = (0..32).flat_map(|n| (0x1000_u64 * n).to_le_bytes()).collect();
        memory.extend(vec![0xA5; 16 + after]);
        self.call(words, &entry, Memory { bytes: &mut memory, base });
        self.go_on(words, &entry, Memory { bytes: &mut memory, base });
    }

    /// Up to the call.
    fn call(&self, words: Words, entry: &A64State, Memory { bytes: memory, base }: Memory) {
        let (mut state, steps, number) = (*entry, self.steps[0], self.arguments.len());
        let mut expected = memory.to_vec();
        self.slots(&mut expected);
        expected[STACK..STACK + 8].copy_from_slice(&entry.x[30].to_le_bytes());
        let run = a64_run(words, &mut state, steps, Memory { bytes: memory, base });
        assert_eq!(run, Ok(A64Run { end: End::Called, steps }));
        assert_eq!((state.x[16], &state.x[..number]), (self.helper, self.arguments));
        assert_eq!(state.sp, entry.sp.wrapping_sub(16));
        assert_eq!(state.x[30], words.address.wrapping_add(4 * steps));
        assert_eq!((&state.x[18..30], memory), (&entry.x[18..30], &mut expected[..]));
    }

    /// After it, where the helper has changed all that it may.
    fn go_on(&self, words: Words, entry: &A64State, Memory { bytes: memory, base }: Memory) {
        let (slots, rest) = memory.split_at_mut(STACK);
        slots.iter_mut().chain(&mut rest[8..]).for_each(|byte| *byte = !*byte);
        let mut expected = memory.to_vec();
        let x: [u64; 31] = std::array::from_fn(|n| !(n as u64));
        let mut state = A64State { x, sp: entry.sp.wrapping_sub(16), nzcv: u64::MAX };
        let [first, steps] = self.steps;
        let lent = Memory { bytes: memory, base };
        let run = a64_run_from(words, first, &mut state, steps, lent);
        assert_eq!(run, Ok(A64Run { end: End::Returned, steps }));
        let count = x[1].wrapping_add(u64::from(self.count) - 1);
        assert_eq!((state.x[0], state.x[1]), (x[0], count));
        assert_eq!((state.sp, state.x[30]), (entry.sp, entry.x[30]));
        assert_eq!((&state.x[18..30], memory), (&x[18..30], &mut expected[..]));
    }
}

#[test]
fn helper_blocks() {
    for row in ROWS {
        row.hold(0x8000, 24, 0x4_0000);
        row.hold(0, 0, u64::MAX - 3);
        // SP is 0: memory ends at 2^64.
        row.hold(u64::MAX - 271, 0, 0);
    }
}
