//! What registers and memory hold.

use crate::Random;

const EDGES: [u64; 12] = [
    0,
    1,
    u64::MAX,
    1 << 63,
    (1 << 63) - 1,
    1 << 31,
    (1 << 31) - 1,
    0xFFFF_FFFF,
    0xFFFF_FFFF_8000_0000,
    0xFFFF_FFFF_7FFF_FFFF,
    1 << 32,
    0xFFFF_0000_FFFF_0000,
];

/// A register's value, edges more often than the rest.
pub fn value(random: &mut Random) -> u64 {
    let any = random.next();
    match any >> 61 {
        0 | 1 => EDGES[(any % 12) as usize],
        2 => any % 65,
        3 => (any % 65).wrapping_neg(),
        4 => 1 << (any % 64),
        5 => any as i32 as u64,
        6 => bytes(random.next()),
        _ => random.next(),
    }
}

/// Bytes of which half are 0, and some 1, 0x80 or 0xff.
fn bytes(any: u64) -> u64 {
    u64::from_le_bytes(any.to_le_bytes().map(|byte| match byte >> 5 {
        0..=3 => 0,
        4 => 1,
        5 => 0x80,
        6 => 0xFF,
        _ => byte,
    }))
}

/// The 32 registers of RV64, or what their slots hold; register 0's entry is anything.
pub fn registers(mut value: impl FnMut() -> u64) -> [u64; 32] {
    std::array::from_fn(|_| value())
}

/// Bytes that memories are cut from.
pub struct Pool(Vec<u8>);

impl Default for Pool {
    fn default() -> Pool {
        Pool(Random(0).bytes(0x1_0000))
    }
}

impl Pool {
    pub fn cut(&self, random: &mut Random, size: usize) -> Vec<u8> {
        let from = random.below(self.0.len() - size);
        self.0[from..from + size].to_vec()
    }
}

/// Memory with the 32 slots and the 16 bytes below SP in it.
#[derive(Clone, Debug)]
pub struct Layout {
    pub base: u64,
    pub size: usize,
    /// Where in memory the slots begin, and the 16 bytes.
    pub slots: usize,
    pub stack: usize,
}

impl Layout {
    /// The slots at a multiple of 8, the 16 bytes at one of 16 below or above them, side by side or apart, at times with bytes
    /// around. One in four begins at 0, one in four ends at 2^64, there at times with SP 0.
    pub fn draw(random: &mut Random) -> Layout {
        let any = random.below(40);
        let gap = 8 * random.pick(&[0, 0, 1, 2, any]);
        let (slots, stack) = if random.below(2) == 0 { (16 + gap, 0) } else { (0, 256 + gap) };
        let both = 272 + gap as u64;
        let around = |random: &mut Random| if random.below(2) == 0 { 0 } else { random.below(40) };
        let (before, after) = (around(random) as u64, around(random) as u64);
        // The address of the first of the two, so that the stack is at a multiple of 16.
        let aligned = |first: u64| (first.wrapping_add(stack as u64) & !15) - stack as u64;
        let (base, first, after) = match random.below(4) {
            0 => (0, aligned(before + 15), after),
            1 => {
                let first = aligned((both + after).wrapping_neg());
                (first - before, first, first.wrapping_add(both).wrapping_neg())
            }
            _ => {
                let first = aligned(random.next() >> 1 | 1 << 16);
                (first - before, first, after)
            }
        };
        let before = (first - base) as usize;
        let size = before + both as usize + after as usize;
        Layout { base, size, slots: before + slots, stack: before + stack }
    }

    /// SP, modulo 2^64.
    pub fn sp(&self) -> u64 {
        self.base.wrapping_add(self.stack as u64 + 16)
    }
}

#[cfg(test)]
mod tests {
    use super::*;

    /// Aligned, apart, inside memory; every edge is among them.
    #[test]
    fn layouts() {
        let mut random = Random(1);
        let mut met = [0; 9];
        for _ in 0..10_000 {
            let layout = Layout::draw(&mut random);
            let Layout { base, size, slots, stack } = layout;
            let end = u128::from(base) + size as u128;
            assert!(slots + 256 <= size && stack + 16 <= size && end <= 1 << 64, "{layout:x?}");
            assert!(slots + 256 <= stack || stack + 16 <= slots, "{layout:x?}");
            assert!(layout.sp().is_multiple_of(16), "{layout:x?}");
            assert!((base + slots as u64).is_multiple_of(8), "{layout:x?}");
            let edges = [
                base == 0,
                end == 1 << 64,
                layout.sp() == 0,
                end == 1 << 64 && slots + 256 == size,
                slots + 256 == stack,
                stack + 16 == slots,
                size == 272,
                size > 400,
                base % 8 != 0,
            ];
            met.iter_mut().zip(edges).for_each(|(met, edge)| *met += edge as usize);
        }
        assert!(met.iter().all(|&number| number >= 100), "{met:?}");
    }
}
