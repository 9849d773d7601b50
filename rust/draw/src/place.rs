//! Questions to Place: short stores around every boundary.

use crate::Random;

/// A question to Place.
#[derive(Clone, Debug)]
pub struct PlaceCase {
    pub store: Vec<u8>,
    pub used: u64,
    pub code: Vec<u8>,
}

impl PlaceCase {
    /// A store of `size` bytes. `used` and `length` choose how these are drawn, modulo 16 and 4: used far beyond the
    /// store, a little beyond it, all of it, else inside; code that fits exactly, is a byte too long, else any.
    pub fn draw(random: &mut Random, size: usize, used: usize, length: usize) -> PlaceCase {
        let used = match used % 16 {
            0 => random.pick(&[1 << 32, 1 << 63, u64::MAX - 3, u64::MAX - 2, u64::MAX]),
            1 => size as u64 + 1 + random.below(4) as u64,
            2 => size as u64,
            _ => random.below(size + 1) as u64,
        };
        let start = u128::from(used).next_multiple_of(4);
        let left = (size as u128).saturating_sub(start) as usize;
        let length = match length % 4 {
            0 => left,
            1 => left + 1,
            _ => random.below(left + 2),
        };
        PlaceCase { store: random.bytes(size), used, code: random.bytes(length) }
    }
}
