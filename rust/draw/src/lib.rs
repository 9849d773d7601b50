//! Cases for the operations: document 01's marked blocks, and guest code, words and states drawn from a seed.

pub mod a64;
pub mod case;
pub mod class;
pub mod forms;
pub mod guest;
pub mod index;
pub mod listing;
pub mod marked;
pub mod marked_zbb;
pub mod place;
mod random;
pub mod values;
pub mod zbb;

pub use case::Case;
pub use random::Random;

/// The most bytes of a block: 40 words for each of 64 instructions, and 6 (document 02, No. 7).
pub const LONGEST: usize = longest(64);

/// The most bytes of a block at a limit.
pub const fn longest(limit: u32) -> usize {
    let limit = if limit < 64 { limit as usize } else { 64 };
    4 * (40 * limit + 6)
}

/// The little-endian words of a block.
pub fn words(block: &[u8]) -> Vec<u32> {
    block.as_chunks().0.iter().map(|&word| u32::from_le_bytes(word)).collect()
}
