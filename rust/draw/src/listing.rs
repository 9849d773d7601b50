//! Questions to the listing: blocks, and the output bytes offered.

use crate::forms::{encode, near_a64, A64};
use crate::Random;

/// A word of one of the 30 forms, each as often, its fields at the edges or anywhere.
pub fn word(random: &mut Random) -> u32 {
    let form = random.pick(&A64);
    encode(form, random.pattern())
}

/// `length` words of the 30 forms, each as often, their fields anywhere.
pub fn plain_words(random: &mut Random, length: usize) -> Vec<u8> {
    let mut word = || {
        let form = random.pick(&A64);
        encode(form, random.next() as u32)
    };
    (0..length).flat_map(|_| word().to_le_bytes()).collect()
}

/// Words of the forms, now and then with words outside them, a bit changed, or cut; or random bytes.
pub fn block(random: &mut Random) -> Vec<u8> {
    let many = match random.below(32) {
        0 => random.below(300),
        1..=9 => random.below(3),
        _ => random.below(24),
    };
    let mixed = random.below(8) == 0;
    let mut word = || match random.below(8) {
        0 if mixed => random.next() as u32,
        1 if mixed => near_a64(random),
        _ => word(random),
    };
    let mut block: Vec<u8> = (0..many).flat_map(|_| word().to_le_bytes()).collect();
    match random.below(16) {
        0 | 1 => random.change_bit(&mut block),
        2 => block.truncate(random.below(block.len() + 1)),
        3 => block = random.bytes_below(17),
        _ => {}
    }
    block
}

/// The output bytes offered for a listing of so many: exactly as many, one less, none, any number below, more, much more.
pub fn room(random: &mut Random, length: usize) -> usize {
    match random.below(8) {
        0 | 1 => length,
        2 => length.max(1) - 1,
        3 => 0,
        4 => random.below(length + 1),
        5 => length + 1 + random.below(64),
        _ => length + 4_096,
    }
}

#[cfg(test)]
mod tests {
    use super::*;
    use crate::forms::is_a64;
    use crate::words;

    #[test]
    fn plain_words_are_of_the_forms() {
        let mut random = Random(1);
        let block = words(&plain_words(&mut random, 1_000));
        assert_eq!(block.len(), 1_000);
        assert!(block.iter().all(|&word| is_a64(word)));
        assert!(A64.iter().all(|&(value, fixed)| block.iter().any(|word| word & fixed == value)));
    }
}
