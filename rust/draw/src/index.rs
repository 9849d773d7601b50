//! Questions to the index: sequences of calls on one index and one store.

use crate::Random;
use std::collections::HashMap;

/// Space and PC.
pub type Key = (u64, u64);

/// A call; a placing has so many bytes of code.
#[derive(Clone, Copy, Debug, PartialEq, Eq)]
pub enum Call {
    Empty,
    Lookup(Key),
    Place { key: Key, count: u8, length: usize },
}

/// The library's hash: FNV-1a, 32 bits, over the space, then the PC, each lowest byte first.
pub fn hash((space, pc): Key) -> u32 {
    let bytes = space.to_le_bytes().into_iter().chain(pc.to_le_bytes());
    bytes.fold(0x811C_9DC5, |hash, byte| (hash ^ u32::from(byte)).wrapping_mul(0x0100_0193))
}

pub fn key(random: &mut Random) -> Key {
    (random.next(), random.next())
}

/// Any keys, at least `fewest` and fewer than `bound`.
fn keys(random: &mut Random, fewest: usize, bound: usize) -> Vec<Key> {
    let number = fewest + random.below(bound - fewest);
    (0..number).map(|_| key(random)).collect()
}

/// Keys that the hash does not tell apart.
pub struct Keys {
    /// Pairs that agree in all 32 bits.
    pairs: Vec<Key>,
    /// Keys that agree in the hash modulo 2,048.
    bucket: Vec<Key>,
}

impl Default for Keys {
    /// Of 2^18 keys some 8 pairs agree in 32 bits, and some 128 keys in 11 of them.
    fn default() -> Keys {
        let mut random = Random(0);
        let mut seen = HashMap::new();
        let mut keys = Keys { pairs: Vec::new(), bucket: Vec::new() };
        for _ in 0..1 << 18 {
            let key = key(&mut random);
            let hash = hash(key);
            if let Some(other) = seen.insert(hash, key) {
                keys.pairs.extend([other, key]);
            }
            if hash.is_multiple_of(2_048) {
                keys.bucket.push(key);
            }
        }
        keys
    }
}

impl Keys {
    /// Too few keys to fill the index: any, pairs, or those of one bucket.
    fn few(&self, random: &mut Random) -> Vec<Key> {
        match random.below(3) {
            0 => keys(random, 1, 7),
            1 => self.pairs.clone(),
            _ => self.bucket[..2 + random.below(self.bucket.len() - 1)].to_vec(),
        }
    }

    /// More keys than the index takes: small numbers with space and PC both ways round, pairs and others, a little above
    /// 512, or many.
    fn many(&self, random: &mut Random) -> Vec<Key> {
        match random.below(4) {
            0 => (0..576).map(|n| (n / 24, n % 24)).collect(),
            1 => [self.pairs.clone(), keys(random, 513, 613)].concat(),
            2 => keys(random, 513, 613),
            _ => keys(random, 600, 2_600),
        }
    }
}

/// Calls to one index with one store.
#[derive(Clone, Debug)]
pub struct Sequence {
    /// The store's bytes.
    pub store: usize,
    /// The keys, but for some that are looked up only.
    pub keys: Vec<Key>,
    /// The calls left.
    pub left: usize,
    /// The fewest and the most words of most blocks.
    words: (usize, usize),
    /// One call in so many empties the index.
    empty: usize,
    /// Of eight calls so many are lookups.
    lookups: usize,
    /// The placings left under one key, and the key.
    run: (usize, Key),
}

impl Sequence {
    /// Short, with a store of few blocks, or long, with one of about 512 or of thousands.
    pub fn draw(random: &mut Random, keys: &Keys) -> Sequence {
        let kind = random.below(8);
        let (store, words) = match kind {
            0 => (random.below(64), 1 + random.below(8)),
            1..=4 => (64 + random.below(4_000), 1 + random.below(64)),
            5 => {
                let words = 1 + random.below(16);
                (4 * words * (480 + random.below(64)) + random.below(8), words)
            }
            _ => (8_000 + random.below(32_000), 1 + random.below(4)),
        };
        let long = kind >= 5;
        let many = random.below(8) < if long { 7 } else { 4 };
        let keys = if many { keys.many(random) } else { keys.few(random) };
        let store = if random.below(2) == 0 { store / 4 * 4 } else { store };
        let fewest = if random.below(2) == 0 { words } else { 1 };
        Sequence {
            store,
            left: if long { 1_000 + random.below(5_000) } else { 1 + random.below(1_000) },
            words: (fewest, words),
            empty: random.pick(&[if long { 1_500 } else { 50 }, 1_500, usize::MAX, usize::MAX]),
            lookups: 1 + random.below(4),
            run: (0, keys[0]),
            keys,
        }
    }

    /// The next call; `end` is the end of the newest block, 0 where there is none.
    pub fn call(&mut self, random: &mut Random, end: usize) -> Call {
        self.left -= 1;
        if random.below(self.empty) == 0 {
            return Call::Empty;
        }
        if random.below(8) < self.lookups {
            let any = random.below(16) == 0;
            return Call::Lookup(if any { key(random) } else { random.pick(&self.keys) });
        }
        let (key, length) = (self.placed(random), self.length(random, end));
        let count = if random.below(4) == 0 { random.next() as u8 } else { random.pick(&COUNTS) };
        Call::Place { key, count, length }
    }

    /// The key of a placing: any, or one again and again.
    fn placed(&mut self, random: &mut Random) -> Key {
        if self.run.0 > 0 {
            self.run.0 -= 1;
            return self.run.1;
        }
        let key = random.pick(&self.keys);
        match random.below(8_192) {
            0 | 1 => self.run = (random.below(1_500), key),
            2..512 => self.run = (1 + random.below(4), key),
            _ => {}
        }
        key
    }

    /// The bytes of a placing's code: now and then refused, or all of the store; else as the sequence has them, but near
    /// the store's end those that fit exactly, or a word more.
    fn length(&self, random: &mut Random, end: usize) -> usize {
        let (fewest, most) = self.words;
        let drawn = 4 * (fewest + random.below(most - fewest + 1));
        let rest = self.store.saturating_sub(end) / 4 * 4;
        match random.below(128) {
            0 | 1 => 0,
            2 | 3 => drawn - random.pick(&[1, 2, 3]),
            4 | 5 => self.store + 1 + random.below(8),
            6 => self.store / 4 * 4 + 4,
            7 if self.store < 4_096 => self.store / 4 * 4,
            8..48 if rest <= 4 * most => rest,
            48..72 if rest <= 4 * most => rest + 4,
            _ => drawn,
        }
    }
}

const COUNTS: [u8; 6] = [0, 1, 63, 64, 65, 255];

#[cfg(test)]
mod tests {
    use super::*;

    /// The published hash of "chongo was here!", and two from another program.
    #[test]
    fn hashes() {
        assert_eq!(
            hash((u64::from_le_bytes(*b"chongo w"), u64::from_le_bytes(*b"as here!"))),
            0x4485_24FD
        );
        assert_eq!(hash((1, 0)), 0x350D_96C4);
        assert_eq!(hash((0, 1)), 0x0C07_B9E4);
    }

    #[test]
    fn keys_collide() {
        let keys = Keys::default();
        let (pairs, _) = keys.pairs.as_chunks::<2>();
        assert!(pairs.len() >= 4);
        assert!(pairs.iter().all(|[one, other]| one != other && hash(*one) == hash(*other)));
        assert!(keys.bucket.len() > 64);
        assert!(keys.bucket.iter().all(|&key| hash(key).is_multiple_of(2_048)));
    }

    /// Every kind of call and length comes, on stores of every kind.
    #[test]
    fn sequences() {
        let (mut random, keys) = (Random(1), Keys::default());
        let mut met = [0; 8];
        for _ in 0..200 {
            let mut sequence = Sequence::draw(&mut random, &keys);
            let store = sequence.store;
            met[0] += usize::from(store < 4 * sequence.words.1);
            met[1] += usize::from(store / 4 / sequence.words.1 > 2_000);
            while sequence.left > 0 {
                let end = random.below(store + 1) / 4 * 4;
                match sequence.call(&mut random, end) {
                    Call::Empty => met[2] += 1,
                    Call::Lookup(_) => met[3] += 1,
                    Call::Place { length, .. } if length > store => met[4] += 1,
                    Call::Place { length, .. } if length % 4 != 0 => met[5] += 1,
                    Call::Place { length: 0, .. } => met[6] += 1,
                    Call::Place { length, .. } => met[7] += usize::from(end + length == store),
                }
            }
        }
        assert!(met.iter().all(|&met| met > 5), "{met:?}");
    }
}
