//! The index over several calls, worked out by hand: where blocks go, which are dropped, what is found. An index from
//! saved bytes, and from bytes that none ever had.

use draw::Random;
use hilofanur::{Found, Index, Key, Refusal, INDEX_BYTES};
use std::collections::{BTreeMap, HashMap};

/// What a store holds before a block is placed.
const FILL: u8 = 0xA5;

/// An index, and what was placed last under each key: count and code.
struct Life {
    index: Index,
    placed: BTreeMap<(u64, u64), (u8, Vec<u8>)>,
    random: Random,
}

impl Life {
    fn new(size: usize) -> Life {
        let mut index = Index::from_saved(&[FILL; INDEX_BYTES], vec![FILL; size].into());
        index.empty();
        Life { index, placed: BTreeMap::new(), random: Random(1) }
    }

    /// Places so many bytes, another count and code each time; where.
    fn place_key(&mut self, key: Key, length: usize) -> usize {
        let (count, code) = (self.random.next() as u8, self.random.bytes(length));
        let start = self.index.place(key, count, &code).unwrap();
        self.placed.insert((key.space, key.pc), (count, code));
        start
    }

    /// The same in space 0.
    fn place(&mut self, pc: u64, length: usize) -> usize {
        self.place_key(Key { space: 0, pc }, length)
    }

    /// Where a key's block is and how long, if it is found; count and code are those placed last.
    fn find_key(&self, key: Key) -> Option<(usize, usize)> {
        let Found { start, code, count } = self.index.get(key)?;
        let placed = self.placed.get(&(key.space, key.pc)).expect("only what was placed is found");
        assert_eq!((count, code), (placed.0, &placed.1[..]), "{key:x?}");
        assert_eq!(&self.index.store()[start..][..code.len()], code, "{key:x?}");
        Some((start, code.len()))
    }

    fn find(&self, pc: u64) -> Option<(usize, usize)> {
        self.find_key(Key { space: 0, pc })
    }

    /// The PCs of space 0 that are found, with start and length.
    fn blocks(&self) -> Vec<(u64, usize, usize)> {
        let pcs = self.placed.keys().filter(|key| key.0 == 0).map(|key| key.1);
        pcs.filter_map(|pc| self.find(pc).map(|(start, length)| (pc, start, length))).collect()
    }

    /// The same, their PCs alone.
    fn pcs(&self) -> Vec<u64> {
        self.blocks().into_iter().map(|(pc, _, _)| pc).collect()
    }
}

/// After the last block, where it fits exactly too; to the front where the rest is too short, by a word or by more.
#[test]
fn where_blocks_go() {
    let mut life = Life::new(64);
    assert_eq!((life.place(1, 16), life.place(2, 8), life.place(3, 20)), (0, 16, 24));
    assert_eq!(life.place(4, 20), 44);
    assert_eq!(life.blocks(), [(1, 0, 16), (2, 16, 8), (3, 24, 20), (4, 44, 20)]);
    assert_eq!(life.place(5, 4), 0);
    assert_eq!(life.blocks(), [(2, 16, 8), (3, 24, 20), (4, 44, 20), (5, 0, 4)]);
    assert_eq!(life.place(6, 12), 4);
    assert_eq!(life.place(7, 4), 16);
    assert_eq!(life.blocks(), [(3, 24, 20), (4, 44, 20), (5, 0, 4), (6, 4, 12), (7, 16, 4)]);
    // 44 bytes are left after block 7.
    assert_eq!(life.place(8, 48), 0);
    assert_eq!(life.blocks(), [(8, 0, 48)]);
    assert_eq!(life.place(9, 16), 48);
    assert_eq!(life.blocks(), [(8, 0, 48), (9, 48, 16)]);
    // The whole store, twice.
    assert_eq!(life.place(10, 64), 0);
    assert_eq!(life.blocks(), [(10, 0, 64)]);
    assert_eq!(life.place(11, 64), 0);
    assert_eq!(life.blocks(), [(11, 0, 64)]);
}

/// A store whose length is no multiple of 4: its last bytes stay.
#[test]
fn a_rest_of_the_store() {
    let mut life = Life::new(27);
    assert_eq!([life.place(1, 12), life.place(2, 12), life.place(3, 4)], [0, 12, 0]);
    assert_eq!(life.blocks(), [(2, 12, 12), (3, 0, 4)]);
    assert_eq!(life.index.store()[24..], [FILL; 3]);
}

/// Dropped are those that share a byte with the new block, whole or in part; those that touch it stay.
#[test]
fn overlaps() {
    let mut life = Life::new(40);
    assert_eq!(
        [life.place(1, 12), life.place(2, 4), life.place(3, 16), life.place(4, 8)],
        [0, 12, 16, 32]
    );
    assert_eq!(life.place(5, 12), 0);
    assert_eq!(life.pcs(), [2, 3, 4, 5]);
    // From 12 to 20: all of block 2, the front of block 3.
    assert_eq!(life.place(6, 8), 12);
    assert_eq!(life.pcs(), [4, 5, 6]);
    // From 20 to 32, between two that stay.
    assert_eq!(life.place(7, 12), 20);
    assert_eq!(life.pcs(), [4, 5, 6, 7]);
    // The front of block 4.
    assert_eq!(life.place(8, 4), 32);
    assert_eq!(life.blocks(), [(5, 0, 12), (6, 12, 8), (7, 20, 12), (8, 32, 4)]);
    // The front of block 5, then where its end was.
    assert_eq!([life.place(9, 8), life.place(10, 4)], [0, 8]);
    assert_eq!(life.blocks(), [(6, 12, 8), (7, 20, 12), (8, 32, 4), (9, 0, 8), (10, 8, 4)]);
}

/// The old block under the key is dropped, wherever it stands; where the new one goes is chosen before that.
#[test]
fn the_same_key() {
    let mut life = Life::new(100);
    assert_eq!([life.place(1, 8), life.place(2, 8), life.place(1, 8)], [0, 8, 16]);
    assert_eq!(life.blocks(), [(1, 16, 8), (2, 8, 8)]);
    assert_eq!(life.place(1, 12), 24);
    assert_eq!(life.blocks(), [(1, 24, 12), (2, 8, 8)]);
    // Alone in the index, and after itself all the same.
    let mut life = Life::new(20);
    assert_eq!([life.place(1, 8), life.place(1, 8), life.place(1, 8)], [0, 8, 0]);
    assert_eq!(life.blocks(), [(1, 0, 8)]);
}

/// The 513th block drops the oldest and no other.
#[test]
fn full() {
    let mut life = Life::new(8_000);
    for pc in 0..512 {
        assert_eq!(life.place(pc, 4), 4 * pc as usize);
    }
    assert_eq!(life.pcs(), (0..512).collect::<Vec<_>>());
    for pc in 512..600 {
        assert_eq!(life.place(pc, 4), 4 * pc as usize);
        assert_eq!(life.pcs(), (pc - 511..=pc).collect::<Vec<_>>());
    }
}

/// In a store of 512 blocks the 513th overlaps the oldest; no other is dropped then, and none beside the two of a
/// longer one.
#[test]
fn full_and_overlapping() {
    let mut life = Life::new(4 * 512);
    for pc in 0..512 {
        life.place(pc, 4);
    }
    assert_eq!(life.place(512, 4), 0);
    assert_eq!(life.pcs(), (1..=512).collect::<Vec<_>>());
    assert_eq!(life.place(513, 8), 4);
    assert_eq!(life.pcs(), (3..=513).collect::<Vec<_>>());
    // 511 blocks: room for one without a drop, but for the one that it overlaps.
    assert_eq!(life.place(514, 4), 12);
    assert_eq!(life.pcs(), (4..=514).collect::<Vec<_>>());
}

/// A full index: a block under a key that it has drops the old one alone, and is the newest then.
#[test]
fn the_same_key_in_a_full_index() {
    let mut life = Life::new(8_000);
    for pc in 0..512 {
        life.place(pc, 4);
    }
    assert_eq!(life.place(100, 4), 4 * 512);
    assert_eq!(life.pcs(), (0..512).collect::<Vec<_>>());
    // The oldest itself.
    assert_eq!(life.place(0, 4), 4 * 513);
    assert_eq!(life.pcs(), (0..512).collect::<Vec<_>>());
    // 1 to 99 are dropped in their turn, then 101.
    for pc in 512..611 {
        life.place(pc, 4);
    }
    assert_eq!(
        [0, 1, 99, 100, 101].map(|pc| life.find(pc).is_some()),
        [true, false, false, true, true]
    );
    life.place(611, 4);
    assert_eq!(
        [0, 1, 99, 100, 101].map(|pc| life.find(pc).is_some()),
        [true, false, false, true, false]
    );
}

/// Many times as many placings as the index has entries: always the last 512, round and round in the store.
#[test]
fn a_long_life() {
    let mut life = Life::new(4 * 700);
    for pc in 0..6_000 {
        assert_eq!(life.place(pc, 4), 4 * (pc as usize % 700));
        if pc % 61 == 0 {
            assert_eq!(life.pcs(), ((pc + 1).saturating_sub(512)..=pc).collect::<Vec<_>>());
        }
    }
    // A hundred keys, over and over.
    let mut life = Life::new(4 * 700);
    for n in 0..6_000 {
        assert_eq!(life.place(n % 100, 4), 4 * (n as usize % 700));
        if n % 61 == 0 {
            let starts: Vec<usize> = life.blocks().into_iter().map(|block| block.1).collect();
            let last = |pc| if pc <= n { Some(n - (n - pc) % 100) } else { None };
            let expected = (0..100).filter_map(last).map(|n| 4 * (n as usize % 700));
            assert_eq!(starts, expected.collect::<Vec<_>>());
        }
    }
}

/// Emptied, an index begins at the store's front, whatever it had.
#[test]
fn emptied() {
    let mut life = Life::new(4_000);
    for last in [1, 2, 511, 512, 513, 1_023, 1_024, 1_500] {
        for pc in 0..last {
            life.place(pc, 4);
        }
        let store = life.index.store().clone();
        life.index.empty();
        assert_eq!((life.blocks(), life.index.store()), (vec![], &store));
        assert_eq!([life.place(7, 8), life.place(8, 4)], [0, 8]);
        assert_eq!(life.blocks(), [(7, 0, 8), (8, 8, 4)]);
        life.index.empty();
    }
}

#[test]
fn counts() {
    let mut index = Index::new(1_024);
    let key = |count: u8| Key { space: 0, pc: count.into() };
    for count in 0..=255 {
        assert_eq!(index.place(key(count), count, &[count; 4]), Ok(4 * usize::from(count)));
    }
    for count in 0..=255 {
        let (start, code) = (4 * usize::from(count), &[count; 4][..]);
        assert_eq!(index.get(key(count)), Some(Found { start, code, count }));
    }
}

/// Keys that differ in one bit of space or PC, and keys with the two swapped.
#[test]
fn keys() {
    let base = Key { space: 0x0123_4567_89AB_CDEF, pc: 0x8000_1234 };
    let mut keys = vec![base, Key { space: base.pc, pc: base.space }];
    for bit in 0..64 {
        keys.push(Key { space: base.space ^ 1 << bit, ..base });
        keys.push(Key { pc: base.pc ^ 1 << bit, ..base });
    }
    let ends = [0, 1, u64::MAX, 1 << 32, 1 << 63];
    keys.extend(ends.into_iter().flat_map(|space| ends.map(|pc| Key { space, pc })));
    let mut life = Life::new(4_000);
    for (n, &key) in keys.iter().enumerate() {
        assert_eq!(life.find_key(key), None, "{key:x?}");
        assert_eq!(life.place_key(key, 4), 4 * n);
    }
    for (n, &key) in keys.iter().enumerate() {
        assert_eq!(life.find_key(key), Some((4 * n, 4)), "{key:x?}");
    }
}

/// FNV-1a of 32 bits.
fn fnv1a(bytes: &[u8]) -> u32 {
    let step = |hash: u32, &byte: &u8| (hash ^ u32::from(byte)).wrapping_mul(0x0100_0193);
    bytes.iter().fold(0x811C_9DC5, step)
}

fn hash(key: Key) -> u32 {
    fnv1a([key.space.to_le_bytes(), key.pc.to_le_bytes()].as_flattened())
}

/// The published values.
#[test]
fn fnv1a_is_fnv1a() {
    assert_eq!(
        [fnv1a(b""), fnv1a(b"a"), fnv1a(b"foobar")],
        [0x811C_9DC5, 0xE40C_292C, 0xBF9C_F968]
    );
}

/// Pairs of keys with one hash.
fn pairs() -> Vec<[Key; 2]> {
    let (mut random, mut seen) = (Random(2), HashMap::new());
    let keys = (0..150_000).map(|_| Key { space: random.next() % 16, pc: random.next() });
    keys.filter_map(|key| seen.insert(hash(key), key).map(|other| [other, key])).collect()
}

/// Keys with one hash are two keys: to a lookup, when placed, when placed again, and when dropped.
#[test]
fn keys_with_one_hash() {
    let pairs = pairs();
    assert!(!pairs.is_empty());
    for [one, other] in pairs {
        assert!(one != other && hash(one) == hash(other));
        let mut life = Life::new(24);
        assert_eq!((life.place_key(one, 8), life.find_key(other)), (0, None));
        assert_eq!(life.place_key(other, 8), 8);
        let found = |life: &Life| [one, other].map(|key| life.find_key(key));
        assert_eq!(found(&life), [Some((0, 8)), Some((8, 8))]);
        assert_eq!(life.place_key(one, 8), 16);
        assert_eq!(found(&life), [Some((16, 8)), Some((8, 8))]);
        life.place(1, 12);
        assert_eq!(found(&life), [Some((16, 8)), None]);
        assert_eq!(life.place_key(other, 12), 12);
        assert_eq!(found(&life), [None, Some((12, 12))]);
    }
}

/// More blocks than an index holds, all with the same low bits of the hash, and half of them placed again.
#[test]
fn keys_of_one_bucket() {
    let pcs: Vec<u64> =
        (0..).filter(|&pc| hash(Key { space: 0, pc }) % 2_048 == 5).take(514).collect();
    let mut life = Life::new(8_000);
    for (n, &pc) in pcs[..513].iter().enumerate() {
        assert_eq!((life.find(pc), life.place(pc, 4)), (None, 4 * n));
    }
    assert_eq!(life.pcs(), pcs[1..513]);
    for &pc in pcs[1..513].iter().step_by(2) {
        life.place(pc, 4);
    }
    assert_eq!(life.pcs(), pcs[1..513]);
    life.place(pcs[513], 4);
    assert_eq!((life.find(pcs[1]).is_some(), life.find(pcs[2])), (true, None));
    assert_eq!(life.pcs().len(), 512);
}

#[test]
fn new_ones() {
    for size in [0, 1, 20, 4_096] {
        let index = Index::new(size);
        assert_eq!(index.store()[..], vec![0; size]);
        assert_eq!((index.get(KEY), format!("{index:?}")), (None, "Index { .. }".into()));
    }
}

/// An index of another's bytes answers alike and goes on alike; then each goes its own way.
#[test]
fn saved() {
    for last in [0, 1, 511, 512, 513, 1_023, 1_024, 1_500] {
        let mut life = Life::new(4 * 700);
        for pc in 0..last {
            life.place(pc, 4);
        }
        let index = Index::from_saved(life.index.saved(), life.index.store().clone());
        let (placed, random) = (life.placed.clone(), Random(life.random.0));
        let mut again = Life { index, placed, random };
        assert_eq!(again.blocks(), life.blocks(), "{last}");
        for pc in 0..600 {
            assert_eq!(again.place(pc % 150, 8), life.place(pc % 150, 8), "{last}");
        }
        assert_eq!(again.blocks(), life.blocks(), "{last}");
        assert!(again.index.saved() == life.index.saved(), "{last}");
        assert!(again.index.store() == life.index.store(), "{last}");
        let blocks = life.blocks();
        again.place(9_999, 4 * 700);
        assert_eq!((again.pcs(), life.blocks()), (vec![9_999], blocks), "{last}");
    }
}

const KEY: Key = Key { space: 0, pc: 7 };

/// An index with one block, under `KEY`, whose entry has such a start and length; its store has so many bytes.
fn told(start: u64, length: u64, size: usize) -> Index {
    let mut index = Index::new(4);
    index.place(KEY, 9, &[1; 4]).unwrap();
    // Entries have 40 bytes, from 4,096 on: space and PC, start and length, and others. The first block has entry 1.
    let mut bytes = *index.saved();
    bytes[4_096 + 40 + 16..][..8].copy_from_slice(&start.to_le_bytes());
    bytes[4_096 + 40 + 24..][..8].copy_from_slice(&length.to_le_bytes());
    Index::from_saved(&bytes, vec![FILL; size].into())
}

/// A block that is not in the store is not found, nor one of no length; one that is in it has the bytes there.
#[test]
fn beyond_the_store() {
    let far = u64::MAX;
    for (start, length) in [
        (far - 7, 8),
        (far - 7, 16),
        (far, far),
        (16, far - 15),
        (1 << 63, 1 << 63),
        (0, 101),
        (97, 4),
        (101, 1),
        (0, 0),
    ] {
        let mut index = told(start, length, 100);
        assert_eq!(index.get(KEY), None, "{start} {length}");
        let start = index.place(KEY, 3, &[2; 8]).unwrap();
        assert_eq!(index.get(KEY), Some(Found { start, code: &[2; 8], count: 3 }));
    }
    for (start, length) in [(0, 1), (0, 100), (3, 5), (96, 4)] {
        let (index, code) = (told(start, length, 100), &vec![FILL; length as usize][..]);
        assert_eq!(index.get(KEY), Some(Found { start: start as usize, code, count: 9 }));
    }
}

/// Bytes that no index has, by kind: any, ones, few bits, and those of an index with a larger store, with some bits
/// changed.
fn rubbish(kind: usize, random: &mut Random) -> Index {
    let mut bytes = random.bytes(INDEX_BYTES);
    match kind {
        0 => {}
        1 => bytes.fill(0xFF),
        2 => bytes.iter_mut().for_each(|byte| *byte &= (random.next() & random.next()) as u8),
        _ => {
            let mut life = Life::new(8_000);
            (0..900).map(|pc| life.place(pc % 300, 12)).last();
            bytes = life.index.saved().to_vec();
            (0..kind * 100).for_each(|_| random.change_bit(&mut bytes));
        }
    }
    let size = random.pick(&[0, 3, 64, 100, 1_000, 7_448]);
    Index::from_saved(bytes.first_chunk().unwrap(), random.bytes(size).into())
}

/// A block is placed where its length allows it, and no other byte of the store changes; whether it was.
fn place_into(index: &mut Index, key: Key, code: &[u8]) -> bool {
    let (mut expected, length) = (index.store().clone(), code.len());
    let placed = index.place(key, 9, code);
    let refused = length == 0 || !length.is_multiple_of(4) || length > expected.len();
    match placed {
        Ok(start) => expected[start..][..length].copy_from_slice(code),
        Err(refusal) => assert_eq!(refusal, Refusal::CodeLength),
    }
    assert_eq!((placed.is_err(), index.store()), (refused, &expected));
    !refused
}

/// With any bytes in it every call ends: what is found is in the store, what is placed goes into it. Emptied, it is
/// an index like any other.
#[test]
fn other_bytes() {
    let (mut random, mut found, mut missed, mut placed) = (Random(3), 0, 0, 0);
    for kind in (0..6).cycle().take(60) {
        let mut index = rubbish(kind, &mut random);
        for _ in 0..40 {
            let key = Key { space: 0, pc: random.next() % 310 };
            match index.get(key) {
                Some(Found { start, code, .. }) => {
                    assert_eq!(&index.store()[start..][..code.len()], code);
                    found += 1;
                }
                None => missed += 1,
            }
            let length = random.pick(&[0, 2, 4, 8, 12, 64, 100, 1_000, 8_000]);
            placed += u32::from(place_into(&mut index, key, &random.bytes(length)));
        }
        index.empty();
        assert_eq!((0..310).find(|&pc| index.get(Key { space: 0, pc }).is_some()), None);
        if place_into(&mut index, KEY, &[5; 4]) {
            assert_eq!(index.get(KEY), Some(Found { start: 0, code: &[5; 4], count: 9 }));
        }
    }
    assert!(found > 50 && missed > 1_000 && placed > 500, "{found} {missed} {placed}");
}

/// An index as version 0.1.0 left it after 900 placings in a store of 2,048 bytes, with the store and what it answered for
/// 128 keys. Its chains still lead to slots whose blocks were dropped.
#[test]
fn of_an_earlier_version() {
    let (bytes, rest) = include_bytes!("data/index_0_1_0.bin").split_first_chunk().unwrap();
    let (store, answers) = rest.split_at(2_048);
    let mut index = Index::from_saved(bytes, store.into());
    let number = |bytes: &[u8]| bytes.iter().rev().fold(0, |n, &byte| n << 8 | u64::from(byte));
    let mut kept = vec![];
    for row in answers.chunks_exact(26) {
        let key = Key { space: number(&row[..8]), pc: number(&row[8..16]) };
        let (start, length) = (number(&row[17..21]) as usize, number(&row[21..25]) as usize);
        let code = &store[start..][..length];
        let expected = (row[16] == 0).then_some(Found { start, code, count: row[25] });
        assert_eq!(index.get(key), expected, "{key:x?}");
        kept.extend(expected.map(|found| (key, found)));
    }
    assert_eq!(kept.len(), 44);
    // It goes on: what is placed is found, and the others are as they were or dropped.
    for n in 0..600_u32 {
        let (key, code) = (Key { space: 5, pc: n.into() }, n.to_le_bytes().repeat(9));
        let start = index.place(key, n as u8, &code).unwrap();
        assert_eq!(index.get(key), Some(Found { start, code: &code, count: n as u8 }));
        kept.retain(|&(key, found)| {
            index.get(key).inspect(|&now| assert_eq!(now, found)).is_some()
        });
    }
    assert!(kept.is_empty());
}
