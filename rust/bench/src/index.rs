//! The index beside a plain one of the same design, and its lookup beside the standard library's `HashMap`.

use crate::{row, SEED, UNITS};
use draw::index::{hash, key};
use draw::Random;
use hilofanur::{boundary, INDEX_BYTES};
use std::collections::HashMap;
use steppers::{Found, Key, PlainIndex};

/// A block's bytes.
const LENGTH: usize = 256;
/// The bytes of a store that holds 4,096 blocks, and of one that holds 256.
const LARGE: usize = 4_096 * LENGTH;
const SMALL: usize = 256 * LENGTH;

/// Start, length and count by key.
type Map = HashMap<Key, (u64, u64, u8)>;

pub fn rows() {
    for (name, placings) in [
        ("no block", 0),
        ("256 blocks", 256),
        ("512 blocks", 512),
        ("512, log full", 1_023),
        ("10^6 placings", 1_000_000),
    ] {
        lookups(name, placings);
    }
    for blocks in [1, 4, 16] {
        in_turn(blocks);
    }
    again();
    place("Index place, the oldest dropped", LARGE, 1 << 40);
    place("Index place, one overlapped", SMALL, 1 << 40);
    place("Index place, 256 keys again", LARGE, 256);
    place("Index place, 1 key again", LARGE, 1);
    for blocks in [1, 4, 16] {
        let name = format!("Index place, {} keys in {blocks}", blocks + 1);
        place(&name, blocks * LENGTH, blocks as u64 + 1);
    }
}

/// Both indices after the same placings, each with its store.
struct Both {
    random: Random,
    index: Box<[u8; INDEX_BYTES]>,
    plain: Box<PlainIndex>,
    stores: [Vec<u8>; 2],
    code: Vec<u8>,
}

fn proved_place(
    index: &mut [u8; INDEX_BYTES],
    store: &mut [u8],
    (space, pc): Key,
    code: &[u8],
) -> Option<usize> {
    let answer = boundary::index_place(index, store, hilofanur::Key { space, pc }, 64, code);
    (answer.refusal == 0).then_some(answer.start as usize)
}

fn proved_lookup(index: &[u8; INDEX_BYTES], (space, pc): Key) -> Option<Found> {
    let a = boundary::index_lookup(index, hilofanur::Key { space, pc });
    let (start, length, count) = (a.start as usize, a.length as usize, a.count as u8);
    (a.refusal == 0).then_some(Found { start, length, count })
}

impl Both {
    fn new(store: usize) -> Both {
        let mut random = Random(SEED);
        let mut index = Box::new([0; INDEX_BYTES]);
        boundary::index_empty(&mut index);
        let (stores, code) = ([(); 2].map(|()| vec![0; store]), random.bytes(LENGTH));
        Both { random, index, plain: Box::default(), stores, code }
    }

    fn place(&mut self, key: Key) {
        let [one, other] = &mut self.stores;
        let answer = proved_place(&mut self.index, one, key, &self.code);
        assert!(answer.is_some());
        assert_eq!(answer, self.plain.place(other, key, 64, &self.code));
    }
}

/// Lookups that find their block, and lookups that do not, after so many placings under different keys.
fn lookups(name: &str, placings: usize) {
    let mut both = Both::new(LARGE);
    let mut keys: Vec<Key> = (0..placings).map(|_| key(&mut both.random)).collect();
    keys.iter().for_each(|&key| both.place(key));
    let live = keys.split_off(placings.saturating_sub(512));
    let mut map = Map::new();
    for &key in &live {
        let Found { start, length, count } = both.plain.lookup(key).unwrap();
        map.insert(key, (start as u64, length as u64, count));
    }
    if !live.is_empty() {
        let hits: Vec<Key> = (0..UNITS).map(|_| both.random.pick(&live)).collect();
        beside(&format!("Lookup hit, {name}"), &both, &map, &hits);
    }
    let misses: Vec<Key> = (0..UNITS).map(|_| key(&mut both.random)).collect();
    beside(&format!("Lookup miss, {name}"), &both, &map, &misses);
}

/// Lookups as the log is full of dropped blocks: under keys in turn, one more than the store holds blocks.
fn in_turn(blocks: usize) {
    let keys: Vec<Key> = (0..=blocks as u64).map(|n| (0, n)).collect();
    let name = format!("{} keys in {blocks}", keys.len());
    full_log(&name, blocks * LENGTH, &keys, keys.iter().cycle());
}

/// The same under one key again and again, after another of its bucket; a third is never placed.
fn again() {
    let mut bucket =
        (0..).map(|pc| (0, pc)).filter(|&key| hash(key) % 2_048 == hash((0, 0)) % 2_048);
    let keys: [Key; 3] = std::array::from_fn(|_| bucket.next().unwrap());
    full_log(
        "1 key again",
        LARGE,
        &keys,
        [&keys[0]].into_iter().chain(std::iter::repeat(&keys[1])),
    );
}

/// Lookups of these keys after 1,022 placings: those that find their block, and those that do not.
fn full_log<'a>(name: &str, store: usize, keys: &[Key], placed: impl Iterator<Item = &'a Key>) {
    let mut both = Both::new(store);
    placed.take(1_022).for_each(|&key| both.place(key));
    let Both { index, plain, .. } = &both;
    let found = |key: &&Key| plain.lookup(**key).is_some();
    let (hits, misses): (Vec<&Key>, Vec<&Key>) = keys.iter().partition(found);
    for (kind, keys) in [("hit", hits), ("miss", misses)] {
        let keys: Vec<Key> = keys.into_iter().copied().cycle().take(UNITS).collect();
        assert!(keys.iter().all(|&key| proved_lookup(index, key) == plain.lookup(key)));
        let proved =
            |&(space, pc): &Key| boundary::index_lookup(index, hilofanur::Key { space, pc });
        row(&format!("Lookup {kind}, {name}"), (UNITS, "call"), &keys, proved, |&key| {
            plain.lookup(key)
        });
    }
}

fn beside(name: &str, Both { index, plain, .. }: &Both, map: &Map, keys: &[Key]) {
    for &key in keys {
        let found = proved_lookup(index, key);
        assert_eq!(found, plain.lookup(key));
        let entry = found.map(|a| (a.start as u64, a.length as u64, a.count));
        assert_eq!(entry.as_ref(), map.get(&key));
    }
    let units = (keys.len(), "call");
    let proved = |&(space, pc): &Key| boundary::index_lookup(index, hilofanur::Key { space, pc });
    row(name, units, keys, proved, |&key| plain.lookup(key));
    let name = format!("{name}, HashMap");
    row(&name, units, keys, proved, |&key| map.get(&key).copied());
}

/// Placings under so many keys in turn.
fn place(name: &str, store: usize, keys: u64) {
    let mut both = Both::new(store);
    for n in 0..4_096 {
        both.place((0, n % keys));
    }
    let Both { mut index, mut plain, stores: [mut one, mut other], code, .. } = both;
    let (mut n, mut m) = (4_095, 4_095);
    row(
        name,
        (1, "call"),
        &[()],
        |()| {
            n += 1;
            proved_place(&mut index, &mut one, (0, n % keys), &code)
        },
        |()| {
            m += 1;
            plain.place(&mut other, (0, m % keys), 64, &code)
        },
    );
    assert!(one == other);
}
