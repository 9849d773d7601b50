//! The index between inaccessible pages, in good order and with any bytes. It is eleven pages long, so that a byte
//! too far on either side faults.

use super::guard::{Edge, Guarded};
use super::{EDGES, FILL};
use draw::Random;
use hilofanur::boundary::{index_empty, index_lookup, index_place};
use hilofanur::boundary::{IndexLookupAnswer, IndexPlaceAnswer};
use hilofanur::{Key, INDEX_BYTES};

const SEEDS: u64 = 12;
const STORES: [usize; 10] = [0, 1, 3, 4, 7, 64, 100, 4_096, 7_448, 20_000];
/// Where an index has its entries, and the bytes of one: space and PC, start and length, eight bytes each, then
/// others.
const ENTRIES: usize = 4_096;
const ENTRY: usize = 40;

/// An index with rubbish in it: any bytes, ones, few bits, or few keys with starts and lengths that make sense.
fn rubbish(seed: u64) -> Vec<u8> {
    let mut random = Random(seed);
    let mut bytes = random.bytes(INDEX_BYTES);
    match seed % 4 {
        0 => {}
        1 => bytes.fill(0xFF),
        2 => bytes.iter_mut().for_each(|byte| *byte &= (random.next() & random.next()) as u8),
        _ => bytes[ENTRIES..].chunks_exact_mut(ENTRY).for_each(|entry| {
            for (eight, bound) in entry.as_chunks_mut().0.iter_mut().zip([4, 4, 256, 64]) {
                *eight = random.next().wrapping_rem(bound).to_le_bytes();
            }
        }),
    }
    bytes
}

/// Few keys, or one that stands in the bytes, or any.
fn key(random: &mut Random, index: &[u8]) -> Key {
    let entry = ENTRIES + ENTRY * random.below((INDEX_BYTES - ENTRIES) / ENTRY);
    let number = |at: usize| u64::from_le_bytes(*index[entry + at..].first_chunk().unwrap());
    match random.below(3) {
        0 => Key { space: random.next() % 4, pc: random.next() % 4 },
        1 => Key { space: number(0), pc: number(8) },
        _ => Key { space: random.next(), pc: random.next() },
    }
}

fn look_up(index: &Guarded, key: Key) -> IndexLookupAnswer {
    index_lookup(index.first_chunk().unwrap(), key)
}

/// Places code: refused for its length alone and with all bytes as they were, else copied to where the answer says,
/// which is in the store, and no other byte of the store changed.
fn place(
    index: &mut Guarded,
    store: &mut Guarded,
    key: Key,
    count: u8,
    code: &[u8],
) -> IndexPlaceAnswer {
    let (before, mut expected) = (index.to_vec(), store.to_vec());
    let answer = index_place(index.first_chunk_mut().unwrap(), store, key, count, code);
    let length = code.len();
    if length == 0 || !length.is_multiple_of(4) || length > store.len() {
        assert_eq!(answer, IndexPlaceAnswer { refusal: 15, start: 0 }, "{length} {}", store.len());
        assert!(**index == before, "{length} {}", store.len());
    } else {
        assert_eq!(answer.refusal, 0, "{length} {}", store.len());
        expected[answer.start as usize..][..length].copy_from_slice(code);
    }
    assert!(**store == expected, "{answer:?} {length} {}", store.len());
    answer
}

/// Code of any length up to beyond the store, mostly a multiple of 4.
fn code(random: &mut Random, store: usize, edge: Edge) -> Guarded {
    let most = random.pick(&[16, 64, store + 8]);
    let length = random.below(most);
    let length = if random.below(8) == 0 { length } else { length / 4 * 4 };
    Guarded::read_only(&random.bytes(length), edge)
}

/// Lookups write nothing, and answer 16 with zeros or a block.
#[test]
fn lookups_in_rubbish() {
    let mut met = [0; 17];
    for seed in 0..SEEDS {
        let index = Guarded::read_only(&rubbish(seed), Edge::End);
        let mut random = Random(seed);
        for _ in 0..3_000 {
            let key = key(&mut random, &index);
            let answer = look_up(&index, key);
            let none = IndexLookupAnswer { refusal: 16, start: 0, length: 0, count: 0 };
            assert!(
                answer == none || answer.refusal == 0 && answer.count < 256,
                "{key:x?} {answer:x?}"
            );
            met[answer.refusal as usize] += 1;
        }
    }
    assert!(met[0] > 100 && met[16] > 10_000, "{met:?}");
}

#[test]
fn placings_in_rubbish() {
    let mut met = [0; 17];
    for (seed, edge) in (0..SEEDS).flat_map(|seed| EDGES.map(|edge| (seed, edge))) {
        let (mut random, rubbish) = (Random(seed), rubbish(seed));
        for size in STORES {
            let mut index = Guarded::new(&rubbish, edge);
            let mut store = Guarded::new(&vec![FILL; size], edge);
            for _ in 0..30 {
                let (key, count) = (key(&mut random, &index), random.next() as u8);
                let code = code(&mut random, size, edge);
                met[place(&mut index, &mut store, key, count, &code).refusal as usize] += 1;
                look_up(&index, key);
            }
        }
    }
    assert!(met[0] > 2_000 && met[15] > 1_000, "{met:?}");
}

/// Emptied, rubbish is an index like any other: no key is found, the first block goes to the front, and each is found
/// after its placing, often enough for the oldest to be dropped.
#[test]
fn emptied_rubbish() {
    for (seed, edge) in (0..4).flat_map(|seed| EDGES.map(|edge| (seed, edge))) {
        let mut random = Random(seed);
        for size in [64, 7_448, 20_000] {
            let mut index = Guarded::new(&rubbish(seed), edge);
            let mut store = Guarded::new(&vec![FILL; size], edge);
            index_empty(index.first_chunk_mut().unwrap());
            for _ in 0..200 {
                assert_eq!(look_up(&index, key(&mut random, &index)).refusal, 16);
            }
            for n in 0..1_200 {
                let (key, count) = (Key { space: n % 7, pc: n % 900 }, random.next() as u8);
                let length = 4 + 4 * random.below(8);
                let code = Guarded::read_only(&random.bytes(length), edge);
                let IndexPlaceAnswer { start, .. } =
                    place(&mut index, &mut store, key, count, &code);
                assert!(n > 0 || start == 0);
                let (length, count) = (length as u64, count.into());
                let found = IndexLookupAnswer { refusal: 0, start, length, count };
                assert_eq!(look_up(&index, key), found);
            }
        }
    }
}

/// The end of the last block is a whole number: where it is 2^64 and more, the next one goes to the front.
#[test]
fn ends_beyond_64_bits() {
    let mut index = Guarded::new(&rubbish(0), Edge::End);
    let mut store = Guarded::new(&[FILL; 100], Edge::End);
    let [one, two] = [1, 2].map(|pc| Key { space: 0, pc });
    for (start, length) in
        [(u64::MAX - 7, 16), (u64::MAX, 9), (16, u64::MAX - 7), (1 << 63, 1 << 63)]
    {
        index_empty(index.first_chunk_mut().unwrap());
        place(&mut index, &mut store, one, 1, &[1; 4]);
        // The first block has entry 1.
        let entry = &mut index[ENTRIES + ENTRY..];
        entry[16..24].copy_from_slice(&start.to_le_bytes());
        entry[24..32].copy_from_slice(&length.to_le_bytes());
        let found = IndexLookupAnswer { refusal: 0, start, length, count: 1 };
        assert_eq!(look_up(&index, one), found);
        let answer = place(&mut index, &mut store, two, 1, &[2; 4]);
        assert_eq!(answer, IndexPlaceAnswer { refusal: 0, start: 0 }, "{start:x} {length:x}");
    }
}

/// An index at any address: the same answers and bytes as at a page's start, and none beside it touched.
#[test]
fn unaligned() {
    let mut guarded = Guarded::new(&vec![FILL; INDEX_BYTES], Edge::Start);
    let aligned: &mut [u8; INDEX_BYTES] = guarded.first_chunk_mut().unwrap();
    for at in [1, 2, 4, 7] {
        let mut bytes = vec![FILL; INDEX_BYTES + 8];
        let (mut store, mut other) = ([FILL; 100], [FILL; 100]);
        let index: &mut [u8; INDEX_BYTES] = bytes[at..].first_chunk_mut().unwrap();
        aligned.fill(FILL);
        index_empty(index);
        index_empty(aligned);
        for n in 0..1_100 {
            let (key, code) = (Key { space: 0, pc: n % 20 }, [n as u8; 12]);
            let answer = index_place(index, &mut store, key, 1, &code);
            assert_eq!(answer, index_place(aligned, &mut other, key, 1, &code));
            assert_eq!(index_lookup(index, key), index_lookup(aligned, key));
        }
        assert!(index == aligned && store == other, "{at}");
        let beside = bytes[..at].iter().chain(&bytes[at + INDEX_BYTES..]);
        assert!(beside.copied().eq([FILL; 8]), "{at}");
    }
}
