//! The index's model by hand-computed expectation, the plain index beside it, and both on drawn calls.

use draw::index::{Call, Keys, Sequence};
use draw::values::Pool;
use draw::Random;
use steppers::{Found, IndexModel, Key, PlainIndex};

const A: Key = (1, 0x1000);
const B: Key = (1, 0x2000);
const C: Key = (2, 0x1000);
const D: Key = (0x1000, 1);

/// The model and the plain index, each with its store.
struct Both {
    model: IndexModel,
    plain: Box<PlainIndex>,
    stores: [Vec<u8>; 2],
}

impl Both {
    fn new(store: usize) -> Both {
        let stores = [(); 2].map(|()| vec![0; store]);
        Both { model: IndexModel::default(), plain: Box::default(), stores }
    }

    fn empty(&mut self) {
        self.model.empty();
        self.plain.empty();
    }

    fn code(&mut self, key: Key, count: u8, code: &[u8]) -> Option<usize> {
        let [one, other] = &mut self.stores;
        let start = self.model.place(one, key, count, code).map(|placed| placed.start);
        assert_eq!(self.plain.place(other, key, count, code), start);
        assert!(one == other);
        start
    }

    /// Places `length` bytes, all of them `count`.
    fn place(&mut self, key: Key, count: u8, length: usize) -> Option<usize> {
        self.code(key, count, &vec![count; length])
    }

    /// Start, length and count; the code is where it says.
    fn lookup(&self, key: Key) -> Option<(usize, usize, u8)> {
        let found = self.plain.lookup(key);
        let block = self.model.lookup(key);
        assert_eq!(
            found,
            block.map(|b| Found { start: b.start, length: b.length, count: b.count })
        );
        let block = block?;
        assert_eq!(self.stores[0][block.start..block.end()], block.code);
        Some((block.start, block.length, block.count))
    }

    fn starts<const N: usize>(&self, keys: [Key; N]) -> [Option<usize>; N] {
        keys.map(|key| self.lookup(key).map(|(start, ..)| start))
    }
}

#[test]
fn behind_the_last_then_the_front() {
    let mut both = Both::new(18);
    assert_eq!(both.lookup(A), None);
    assert_eq!(both.place(A, 3, 8), Some(0));
    // The rest, but for two bytes that no length can take.
    assert_eq!(both.place(B, 64, 8), Some(8));
    assert_eq!((both.lookup(A), both.lookup(B)), (Some((0, 8, 3)), Some((8, 8, 64))));
    // The front: A shares bytes 0 to 3, B only touches byte 8.
    assert_eq!(both.place(C, 255, 4), Some(0));
    assert_eq!(both.starts([A, B, C]), [None, Some(8), Some(0)]);
    // Bytes 4 to 7 touch both neighbours, and share none.
    assert_eq!(both.place(D, 0, 4), Some(4));
    assert_eq!(both.starts([B, C, D]), [Some(8), Some(0), Some(4)]);
    // Bytes 8 to 11 share with B.
    assert_eq!(both.place(A, 1, 4), Some(8));
    assert_eq!(both.starts([A, B, C, D]), [Some(8), None, Some(0), Some(4)]);
    // The rest is 6 bytes; the whole front is shared.
    assert_eq!(both.place(B, 2, 16), Some(0));
    assert_eq!(both.starts([A, B, C, D]), [None, Some(0), None, None]);
    assert_eq!(both.lookup(B), Some((0, 16, 2)));
}

#[test]
fn exact_fit_goes_behind() {
    let mut both = Both::new(16);
    assert_eq!(both.place(A, 1, 12), Some(0));
    assert_eq!(both.place(B, 2, 4), Some(12));
    assert_eq!(both.starts([A, B]), [Some(0), Some(12)]);
    both.empty();
    assert_eq!(both.starts([A, B]), [None, None]);
    assert_eq!(both.place(A, 1, 16), Some(0));
    assert_eq!(both.place(B, 2, 16), Some(0));
    assert_eq!(both.starts([A, B]), [None, Some(0)]);
}

/// The start is chosen while the old block under the key is still there.
#[test]
fn one_key_again() {
    let mut both = Both::new(16);
    assert_eq!(both.place(B, 9, 4), Some(0));
    assert_eq!(both.place(A, 1, 4), Some(4));
    assert_eq!(both.place(A, 2, 4), Some(8));
    assert_eq!(both.place(A, 3, 4), Some(12));
    assert_eq!(both.lookup(A), Some((12, 4, 3)));
    assert_eq!(both.lookup(B), Some((0, 4, 9)));
    assert_eq!(both.model.blocks.len(), 2);
    assert_eq!(both.place(A, 4, 4), Some(0));
    assert_eq!(both.starts([A, B]), [Some(0), None]);
}

#[test]
fn five_hundred_and_twelve() {
    let key = |n| (0, n);
    let mut both = Both::new(0x1_0000);
    for n in 0..512 {
        assert_eq!(both.place(key(n), n as u8, 4), Some(4 * n as usize));
    }
    assert_eq!(both.starts([key(0), key(511)]), [Some(0), Some(2_044)]);
    // One under its key is left out, so the oldest stays.
    assert_eq!(both.place(key(300), 7, 4), Some(2_048));
    assert_eq!(both.starts([key(0), key(1), key(300)]), [Some(0), Some(4), Some(2_048)]);
    // The oldest, and no other.
    assert_eq!(both.place(key(512), 8, 4), Some(2_052));
    assert_eq!(both.starts([key(0), key(1), key(512)]), [None, Some(4), Some(2_052)]);
    // Under the oldest's key: it becomes the newest, and the next oldest stays.
    assert_eq!(both.place(key(1), 9, 4), Some(2_056));
    assert_eq!(both.starts([key(1), key(2)]), [Some(2_056), Some(8)]);
    assert_eq!(both.model.blocks.len(), 512);
    // More placings than the plain index has places.
    for n in 513..3_000 {
        assert_eq!(both.place(key(n), 0, 4), Some(2_060 + 4 * (n as usize - 513)));
    }
    assert_eq!(both.starts([key(2_487), key(2_488)]), [None, Some(9_960)]);
    both.empty();
    assert_eq!(both.starts([key(2_488), key(2_999)]), [None, None]);
    assert_eq!(both.place(key(5), 1, 8), Some(0));
}

/// At 512 an overlapped block makes the room.
#[test]
fn overlap_before_the_oldest() {
    let key = |n| (n, 0);
    let mut both = Both::new(4 * 520);
    for n in 0..520 {
        both.place(key(n), 1, 4);
    }
    assert_eq!(both.starts([key(7), key(8), key(519)]), [None, Some(32), Some(2_076)]);
    // Bytes 0 to 35 share with key 8 alone.
    assert_eq!(both.place(A, 1, 36), Some(0));
    assert_eq!(both.starts([key(8), key(9), key(519)]), [None, Some(36), Some(2_076)]);
    assert_eq!(both.model.blocks.len(), 512);
}

/// What the model says that it leaves out, by the reason.
#[test]
fn left_out() {
    let (mut model, mut store) = (IndexModel::default(), [0; 4 * 600]);
    let mut place = |key, length| {
        let placed = model.place(&mut store, key, 0, &vec![0; length]).unwrap();
        (placed.start, placed.same_key, placed.overlapped, placed.oldest)
    };
    assert_eq!(place(A, 4), (0, vec![], vec![], vec![]));
    assert_eq!(place(A, 4), (4, vec![A], vec![], vec![]));
    assert_eq!(place(B, 4 * 598), (8, vec![], vec![], vec![]));
    // Under A's key, over A's own block and B's first word: A is left out for its key.
    assert_eq!(place(A, 12), (0, vec![A], vec![B], vec![]));
    for n in 0..511 {
        assert_eq!(place((9, n), 4), (12 + 4 * n as usize, vec![], vec![], vec![]));
    }
    assert_eq!(place(B, 4), (2_056, vec![], vec![], vec![A]));
    assert_eq!(place((9, 0), 4), (2_060, vec![(9, 0)], vec![], vec![]));
    assert_eq!(place(A, 4), (2_064, vec![], vec![], vec![(9, 1)]));
    // The rest is 332 bytes; bytes 0 to 335 share with those up to 12 + 4 * 80, two of which are gone.
    let overlapped = (2..81).map(|n| (9, n)).collect();
    assert_eq!(place(C, 336), (0, vec![], overlapped, vec![]));
}

#[test]
fn refused() {
    let mut both = Both::new(10);
    for length in [0, 1, 2, 6, 11, 12, 16] {
        assert_eq!(both.place(A, 1, length), None, "{length}");
    }
    assert_eq!(both.lookup(A), None);
    assert_eq!(both.place(A, 1, 8), Some(0));
    assert_eq!(both.place(A, 2, 12), None);
    assert_eq!(both.lookup(A), Some((0, 8, 1)));
    assert_eq!(Both::new(0).place(A, 1, 4), None);
    assert_eq!(Both::new(3).place(A, 1, 4), None);
}

#[test]
fn drawn() {
    let (mut random, keys, pool) = (Random(1), Keys::default(), Pool::default());
    for _ in 0..60 {
        let mut sequence = Sequence::draw(&mut random, &keys);
        let mut both = Both::new(sequence.store);
        while sequence.left > 0 {
            let end = both.model.blocks.last().map_or(0, |newest| newest.end());
            match sequence.call(&mut random, end) {
                Call::Empty => both.empty(),
                Call::Lookup(key) => drop(both.lookup(key)),
                Call::Place { key, count, length } => {
                    both.code(key, count, &pool.cut(&mut random, length));
                }
            }
        }
        for &key in &sequence.keys {
            both.lookup(key);
        }
    }
}
