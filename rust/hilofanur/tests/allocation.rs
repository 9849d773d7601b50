//! What the listing allocates: `list_into` nothing, `list` its text alone, and nothing where it refuses more than the
//! longest block. What the index allocates: its bytes and its store's, and its calls nothing. The A64 runs allocate
//! nothing.

use hilofanur::{a64_run, a64_run_from, list, list_into, A64Run, A64State, End, Found, Index, Key};
use hilofanur::{Memory, Refusal, Words, INDEX_BYTES, LONGEST_BLOCK, LONGEST_LINE};
use std::alloc::{GlobalAlloc, Layout, System};
use std::cell::Cell;

/// Counts the bytes that a thread allocates.
struct Counting;

thread_local! {
    static BYTES: Cell<usize> = const { Cell::new(0) };
}

// SAFETY: the system's allocator does it all.
unsafe impl GlobalAlloc for Counting {
    unsafe fn alloc(&self, layout: Layout) -> *mut u8 {
        BYTES.set(BYTES.get() + layout.size());
        System.alloc(layout)
    }

    unsafe fn dealloc(&self, bytes: *mut u8, layout: Layout) {
        System.dealloc(bytes, layout)
    }
}

#[global_allocator]
static COUNTING: Counting = Counting;

/// The bytes that are allocated meanwhile, and what comes of it.
fn allocated<T>(run: impl FnOnce() -> T) -> (usize, T) {
    let before = BYTES.get();
    let done = run();
    (BYTES.get() - before, done)
}

/// More than the longest block has.
const WORDS: usize = LONGEST_BLOCK / 4 + 1;

#[test]
fn listing() {
    let ret = 0xD65F_03C0_u32.to_le_bytes().repeat(WORDS);
    let mut unreadable = ret.clone();
    unreadable[4] = 0;
    let mut output = vec![0; WORDS * LONGEST_LINE];
    let line = "00000000 d65f03c0 ret x30\n".len();

    let (bytes, text) = allocated(|| list(&ret));
    assert_eq!((bytes, text.map(|text| text.len())), (WORDS * LONGEST_LINE, Ok(WORDS * line)));
    assert_eq!(allocated(|| list(&[])), (0, Ok(String::new())));
    assert_eq!(allocated(|| list(&ret[1..])), (0, Err(Refusal::ListingLength)));
    assert_eq!(allocated(|| list(&unreadable)), (0, Err(Refusal::OutsideForms)));
    let few = &unreadable[..8];
    assert_eq!(allocated(|| list(few)), (2 * LONGEST_LINE, Err(Refusal::OutsideForms)));

    assert_eq!(allocated(|| list_into(&ret, &mut output)), (0, Ok(WORDS * line)));
    for (block, room) in [(&ret[1..], 0), (&unreadable, 0), (&ret, WORDS * line - 1)] {
        let (bytes, answer) = allocated(|| list_into(block, &mut output[..room]));
        assert!(bytes == 0 && answer.is_err(), "{bytes} {answer:?}");
    }
}

/// More placings than the index has entries.
#[test]
fn index() {
    let (bytes, mut index) = allocated(|| Index::new(4_000));
    assert_eq!(bytes, INDEX_BYTES + 4_000);
    for pc in 0..2_000 {
        let key = Key { space: 1, pc };
        let (bytes, placed) = allocated(|| index.place(key, 1, &[1; 4]));
        let start = placed.unwrap();
        assert_eq!(bytes, 0);
        let found = Some(Found { start, code: &[1; 4], count: 1 });
        assert_eq!(allocated(|| index.get(key)), (0, found));
    }
    let key = Key { space: 0, pc: 0 };
    assert_eq!(allocated(|| index.get(key)), (0, None));
    let refused = (0, Err(Refusal::CodeLength));
    assert_eq!(allocated(|| index.place(key, 1, &[1; 5])), refused);
    assert_eq!(allocated(|| index.empty()), (0, ()));
    let store = index.store().clone();
    let (bytes, copy) = allocated(|| Index::from_saved(index.saved(), store));
    assert_eq!((bytes, allocated(|| copy.get(key))), (INDEX_BYTES, (0, None)));
}

#[test]
fn a64_runs() {
    let block = 0xD65F_03C0_u32.to_le_bytes().repeat(WORDS);
    let (words, mut state) = (WORDS as u64, A64State::default());
    let returned = (0, Ok(A64Run { end: End::Returned, steps: 1 }));
    let of = |bytes| Words { bytes, address: 0 };
    let none = Memory { bytes: &mut [], base: 0 };
    assert_eq!(allocated(|| a64_run(of(&block), &mut state, 9, none)), returned);
    let mut from = |block, first, bytes: &mut [u8], base| {
        allocated(|| a64_run_from(of(block), first, &mut state, 9, Memory { bytes, base }))
    };
    assert_eq!(from(&block, words - 1, &mut [], 0), returned);
    let end = (0, Ok(A64Run { end: End::OffTheEnd, steps: 0 }));
    assert_eq!(from(&block, words, &mut [], 0), end);
    assert_eq!(from(&block, u64::MAX, &mut [], 0), end);
    assert_eq!(from(&block[1..], 0, &mut [], 0), (0, Err(Refusal::BlockLength)));
    assert_eq!(from(&block, 0, &mut [0; 2], u64::MAX), (0, Err(Refusal::MemoryExceedsTop)));
}
