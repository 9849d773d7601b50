//! The index of blocks: up to 512 by key, in a store of its own where new ones take the place of old ones.

use crate::{accepted, boundary, Refusal, INDEX_BYTES};
use std::fmt;
use std::ops::Deref;

/// What a block is found by.
#[derive(Clone, Copy, Debug, PartialEq, Eq, Hash)]
pub struct Key {
    /// The address space number: any that tells apart guests, or address spaces of one, with different code at one
    /// PC.
    pub space: u64,
    /// The PC of the first instruction.
    pub pc: u64,
}

/// A block of an index.
#[derive(Clone, Copy, Debug, PartialEq, Eq)]
pub struct Found<'a> {
    /// The code's first byte in the store.
    pub start: usize,
    /// The code, where it stands in the store.
    pub code: &'a [u8],
    /// The count that it was placed with.
    pub count: u8,
}

/// Up to 512 blocks by key, and the store that holds their code.
///
/// [`Index::get`] answers the block placed last under its key, with the code as it was placed, unless that block was
/// dropped or the index emptied since. The store is plain bytes ([`Index::new`]), or on AArch64 Linux one whose words
/// the processor runs (`Index::executable`).
///
/// A block that ends as [`crate::EndKind::Drop`] is run from elsewhere and not placed: so it is translated each time
/// the guest comes to it, and each time the index is emptied. Then no block from before the guest's FENCE.I is found
/// after it.
///
/// ```
/// use hilofanur::{Found, Index, Key, Refusal};
///
/// let mut index = Index::new(20);
/// let [one, two, three] = [0x1000, 0x1010, 0x1020].map(|pc| Key { space: 7, pc });
/// assert_eq!(index.place(one, 3, &[1; 8])?, 0);
/// assert_eq!(index.place(two, 1, &[2; 8])?, 8);
/// assert_eq!(index.get(one), Some(Found { start: 0, code: &[1; 8], count: 3 }));
///
/// // The rest is too short: the front again, which drops the block that stands there, and no other.
/// assert_eq!(index.place(three, 1, &[3; 8])?, 0);
/// assert_eq!(index.get(one), None);
/// assert_eq!(index.get(two).map(|found| found.start), Some(8));
///
/// index.empty();
/// assert_eq!(index.get(two), None);
/// # Ok::<(), Refusal>(())
/// ```
///
/// An index owns its store, whose length stays. No second index has that store, others only read it, and nothing that
/// was found outlives a change:
///
/// ```compile_fail,E0599
/// let index = hilofanur::Index::new(4_096);
/// let second = index.clone();
/// ```
/// ```compile_fail,E0594
/// let index = hilofanur::Index::new(4_096);
/// index.store()[0] = 1;
/// ```
/// ```compile_fail,E0502
/// let mut index = hilofanur::Index::new(4_096);
/// let found = index.get(hilofanur::Key { space: 0, pc: 0 });
/// index.empty();
/// drop(found);
/// ```
pub struct Index<S = Box<[u8]>> {
    /// In a box, as they are many for a stack.
    pub(crate) bytes: Box<[u8; INDEX_BYTES]>,
    pub(crate) store: S,
}

impl Index {
    /// An empty index with a store of so many bytes, all zero. One of [`crate::LONGEST_BLOCK`] takes every block.
    ///
    /// # Panics
    /// Where `length` is above `isize::MAX`.
    pub fn new(length: usize) -> Index {
        Index::over(vec![0; length].into())
    }

    /// Places `code` in the store, under a key; where it starts.
    ///
    /// It goes after the block placed last, or to the store's front where the rest is too short or the index is
    /// empty. This is chosen first. Then are dropped the block under the same key, every block that shares a byte
    /// with the new one, and, if 512 are still left, the oldest; no other. Other bytes of the store stay.
    ///
    /// # Errors
    /// Refusal 15.
    pub fn place(&mut self, key: Key, count: u8, code: &[u8]) -> Result<usize, Refusal> {
        let answer = boundary::index_place(&mut self.bytes, &mut self.store, key, count, code);
        accepted(answer.refusal as u32)?;
        Ok(answer.start as usize)
    }

    /// The index and its store whose bytes these are: those of [`Index::saved`] and of [`Index::store`].
    ///
    /// What an index promises holds only if both are the bytes of one moment of an index and its store. With any
    /// other bytes every call still ends and touches nothing else. A key may then have any bytes of the store, and
    /// the promises begin with [`Index::empty`].
    pub fn from_saved(index: &[u8; INDEX_BYTES], store: Box<[u8]>) -> Index {
        Index { bytes: boxed(index.to_vec()), store }
    }
}

impl<S> Index<S> {
    /// An empty index over a store that nobody else has.
    pub(crate) fn over(store: S) -> Index<S> {
        let mut index = Index { bytes: boxed(vec![0; INDEX_BYTES]), store };
        index.empty();
        index
    }

    /// No key has a block then; the store's bytes stay.
    pub fn empty(&mut self) {
        boundary::index_empty(&mut self.bytes);
    }

    /// The store, to read.
    pub fn store(&self) -> &S {
        &self.store
    }

    /// The index as bytes, without its store: for [`Index::from_saved`].
    pub fn saved(&self) -> &[u8; INDEX_BYTES] {
        &self.bytes
    }
}

impl<S: Deref<Target = [u8]>> Index<S> {
    /// The block under a key, if there is one.
    pub fn get(&self, key: Key) -> Option<Found<'_>> {
        let answer = boundary::index_lookup(&self.bytes, key);
        accepted(answer.refusal as u32).ok()?;
        let start = answer.start as usize;
        // Beyond the store only if the index came from other bytes.
        let code = self.store.get(start..start.checked_add(answer.length as usize)?)?;
        Some(Found { start, code, count: answer.count as u8 })
    }
}

impl<S> fmt::Debug for Index<S> {
    fn fmt(&self, f: &mut fmt::Formatter) -> fmt::Result {
        f.debug_struct("Index").finish_non_exhaustive()
    }
}

fn boxed(bytes: Vec<u8>) -> Box<[u8; INDEX_BYTES]> {
    bytes.try_into().expect("as many bytes as an index has")
}
