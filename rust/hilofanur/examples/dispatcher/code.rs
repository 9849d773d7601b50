//! Blocks: translated, placed in the library's index, found again by PC. Those that FENCE.I ends are
//! run once, from a store of their own.

use hilofanur::{place, translate, Block, EndKind, Guest, Host};
use hilofanur::{Index, Key, Refusal, Words, LONGEST_BLOCK};
use std::collections::BTreeSet;

/// The addresses on the host of the index's store and of the one for a block that is run once.
const ADDRESS: u64 = 0x5555_0000_0000;
const ONCE: u64 = 0x5555_4000_0000;
/// The one guest's address space.
const SPACE: u64 = 0;
/// A register's slot is at X0 + 64 + 8n; the helpers are numbers here, as no host code is called.
pub const HOST: Host = Host {
    slot_offset: 64,
    memory_helper: 0x5555_8888_0000,
    helper32: 0x5555_8888_4000,
    helper16: 0x5555_8888_8000,
};

/// What a dispatcher does about FENCE.I.
#[derive(Clone, Copy, Debug, PartialEq, Eq)]
pub enum OnFence {
    Empty,
    /// The index keeps its blocks, as if the guest never changed its code: only to show what comes of it.
    Keep,
}

pub struct Code {
    once: [u8; LONGEST_BLOCK],
    index: Index,
    output: [u8; LONGEST_BLOCK],
    on_fence: OnFence,
    /// Blocks translated, and their words.
    pub translated: u64,
    pub words: u64,
    /// Blocks placed, and lookups that found theirs.
    pub placed: u64,
    pub found: u64,
    /// Blocks that FENCE.I ended, and those that left the index by its emptying.
    pub fences: u64,
    pub emptied: u64,
    /// The PCs of all blocks that were ever placed.
    pcs: BTreeSet<u64>,
}

/// A block that is ready to run, until the next one is asked for.
pub struct Ready {
    start: usize,
    length: usize,
    /// It is not in the index's store.
    once: bool,
    pub count: u32,
    /// As it was translated, if it was not found.
    pub new: Option<Block>,
}

fn key(pc: u64) -> Key {
    Key { space: SPACE, pc }
}

impl Code {
    /// With a store of so many bytes.
    pub fn new(store: usize, on_fence: OnFence) -> Code {
        Code {
            once: [0; LONGEST_BLOCK],
            index: Index::new(store),
            output: [0; LONGEST_BLOCK],
            on_fence,
            translated: 0,
            words: 0,
            placed: 0,
            found: 0,
            fences: 0,
            emptied: 0,
            pcs: BTreeSet::new(),
        }
    }

    /// The block at the guest's PC: the one in the index, or a new one.
    pub fn block(&mut self, guest: &Guest) -> Result<Ready, Refusal> {
        if let Some(found) = self.index.get(key(guest.pc)) {
            self.found += 1;
            let (start, length, count) = (found.start, found.code.len(), found.count.into());
            return Ok(Ready { start, length, once: false, count, new: None });
        }
        let block = translate(guest, &HOST, &mut self.output)?;
        self.translated += 1;
        self.words += block.length as u64 / 4;
        let once = block.end_kind == EndKind::Drop;
        let start = if once { self.fence(&block)? } else { self.keep(guest.pc, &block)? };
        let Block { length, count, .. } = block;
        Ok(Ready { start, length, once, count, new: Some(block) })
    }

    /// Places the new block in the index; where.
    fn keep(&mut self, pc: u64, block: &Block) -> Result<usize, Refusal> {
        let count = u8::try_from(block.count).expect("at most 64 instructions");
        let start = self.index.place(key(pc), count, &self.output[..block.length])?;
        self.placed += 1;
        self.pcs.insert(pc);
        Ok(start)
    }

    /// Places the new block, which FENCE.I ended, outside the index, and empties that: no block of before is found
    /// after it.
    fn fence(&mut self, block: &Block) -> Result<usize, Refusal> {
        self.fences += 1;
        if self.on_fence == OnFence::Empty {
            self.emptied += self.kept();
            self.index.empty();
        }
        Ok(place(&mut self.once, 0, &self.output[..block.length])?.start)
    }

    /// Blocks that are in the index.
    fn kept(&self) -> u64 {
        self.pcs.iter().filter(|&&pc| self.index.get(key(pc)).is_some()).count() as u64
    }

    /// Blocks that left the index because others took their place.
    pub fn dropped(&self) -> u64 {
        self.placed - self.emptied - self.kept()
    }

    /// The words of a block.
    pub fn words(&self, block: &Ready) -> Words<'_> {
        let (store, address) =
            if block.once { (&self.once[..], ONCE) } else { (&self.index.store()[..], ADDRESS) };
        let bytes = &store[block.start..][..block.length];
        Words { bytes, address: address + block.start as u64 }
    }
}

#[cfg(test)]
mod tests {
    use super::*;

    const FENCE_I: [u8; 4] = [0x0F, 0x10, 0, 0];

    fn guest(bytes: &[u8], pc: u64) -> Guest<'_> {
        Guest { bytes, pc, limit: 64, ignore_ebreak: false }
    }

    /// Whether the block was translated, its count, its words' number and address.
    fn ask(code: &mut Code, bytes: &[u8], pc: u64) -> (bool, u32, usize, u64) {
        let ready = code.block(&guest(bytes, pc)).unwrap();
        let Words { bytes, address } = code.words(&ready);
        assert!(bytes.ends_with(&0xD65F_03C0_u32.to_le_bytes()));
        (ready.new.is_some(), ready.count, bytes.len() / 4, address)
    }

    /// C.NOP, two times C.NOP, and C.NOP with FENCE.I after it: placed are the first two, once each, and after
    /// FENCE.I again.
    #[test]
    fn fence_i_empties() {
        let mut code = Code::new(64, OnFence::Empty);
        let fenced = [&[1, 0][..], &FENCE_I, &[1, 0]].concat();
        for round in 1..=3 {
            for new in [true, false, false] {
                assert_eq!(ask(&mut code, &[1, 0], 0x1000), (new, 1, 3, ADDRESS));
                assert_eq!(ask(&mut code, &[1, 0, 1, 0], 0x2000), (new, 2, 3, ADDRESS + 12));
            }
            // A key that has a block is looked up, one that has a block FENCE.I ended is translated.
            assert_eq!(ask(&mut code, &fenced, 0x3000), (true, 2, 3, ONCE));
            for pc in [0x1000, 0x2000, 0x3000] {
                assert_eq!(code.index.get(key(pc)), None);
            }
            let counts = (code.translated, code.words, code.placed, code.found);
            assert_eq!(counts, (3 * round, 9 * round, 2 * round, 4 * round));
            assert_eq!((code.fences, code.emptied, code.dropped()), (round, 2 * round, 0));
        }
        assert_eq!(ask(&mut code, &fenced, 0x3000), (true, 2, 3, ONCE));
        assert_eq!((code.fences, code.emptied, code.dropped()), (4, 6, 0));
    }

    /// A store of one block: the second takes the place of the first, which is dropped and not emptied.
    #[test]
    fn dropped_and_emptied() {
        let mut code = Code::new(12, OnFence::Empty);
        assert_eq!(ask(&mut code, &[1, 0], 0x1000), (true, 1, 3, ADDRESS));
        assert_eq!(ask(&mut code, &[1, 0], 0x2000), (true, 1, 3, ADDRESS));
        assert_eq!((code.placed, code.emptied, code.dropped()), (2, 0, 1));
        assert_eq!(ask(&mut code, &FENCE_I, 0x3000), (true, 1, 3, ONCE));
        assert_eq!((code.placed, code.emptied, code.dropped()), (2, 1, 1));
        assert_eq!(ask(&mut code, &[1, 0], 0x2000), (true, 1, 3, ADDRESS));
        assert_eq!((code.placed, code.emptied, code.dropped()), (3, 1, 1));
    }

    /// The code at a PC changes: found is the old block where the index is kept, a new one where it is emptied.
    #[test]
    fn changed_code() {
        for (on_fence, expected) in
            [(OnFence::Empty, (true, 2, 3, ADDRESS)), (OnFence::Keep, (false, 1, 3, ADDRESS))]
        {
            let mut code = Code::new(64, on_fence);
            ask(&mut code, &[1, 0], 0x1000);
            assert_eq!(ask(&mut code, &FENCE_I, 0x3000), (true, 1, 3, ONCE));
            assert_eq!(ask(&mut code, &[1, 0, 1, 0], 0x1000), expected);
            assert_eq!(code.index.get(key(0x3000)), None);
        }
    }
}
