//! The index's model, as document 02 has it: the blocks in the order of their placing, oldest first.

/// The most blocks.
const ENTRIES: usize = 512;

/// Space and PC.
pub type Key = (u64, u64);

#[derive(Clone, Debug, PartialEq, Eq)]
pub struct Block {
    pub key: Key,
    /// Its first byte in the store.
    pub start: usize,
    pub length: usize,
    pub count: u8,
    pub code: Vec<u8>,
}

impl Block {
    pub fn end(&self) -> usize {
        self.start + self.length
    }
}

/// What a placing did: the start, and the keys of the blocks that it left out, by the reason.
#[derive(Clone, Debug, PartialEq, Eq)]
pub struct Placed {
    pub start: usize,
    pub same_key: Vec<Key>,
    pub overlapped: Vec<Key>,
    pub oldest: Vec<Key>,
}

#[derive(Clone, Debug, Default)]
pub struct IndexModel {
    pub blocks: Vec<Block>,
}

impl IndexModel {
    /// Empty: no blocks.
    pub fn empty(&mut self) {
        self.blocks.clear();
    }

    /// Placing; none where it is refused by 15.
    pub fn place(&mut self, store: &mut [u8], key: Key, count: u8, code: &[u8]) -> Option<Placed> {
        let length = code.len();
        if length == 0 || !length.is_multiple_of(4) || length > store.len() {
            return None;
        }
        // Chosen before anything is left out.
        let start = match self.blocks.last() {
            Some(newest) if newest.end() + length <= store.len() => newest.end(),
            _ => 0,
        };
        let end = start + length;
        let same_key = self.leave_out(|block| block.key == key);
        let overlapped = self.leave_out(|block| start.max(block.start) < end.min(block.end()));
        let full = usize::from(self.blocks.len() == ENTRIES);
        let oldest = self.blocks.drain(..full).map(|block| block.key).collect();
        self.blocks.push(Block { key, start, length, count, code: code.to_vec() });
        store[start..end].copy_from_slice(code);
        Some(Placed { start, same_key, overlapped, oldest })
    }

    /// Lookup; none where it is refused by 16.
    pub fn lookup(&self, key: Key) -> Option<&Block> {
        self.blocks.iter().find(|block| block.key == key)
    }

    /// The keys of those left out.
    fn leave_out(&mut self, which: impl Fn(&Block) -> bool) -> Vec<Key> {
        self.blocks.extract_if(.., |block| which(block)).map(|block| block.key).collect()
    }
}
