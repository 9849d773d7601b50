//! A plain index of the library's design, with native numbers: a log of slots, linked from the cells of a hash table.
//! The slot of a block that is dropped leaves its chain at once. It stays in the log, with length 0, until more than twice
//! as many slots are used as there are blocks, and a few; then the others move together.

use crate::index_model::Key;

const ENTRIES: usize = 512;
const CELLS: usize = 2_048;
const SLOTS: usize = 1_024;

/// What a lookup answers.
#[derive(Clone, Copy, Debug, PartialEq, Eq)]
pub struct Found {
    pub start: usize,
    pub length: usize,
    pub count: u8,
}

#[derive(Clone, Copy, Default)]
struct Slot {
    key: Key,
    start: usize,
    /// 0 where the block is dropped.
    length: usize,
    /// The next slot of its chain, which is older, 0 where none.
    next: u16,
    count: u8,
}

pub struct PlainIndex {
    /// The head of each cell's chain, 0 where none.
    cells: [u16; CELLS],
    /// Slot 0 is not used.
    slots: [Slot; SLOTS],
    /// The last slot used.
    used: usize,
}

impl Default for PlainIndex {
    fn default() -> PlainIndex {
        PlainIndex { cells: [0; CELLS], slots: [Slot::default(); SLOTS], used: 0 }
    }
}

/// FNV-1a, 32 bits, over space and PC, lowest byte first.
fn cell((space, pc): Key) -> usize {
    let hash = fnv1a(fnv1a(0x811C_9DC5, space), pc);
    hash as usize % CELLS
}

fn fnv1a(mut hash: u32, number: u64) -> u32 {
    for byte in number.to_le_bytes() {
        hash = (hash ^ u32::from(byte)).wrapping_mul(0x0100_0193);
    }
    hash
}

impl PlainIndex {
    pub fn empty(&mut self) {
        self.cells.fill(0);
        self.used = 0;
    }

    /// The start; none where it is refused by 15.
    pub fn place(&mut self, store: &mut [u8], key: Key, count: u8, code: &[u8]) -> Option<usize> {
        let length = code.len();
        if length == 0 || !length.is_multiple_of(4) || length > store.len() {
            return None;
        }
        let start = self.start(length, store.len());
        let others = self.sweep(key, start, start + length);
        if self.used > (2 * (others + 1) + 62).min(SLOTS - 2) {
            self.compact();
        }
        self.push(Slot { key, start, length, next: 0, count });
        store[start..start + length].copy_from_slice(code);
        Some(start)
    }

    /// None where it is refused by 16.
    pub fn lookup(&self, key: Key) -> Option<Found> {
        let mut p = self.cells[cell(key)];
        while p != 0 {
            let slot = &self.slots[p as usize];
            if slot.key == key {
                let Slot { start, length, count, .. } = *slot;
                return Some(Found { start, length, count });
            }
            p = slot.next;
        }
        None
    }

    fn start(&self, length: usize, room: usize) -> usize {
        if self.used == 0 {
            return 0;
        }
        let newest = &self.slots[self.used];
        let end = newest.start + newest.length;
        if end + length <= room {
            end
        } else {
            0
        }
    }

    /// Drops the block under the key, those that share a byte, and the oldest beyond 511; how many others stay.
    fn sweep(&mut self, key: Key, start: usize, end: usize) -> usize {
        let mut room = ENTRIES - 1;
        let mut evicted = |slot: &Slot| {
            if slot.length == 0 {
                return false;
            }
            let overlaps = slot.start < end && start < slot.start + slot.length;
            if slot.key == key || overlaps || room == 0 {
                return true;
            }
            room -= 1;
            false
        };
        let mut last = self.used;
        while let Some(before) = self.slots[1..=last].iter().rposition(&mut evicted) {
            self.drop_at(before + 1);
            last = before;
        }
        ENTRIES - 1 - room
    }

    fn drop_at(&mut self, p: usize) {
        let Slot { key, next, .. } = self.slots[p];
        let mut link = &mut self.cells[cell(key)];
        while *link != p as u16 {
            link = &mut self.slots[*link as usize].next;
        }
        *link = next;
        self.slots[p].length = 0;
    }

    fn compact(&mut self) {
        let last = self.used;
        self.empty();
        for p in 1..=last {
            let slot = self.slots[p];
            if slot.length != 0 {
                self.push(slot);
            }
        }
    }

    fn push(&mut self, slot: Slot) {
        let cell = &mut self.cells[cell(slot.key)];
        self.used += 1;
        self.slots[self.used] = Slot { next: *cell, ..slot };
        *cell = self.used as u16;
    }
}
