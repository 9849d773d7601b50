//! The index against its model: every answer, the code of a block that is found, the store, every byte under a refusal.

use crate::Compared;
use draw::index::{Call, Keys, Sequence};
use draw::values::Pool;
use draw::Random;
use hilofanur::boundary::{self, IndexLookupAnswer, IndexPlaceAnswer};
use hilofanur::INDEX_BYTES;
use steppers::{Block, IndexModel, Key, Placed};

/// The bytes around the store.
const AROUND: usize = 8;
const FILL: u8 = 0xA5;

/// An index of the library and the model, each with its store.
pub struct Pair {
    pub index: Box<[u8; INDEX_BYTES]>,
    pub model: IndexModel,
    /// With the bytes around it.
    store: Vec<u8>,
    model_store: Vec<u8>,
}

pub fn library_key((space, pc): Key) -> hilofanur::Key {
    hilofanur::Key { space, pc }
}

impl Pair {
    /// Both empty, with stores of `size` bytes; the index held `bytes` before.
    pub fn new(bytes: Vec<u8>, size: usize) -> Pair {
        let mut index: Box<[u8; INDEX_BYTES]> = bytes.try_into().unwrap();
        boundary::index_empty(&mut index);
        let store = vec![FILL; size + 2 * AROUND];
        Pair { index, model: IndexModel::default(), model_store: store.clone(), store }
    }

    pub fn empty(&mut self) {
        boundary::index_empty(&mut self.index);
        self.model.empty();
    }

    /// A placing, none where both refuse it; or how the answers differ.
    pub fn place(&mut self, key: Key, count: u8, code: &[u8]) -> Result<Option<Placed>, String> {
        let inside = AROUND..self.store.len() - AROUND;
        let placed = self.model.place(&mut self.model_store[inside.clone()], key, count, code);
        let expected = match &placed {
            Some(placed) => IndexPlaceAnswer { refusal: 0, start: placed.start as u64 },
            None => IndexPlaceAnswer { refusal: 15, start: 0 },
        };
        let before = placed.is_none().then(|| self.index.clone());
        let store = &mut self.store[inside];
        let answer = boundary::index_place(&mut self.index, store, library_key(key), count, code);
        if answer != expected {
            return Err(format!("{answer:?}, the model {expected:?}"));
        }
        if let Some(before) = before {
            self.unchanged(&before)?;
            self.same_store()?;
        }
        Ok(placed)
    }

    /// A lookup, whether it finds a block; or what differs.
    pub fn lookup(&self, key: Key) -> Result<bool, String> {
        let answer = boundary::index_lookup(&self.index, library_key(key));
        let block = self.model.lookup(key);
        let expected = match block {
            Some(block) => IndexLookupAnswer {
                refusal: 0,
                start: block.start as u64,
                length: block.length as u64,
                count: block.count.into(),
            },
            None => IndexLookupAnswer { refusal: 16, ..IndexLookupAnswer::default() },
        };
        if answer != expected {
            return Err(format!("{answer:?}, the model {expected:?}"));
        }
        match block {
            Some(block) if self.store[AROUND..][block.start..block.end()] != block.code => {
                Err(format!("{answer:?}: the store does not hold the block's code"))
            }
            _ => Ok(block.is_some()),
        }
    }

    pub fn unchanged(&self, before: &[u8; INDEX_BYTES]) -> Result<(), String> {
        if *self.index == *before {
            return Ok(());
        }
        Err("the index is changed".to_string())
    }

    /// Every byte of the store and around it.
    pub fn same_store(&self) -> Result<(), String> {
        if self.store == self.model_store {
            return Ok(());
        }
        Err("the store is not the model's".to_string())
    }

    pub fn look_up_all(&self, keys: &[Key]) -> Result<(), String> {
        for &key in keys {
            self.lookup(key).map_err(|text| format!("then {key:x?}: {text}"))?;
        }
        Ok(())
    }
}

pub struct Index {
    keys: Keys,
    pool: Pool,
    /// What is asked now, and of whom.
    sequence: Sequence,
    pair: Pair,
}

impl Default for Index {
    fn default() -> Index {
        let keys = Keys::default();
        let mut sequence = Sequence::draw(&mut Random(0), &keys);
        sequence.left = 0; // the first case begins another
        Index { keys, pool: Pool::default(), sequence, pair: Pair::new(vec![0; INDEX_BYTES], 0) }
    }
}

impl Index {
    /// Another sequence, on an index that held any bytes or the last one's.
    fn begin(&mut self, random: &mut Random) {
        self.sequence = Sequence::draw(random, &self.keys);
        let bytes = match random.below(2) {
            0 => self.pool.cut(random, INDEX_BYTES),
            _ => self.pair.index.to_vec(),
        };
        self.pair = Pair::new(bytes, self.sequence.store);
    }

    fn call(&mut self, random: &mut Random, call: Call) -> Result<usize, String> {
        match call {
            Call::Empty => {
                self.pair.empty();
                Ok(0)
            }
            Call::Lookup(key) => {
                let before = self.pair.model.lookup(key).is_none().then(|| self.pair.index.clone());
                let found = self.pair.lookup(key)?;
                before.map_or(Ok(()), |before| self.pair.unchanged(&before))?;
                Ok(if found { 1 } else { 2 })
            }
            Call::Place { key, count, length } => {
                let code = self.pool.cut(random, length);
                let Some(placed) = self.pair.place(key, count, &code)? else { return Ok(3) };
                self.dropped(&placed)?;
                let reasons = [&placed.oldest, &placed.overlapped, &placed.same_key];
                Ok(7 - reasons.iter().position(|keys| !keys.is_empty()).unwrap_or(3))
            }
        }
    }

    /// Looks up what a placing dropped, and those that come next: the oldest left, and the blocks that touch the new one.
    fn dropped(&self, placed: &Placed) -> Result<(), String> {
        let blocks = &self.pair.model.blocks;
        let (first, new) = (&blocks[0], &blocks[blocks.len() - 1]);
        self.pair.look_up_all(&placed.overlapped)?;
        self.pair.look_up_all(&placed.oldest)?;
        self.pair.look_up_all(&[first.key, new.key])?;
        let touch = |one: &Block, other: &Block| one.end() == other.start;
        for block in blocks.iter().filter(|block| touch(block, new) || touch(new, block)) {
            self.pair.look_up_all(&[block.key])?;
        }
        Ok(())
    }

    /// Every key now and then, and at the end, with the whole store.
    fn all(&self, random: &mut Random) -> Result<(), String> {
        let Sequence { left, ref keys, .. } = self.sequence;
        if left == 0 {
            self.pair.same_store()?;
        }
        if left == 0 || random.below(keys.len()) == 0 {
            self.pair.look_up_all(keys)?;
        }
        Ok(())
    }
}

impl Compared for Index {
    const NAME: &'static str = "index";
    const OUTCOMES: &'static [&'static str] = &[
        "emptied",
        "found",
        "refused 16",
        "refused 15",
        "placed",
        "same key dropped",
        "overlapped dropped",
        "oldest dropped",
    ];
    // Only a long sequence drops the oldest.
    const ENOUGH: u64 = 100_000;

    fn compare(&mut self, random: &mut Random) -> Result<usize, String> {
        if self.sequence.left == 0 {
            self.begin(random);
        }
        let blocks = &self.pair.model.blocks;
        let (number, end) = (blocks.len(), blocks.last().map_or(0, |newest| newest.end()));
        let call = self.sequence.call(random, end);
        let compared = self.call(random, call);
        let compared = compared.and_then(|outcome| self.all(random).map(|()| outcome));
        compared.map_err(|text| {
            // From here on the two go apart.
            self.sequence.left = 0;
            let store = self.sequence.store;
            format!("store {store}, {number} blocks, the last ends at {end}, {call:x?}: {text}")
        })
    }
}
