//! The long life of one index: placings and lookups, never emptied, each compared with the model; and what a lookup costs
//! at the start and at the end.

use crate::index::{library_key, Pair};
use draw::index::key;
use draw::values::Pool;
use draw::{Random, LONGEST};
use hilofanur::{boundary, INDEX_BYTES};
use std::hint::black_box;
use std::time::{Duration, Instant};
use steppers::{Key, Placed};

const STORE: usize = 1 << 20;
const KEYS: usize = 2_048;
/// The most words of a block, another after every so many calls: the store holds thousands of blocks, or fewer than 512.
const WORDS: [usize; 6] = [1, 16, 64, 400, 1_000, LONGEST / 4];
const CALLS: u64 = 1 << 16;
/// After every so many calls the whole store is compared and every key looked up.
const WHOLE: u64 = 1 << 20;
/// How often a lookup's time is taken, and over how many lookups.
const MOMENTS: usize = 16;
const LOOKUPS: usize = 8_192;

struct Soak {
    random: Random,
    pair: Pair,
    pool: Pool,
    keys: Vec<Key>,
    words: usize,
    /// Found, not found, placed; dropped for the same key, overlapped, as the oldest.
    met: [u64; 6],
}

/// True if nothing differs.
pub fn soak(count: u64, seed: u64) -> bool {
    let (mut random, pool) = (Random(seed), Pool::default());
    let pair = Pair::new(pool.cut(&mut random, INDEX_BYTES), STORE);
    let keys = (0..KEYS).map(|_| key(&mut random)).collect();
    let mut soak = Soak { random, pair, pool, keys, words: 1, met: [0; 6] };
    let compared = soak.live(count);
    let [found, missed, placed, same_key, overlapped, oldest] = soak.met;
    println!("soak: found {found}, not found {missed}, placed {placed}, dropped: same key {same_key}, overlapped {overlapped}, oldest {oldest}");
    let differences = match compared {
        Ok(()) => 0,
        Err(text) => {
            println!("soak: {text}");
            1
        }
    };
    println!("soak: {count} calls, differences {differences}");
    differences == 0
}

impl Soak {
    /// The calls, and the lookup's time before and after them; or the first difference.
    fn live(&mut self, count: u64) -> Result<(), String> {
        let [hit, miss, dropped] = self.lookup_time()?;
        println!("soak: a lookup at the start: found {hit:.1} ns, not found {miss:.1} ns, dropped {dropped:.1} ns");
        let mut shown = Instant::now();
        for call in 0..count {
            if call % CALLS == 0 {
                self.words = self.random.pick(&WORDS);
            }
            let whole = (call + 1) % WHOLE == 0;
            let compared = self.call().and_then(|()| if whole { self.whole() } else { Ok(()) });
            compared.map_err(|text| format!("call {call}: {text}"))?;
            if call % 4096 == 0 && shown.elapsed() > Duration::from_secs(5) {
                println!("soak: {call} of {count} calls");
                shown = Instant::now();
            }
        }
        self.whole()?;
        let [hit, miss, dropped] = self.lookup_time()?;
        println!("soak: a lookup at the end: found {hit:.1} ns, not found {miss:.1} ns, dropped {dropped:.1} ns");
        Ok(())
    }

    fn whole(&self) -> Result<(), String> {
        self.pair.same_store()?;
        self.pair.look_up_all(&self.keys)
    }

    fn call(&mut self) -> Result<(), String> {
        let key = self.random.pick(&self.keys);
        match self.random.below(4) {
            0 | 1 => self.place(key),
            2 => self.lookup(key),
            _ => {
                let blocks = &self.pair.model.blocks;
                let key = blocks[self.random.below(blocks.len())].key;
                self.lookup(key)
            }
        }
    }

    fn place(&mut self, key: Key) -> Result<(), String> {
        let length = 4 * (1 + self.random.below(self.words));
        let (count, code) = (self.random.next() as u8, self.pool.cut(&mut self.random, length));
        let Some(Placed { same_key, overlapped, oldest, .. }) =
            self.pair.place(key, count, &code)?
        else {
            return Err(format!("{length} bytes are refused"));
        };
        let dropped = [1, same_key.len(), overlapped.len(), oldest.len()];
        for (met, more) in self.met[2..].iter_mut().zip(dropped) {
            *met += more as u64;
        }
        Ok(())
    }

    fn lookup(&mut self, key: Key) -> Result<(), String> {
        let found = self.pair.lookup(key)?;
        self.met[usize::from(!found)] += 1;
        Ok(())
    }

    /// Nanoseconds of a lookup that finds a block of 512, of one that finds none, and of one under the key of a block that
    /// was dropped: the mean of moments some placings apart, between which dropped blocks gather and are cleared away.
    fn lookup_time(&mut self) -> Result<[f64; 3], String> {
        self.words = 16;
        let mut times = [0.0; 3];
        let mut placed = Vec::new();
        for moment in 0..MOMENTS {
            for _ in 0..if moment == 0 { 1_024 } else { 32 } {
                let key = key(&mut self.random);
                self.place(key)?;
                placed.push(key);
            }
            let live: Vec<Key> = self.pair.model.blocks.iter().map(|block| block.key).collect();
            let hits: Vec<Key> = (0..LOOKUPS).map(|_| self.random.pick(&live)).collect();
            let misses: Vec<Key> = (0..LOOKUPS).map(|_| key(&mut self.random)).collect();
            let gone = placed.iter().copied().filter(|&key| self.pair.model.lookup(key).is_none());
            let gone: Vec<Key> = gone.collect();
            let dropped: Vec<Key> = (0..LOOKUPS).map(|_| self.random.pick(&gone)).collect();
            for (time, keys) in times.iter_mut().zip([hits, misses, dropped]) {
                *time += self.least(&keys) / MOMENTS as f64;
            }
        }
        Ok(times)
    }

    /// The least time of a round through the keys, in nanoseconds a lookup.
    fn least(&self, keys: &[Key]) -> f64 {
        let round = || {
            let start = Instant::now();
            for &key in keys {
                black_box(boundary::index_lookup(&self.pair.index, library_key(key)));
            }
            start.elapsed().as_nanos() as f64 / keys.len() as f64
        };
        (0..60).map(|_| round()).fold(f64::MAX, f64::min)
    }
}
