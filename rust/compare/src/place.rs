//! Place against `alloc`: refusals, start, used, and every byte of the store and around it.

use crate::Compared;
use draw::place::PlaceCase;
use draw::Random;
use hilofanur::boundary;

/// The bytes around the store.
const AROUND: usize = 8;

#[derive(Default)]
pub struct Place;

impl Compared for Place {
    const NAME: &'static str = "place";
    const OUTCOMES: &'static [&'static str] = &["accepted", "refused 7", "refused 8"];

    fn compare(&mut self, random: &mut Random) -> Result<usize, String> {
        let bound = if random.below(64) == 0 { 1000 } else { 80 };
        let size = random.below(bound);
        let (used, length) = (random.below(16), random.below(4));
        let PlaceCase { store, used, code } = PlaceCase::draw(random, size, used, length);
        let mut store = [random.bytes(AROUND), store, random.bytes(AROUND)].concat();
        let mut expected_store = store.clone();
        let inside = AROUND..AROUND + size;
        let expected = oracle::place(&mut expected_store[inside.clone()], used, &code);
        let answer = boundary::place(&mut store[inside], used, &code);
        let numbers = (u64::from(expected.refusal), expected.start, expected.used);
        if (answer.refusal, answer.start, answer.used) != numbers || store != expected_store {
            let same = store == expected_store;
            return Err(format!(
                "store {size}, used {used}, code {}: {answer:?}, the Rust {expected:?}, store the same: {same}",
                code.len()
            ));
        }
        Ok(expected.refusal.saturating_sub(6) as usize)
    }
}
