//! The listing against the plain writer: refusals, length, every byte of the output and after it, what the offset
//! names.

use crate::Compared;
use draw::forms::is_a64;
use draw::listing::{block, room};
use draw::{words, Random};
use hilofanur::{boundary, LONGEST_LINE};
use steppers::{list, ListAnswer};

/// The bytes after the output.
const BEHIND: usize = 64;
const REFUSALS: [u64; 4] = [0, 12, 13, 14];

pub struct Listing {
    /// What an output holds before each call.
    fill: Vec<u8>,
}

impl Default for Listing {
    fn default() -> Listing {
        Listing { fill: Random(0).bytes(0x1_0000) }
    }
}

/// Whether the offset is that of a word outside the forms beside 13, and 0 elsewhere.
fn offset_holds(block: &[u8], refusal: u64, offset: u64) -> bool {
    match refusal {
        13 => {
            let word = words(block).get(offset as usize / 4).copied();
            offset.is_multiple_of(4) && word.is_some_and(|word| !is_a64(word))
        }
        _ => offset == 0,
    }
}

impl Compared for Listing {
    const NAME: &'static str = "list";
    const OUTCOMES: &'static [&'static str] =
        &["accepted", "refused 12", "refused 13", "refused 14", "accepted without a word"];

    fn compare(&mut self, random: &mut Random) -> Result<usize, String> {
        let block = block(random);
        let most = LONGEST_LINE * block.len().div_ceil(4);
        let whole = list(&block, &mut vec![0; most]);
        // Also where there is no listing the output would hold it at times.
        let length = if whole.refusal == 0 { whole.length as usize } else { most };
        let room = room(random, length);
        let mut plain = self.fill[..room + BEHIND].to_vec();
        let mut output = plain.clone();
        let expected = list(&block, &mut plain[..room]);
        let answer = boundary::list(&block, &mut output[..room]);
        let same = output == plain;
        let ListAnswer { refusal, length, .. } = expected;
        if (answer.refusal, answer.length) != (refusal, length)
            || !offset_holds(&block, answer.refusal, answer.offset)
            || !same
        {
            return Err(format!(
                "{block:x?}, output {room}: {answer:?}, the plain writer {expected:?}, output the same: {same}"
            ));
        }
        if block.is_empty() {
            return Ok(4);
        }
        Ok(REFUSALS.iter().position(|&number| number == refusal).unwrap())
    }
}
