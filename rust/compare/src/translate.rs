//! Translate against `compile_native_block`, with its count as the limit where FENCE.I ends a block, and with the
//! words of Zbb where a block reaches it: refusals, words, count, end kind, and the output after the block.

use crate::{question, Compared, Zbb};
use draw::case::enough;
use draw::guest::Guests;
use draw::{longest, Case, Random, LONGEST};
use hilofanur::boundary;
use oracle::{expected, Answer};

pub struct Translate {
    guests: Guests,
    /// The block that the Rust has.
    block: Vec<u8>,
    /// What the library's output holds before each call.
    fill: Vec<u8>,
    output: Vec<u8>,
    zbb: Zbb,
    /// Whether a block with Zbb was accepted with just the most bytes that its limit needs.
    most: bool,
}

impl Default for Translate {
    fn default() -> Translate {
        let fill = Random(0).bytes(LONGEST + 64);
        let (guests, block, output) = (Guests::default(), vec![0; LONGEST], fill.clone());
        Translate { guests, block, fill, output, zbb: Zbb::default(), most: false }
    }
}

impl Translate {
    /// The library's answer, and whether the output is `length` bytes of the Rust's block and then as it was.
    fn ask(&mut self, case: &Case, length: usize) -> (Answer, bool) {
        let (guest, host) = question(case);
        let a = boundary::translate(&guest, &host, &mut self.output[..case.room]);
        let same = self.output[..length] == self.block[..length]
            && self.output[length..] == self.fill[length..];
        let written = if same { length } else { self.output.len() };
        self.output[..written].copy_from_slice(&self.fill[..written]);
        (Answer { refusal: a.refusal, length: a.length, count: a.count, end: a.end }, same)
    }
}

/// The output bytes offered for a block of so many: enough, one less, any number below, the most at its limit.
fn room(random: &mut Random, length: usize, limit: u32) -> usize {
    match random.below(16) {
        0 => length.max(1) - 1,
        1 => random.below(length + 1),
        2 | 3 => longest(limit),
        _ => enough(random, length),
    }
}

impl Compared for Translate {
    const NAME: &'static str = "translate";
    const OUTCOMES: &'static [&'static str] = &[
        "plain",
        "with a helper",
        "drop",
        "plain with Zbb",
        "with a helper and Zbb",
        "drop with Zbb",
        "refused 1",
        "refused 2",
        "refused 3",
        "refused 4",
        "refused 5",
        "refused 6",
    ];

    fn compare(&mut self, random: &mut Random) -> Result<usize, String> {
        let mut case = self.guests.case(random);
        let whole = expected(&case, &mut self.block);
        case.room = room(random, whole.length as usize, case.limit);
        let must = if case.room < whole.length as usize {
            Answer { refusal: 6, ..Answer::default() }
        } else {
            whole
        };
        let (answer, same) = self.ask(&case, must.length as usize);
        if answer != must || !same {
            return Err(format!("{case:x?}: {answer:?}, not {must:?}, output the same: {same}"));
        }
        if answer.refusal == 6 && case.room >= longest(case.limit) {
            return Err(format!("{case:x?}: refused by 6 with the most bytes at its limit"));
        }
        if answer.refusal != 0 {
            return Ok(answer.refusal as usize + 5);
        }
        let outcome = self.zbb.outcome(&case.guest, answer.count, answer.end);
        self.most |= outcome >= 3 && case.room == longest(case.limit);
        Ok(outcome)
    }

    fn missed(&self) -> Vec<String> {
        let name = "a block with Zbb in the most bytes at its limit";
        if self.most {
            vec![]
        } else {
            vec![name.to_string()]
        }
    }

    fn zbb(&self) -> Option<&Zbb> {
        Some(&self.zbb)
    }
}
