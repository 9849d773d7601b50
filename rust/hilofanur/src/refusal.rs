//! The refusals of documents 01 and 02.

use crate::numbered::numbered;
use std::error::Error;
use std::fmt;

/// Why an operation was refused. A refusal leaves every lent byte as it was.
///
/// Within an operation the lowest number that applies is given. 9 is not used.
///
/// ```
/// use hilofanur::Refusal;
/// assert_eq!(Refusal::OddPc.number(), 3);
/// assert_eq!(Refusal::from_number(3), Some(Refusal::OddPc));
/// assert_eq!(Refusal::OddPc.to_string(), "refused 3: odd PC");
/// ```
#[derive(Clone, Copy, Debug, PartialEq, Eq, Hash)]
#[non_exhaustive]
pub enum Refusal {
    /// Translate: the slot offset is not a multiple of 8 or above 32,512.
    SlotOffset = 1,
    /// Translate and RV64 run: the limit is 0.
    LimitZero = 2,
    /// Translate and RV64 run: the PC is odd.
    OddPc = 3,
    /// Translate and RV64 run: the first instruction lacks a halfword.
    NotFetched = 4,
    /// Translate: the first instruction is neither inline nor helper; RV64 run: it is not inline.
    NotCovered = 5,
    /// Translate: the output is shorter than the block's bytes.
    OutputShort = 6,
    /// Place: the used length exceeds the store.
    UsedExceedsStore = 7,
    /// Place: the start plus the code length exceeds the store.
    CodeExceedsStore = 8,
    /// A64 run, from any word: the block length is not a multiple of 4.
    BlockLength = 10,
    /// A64 run, from any word: the memory base plus the memory length exceeds 2^64.
    MemoryExceedsTop = 11,
    /// List: the block length is not a multiple of 4 or above 2^32.
    ListingLength = 12,
    /// List: a word is outside the forms.
    OutsideForms = 13,
    /// List: the output is shorter than the listing.
    ListingShort = 14,
    /// Index: the code's length is zero, not a multiple of 4 or beyond the store.
    CodeLength = 15,
    /// Index: no block is under this key; [`crate::Index::get`] answers `None` then.
    NoBlock = 16,
}

use Refusal::*;

numbered!(
    Refusal:
    SlotOffset,
    LimitZero,
    OddPc,
    NotFetched,
    NotCovered,
    OutputShort,
    UsedExceedsStore,
    CodeExceedsStore,
    BlockLength,
    MemoryExceedsTop,
    ListingLength,
    OutsideForms,
    ListingShort,
    CodeLength,
    NoBlock,
);

impl Refusal {
    /// What the number means, in the documents' words.
    pub fn meaning(self) -> &'static str {
        match self {
            SlotOffset => "slot offset not a multiple of 8 or above 32,512",
            LimitZero => "limit 0",
            OddPc => "odd PC",
            NotFetched => "the first instruction lacks a halfword",
            NotCovered => {
                "the first instruction is neither inline nor helper (RV64 run: not inline)"
            }
            OutputShort => "the output is shorter than the block's bytes",
            UsedExceedsStore => "used exceeds the store",
            CodeExceedsStore => "the start plus the code length exceeds the store",
            BlockLength => "block length not a multiple of 4",
            MemoryExceedsTop => "memory base plus memory length exceeds 2^64",
            ListingLength => "block length not a multiple of 4 or above 2^32",
            OutsideForms => "a word outside the forms",
            ListingShort => "the output is shorter than the listing",
            CodeLength => "the code's length is zero, not a multiple of 4 or beyond the store",
            NoBlock => "no block under this key",
        }
    }
}

impl fmt::Display for Refusal {
    fn fmt(&self, f: &mut fmt::Formatter) -> fmt::Result {
        write!(f, "refused {}: {}", self.number(), self.meaning())
    }
}

impl Error for Refusal {}

/// Why [`crate::list_into`] was refused.
///
/// ```
/// use hilofanur::{list_into, Refusal};
/// let refused = list_into(&[0; 8], &mut []).unwrap_err();
/// assert_eq!(refused.refusal, Refusal::OutsideForms);
/// assert!(matches!(refused.offset, Some(0 | 4)));
/// ```
#[derive(Clone, Copy, Debug, PartialEq, Eq, Hash)]
pub struct ListRefused {
    /// The refusal: 12, 13 or 14.
    pub refusal: Refusal,
    /// Beside 13, and only there: the byte offset of some word outside the forms, not always the lowest.
    pub offset: Option<usize>,
}

impl From<ListRefused> for Refusal {
    fn from(refused: ListRefused) -> Refusal {
        refused.refusal
    }
}

impl fmt::Display for ListRefused {
    fn fmt(&self, f: &mut fmt::Formatter) -> fmt::Result {
        match self.offset {
            None => write!(f, "{}", self.refusal),
            Some(offset) => write!(f, "{}, at byte {offset}", self.refusal),
        }
    }
}

impl Error for ListRefused {}
