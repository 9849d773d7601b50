//! What a row met of Zbb.

use draw::zbb::{kinds, FORMS};

/// The blocks that had an instruction of Zbb, and which instructions.
#[derive(Default)]
pub struct Zbb {
    blocks: u64,
    met: [bool; FORMS.len()],
}

impl Zbb {
    /// Takes an accepted block of `count` instructions; whether Zbb is among them.
    pub fn take(&mut self, guest: &[u8], count: u32) -> bool {
        let kinds = kinds(guest, count);
        kinds.iter().for_each(|&kind| self.met[kind] = true);
        self.blocks += u64::from(!kinds.is_empty());
        !kinds.is_empty()
    }

    /// The outcome of an accepted block by its end kind: the first three, and with Zbb the next three.
    pub fn outcome(&mut self, guest: &[u8], count: u32, end: u32) -> usize {
        end as usize - 1 + if self.take(guest, count) { 3 } else { 0 }
    }

    pub fn blocks(&self) -> u64 {
        self.blocks
    }

    /// The instructions that no block had.
    pub fn missed(&self) -> Vec<String> {
        let missed = FORMS.iter().zip(self.met).filter(|(_, met)| !met);
        missed.map(|((name, _), _)| name.to_string()).collect()
    }
}
