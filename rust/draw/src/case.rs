//! Questions to Translate.

use crate::forms::HELPER_KINDS;
use crate::guest::Guests;
use crate::{marked, Random, LONGEST};

/// Document 02's end kinds of an accepted block, No. 3.
pub const PLAIN: u32 = 1;
pub const HELPER: u32 = 2;
pub const DROP: u32 = 3;

/// A question to Translate.
#[derive(Clone, Debug)]
pub struct Case {
    pub guest: Vec<u8>,
    pub pc: u64,
    pub limit: u32,
    pub ignore_ebreak: bool,
    pub slot_offset: u64,
    /// Memory, 32-bit, 16-bit.
    pub helpers: [u64; 3],
    /// The length of the output bytes offered.
    pub room: usize,
}

impl Case {
    /// The question at PC 0x1000, slot 0 at X0, with document 01's helpers and room enough.
    pub fn new(guest: &[u8], limit: u32) -> Case {
        Case {
            guest: guest.to_vec(),
            pc: 0x1000,
            limit,
            ignore_ebreak: false,
            slot_offset: 0,
            helpers: marked::HELPERS,
            room: LONGEST,
        }
    }

    /// A question around `guest`, with room enough.
    pub fn draw(random: &mut Random, guest: Vec<u8>) -> Case {
        let pc = if random.below(4) == 0 { random.next() & !1 } else { random.pick(&PCS) };
        let limit =
            if random.below(8) == 0 { random.next() as u32 | 1 } else { random.pick(&LIMITS) };
        let slot_offset = match random.below(4) {
            0 => 8 * random.below(4_065) as u64,
            _ => random.pick(&SLOTS),
        };
        let ignore_ebreak = random.below(2) == 0;
        let helpers = draw_helpers(random);
        Case { guest, pc, limit, ignore_ebreak, slot_offset, helpers, room: LONGEST }
    }

    /// Makes refusals 1 to 3 apply, some of them or none.
    fn spoil(&mut self, random: &mut Random) {
        match random.below(8) {
            0 | 1 => self.slot_offset = random.pick(&BAD_SLOTS),
            2 => self.slot_offset = (8 * random.below(64) as u64).wrapping_sub(256),
            3 => self.slot_offset = random.next(),
            _ => {}
        }
        if random.below(2) == 0 {
            self.limit = 0;
        }
        if random.below(2) == 0 {
            self.pc |= 1;
        }
    }
}

impl Guests {
    /// A question to Translate. Refusals 1 to 3 apply to one in eight or so, now and then together.
    pub fn case(&self, random: &mut Random) -> Case {
        let guest = self.guest(random);
        let mut case = Case::draw(random, guest);
        if random.below(4) == 0 {
            case.pc = (2 * random.below(200) as u64).wrapping_sub(200);
        }
        if random.below(8) == 0 {
            case.spoil(random);
        }
        case
    }
}

/// A question to Translate whose block a helper's instruction ends.
#[derive(Clone, Debug)]
pub struct HelperCase {
    pub case: Case,
    /// The instruction's place in HELPER_KINDS.
    pub kind: usize,
    /// The number of the instructions before it, and of their bytes.
    pub prefix: usize,
    pub at: usize,
}

impl Guests {
    /// Each kind as often, after 0 to 63 instructions; the limit just reaches it or is higher.
    pub fn helper_case(&self, random: &mut Random) -> HelperCase {
        let kind = random.below(HELPER_KINDS.len());
        let prefix = match random.below(16) {
            0 => 63,
            1 => 56 + random.below(8),
            2 => random.below(64),
            3..=6 => 0,
            _ => 1 + random.below(8),
        };
        let ignore_ebreak = random.below(2) == 0;
        let (guest, at) = self.helped(random, prefix, HELPER_KINDS[kind].1, ignore_ebreak);
        let count = prefix as u32 + 1;
        let limit = random.pick(&[count, count, count, count + 1, 64, 65, 256, u32::MAX]);
        let mut case = Case { limit, ignore_ebreak, ..Case::draw(random, guest) };
        if random.below(4) == 0 {
            case.pc = (2 * random.below(200) as u64).wrapping_sub(200);
        }
        HelperCase { case, kind, prefix, at }
    }
}

/// The output bytes offered for a block of so many: as many, a few more, or what the longest needs.
pub fn enough(random: &mut Random, length: usize) -> usize {
    match random.below(3) {
        0 => length,
        1 => length + 1 + random.below(16),
        _ => LONGEST,
    }
}

const PCS: [u64; 18] = [
    0,
    2,
    4,
    0x1000,
    0x1002,
    0x7ffc,
    0xfffe,
    0x7fff_fffe,
    0x8000_0000,
    0xffff_fffc,
    0x1_0000_0000,
    marked::LONG_PC,
    0x7fff_ffff_ffff_fffe,
    0x8000_0000_0000_0000,
    0xffff_ffff_ffff_f000,
    0xffff_ffff_ffff_fff8,
    0xffff_ffff_ffff_fffc,
    0xffff_ffff_ffff_fffe,
];
const LIMITS: [u32; 7] = [1, 2, 3, 63, 64, 65, u32::MAX];
/// Slot offsets at the edges.
pub const SLOTS: [u64; 3] = [0, 8, 32_512];
/// Slot offsets that are refused.
pub const BAD_SLOTS: [u64; 12] =
    [1, 4, 7, 32_511, 32_513, 32_516, 32_520, 65_536, 65_544, 1 << 32, 1 << 63, u64::MAX];
/// Addresses that take one to four words each.
pub const HELPERS: [[u64; 3]; 5] = [
    marked::HELPERS,
    [0, 0, 0],
    [u64::MAX, u64::MAX - 0xffff, 0xffff_ffff],
    [0x0001_0000_0000_0000, 0x0000_ffff_0000_0000, 0x1234_0000_5678_0000],
    [0x0000_0001_0000_0001, 0xffff_0000_0000_ffff, 0x7f80_1234_5678],
];

fn draw_helpers(random: &mut Random) -> [u64; 3] {
    if random.below(2) == 0 {
        return random.pick(&HELPERS);
    }
    [(); 3].map(|_| {
        let kept = [0, 16, 32, 48].map(|shift| ((random.next() & 1) * 0xffff) << shift);
        random.next() & kept.iter().sum::<u64>()
    })
}

#[cfg(test)]
mod tests {
    use super::*;
    use crate::class::{first, Class};
    use crate::zbb::{self, kinds};

    /// The classes of a question's instructions up to the first that is not Next, one beyond the limit at most;
    /// whether FENCE.I stands right after the last of them.
    fn walk(case: &Case) -> (Vec<Class>, bool) {
        let (mut at, mut classes) = (0, Vec::new());
        while let Some((class, size)) = first(&case.guest[at..], case.ignore_ebreak) {
            classes.push(class);
            at += size;
            if class != Class::Next || classes.len() > case.limit.min(64) as usize {
                break;
            }
        }
        let behind =
            first(&case.guest[at..], false).is_some_and(|(class, _)| class == Class::FenceI);
        (classes, behind)
    }

    /// The questions of one seed that refusals 2, 4 and 5 leave, each with its walk and its limit as clamped.
    fn left() -> impl Iterator<Item = (Case, Vec<Class>, bool, usize)> {
        let (guests, mut random) = (Guests::default(), Random(1));
        (0..40_000).filter_map(move |_| {
            let case = guests.case(&mut random);
            let (classes, behind) = walk(&case);
            let limit = case.limit.min(64) as usize;
            let refused = limit == 0 || matches!(classes.first(), None | Some(Class::Uncovered));
            (!refused).then_some((case, classes, behind, limit))
        })
    }

    /// A helper's instruction ends each of these, where it is said to stand; every prefix and PCs across 2^64 are
    /// among them.
    #[test]
    fn helper_cases() {
        let (guests, mut random) = (Guests::default(), Random(1));
        let (mut prefixes, mut exact, mut across) = ([0; 64], 0, 0);
        for _ in 0..20_000 {
            let HelperCase { case, kind, prefix, at } = guests.helper_case(&mut random);
            let (classes, _) = walk(&case);
            let expected = [vec![Class::Next; prefix], vec![Class::Helper]].concat();
            assert_eq!(classes, expected, "{case:x?}");
            assert!(prefix < case.limit as usize);
            let (value, fixed) = HELPER_KINDS[kind].1;
            let instr = u16::from_le_bytes(*case.guest[at..].first_chunk().unwrap());
            let low = fixed & 0xffff;
            assert_eq!(u32::from(instr) & low, value & low, "{case:x?} at {at}");
            prefixes[prefix] += 1;
            exact += (case.limit as usize == prefix + 1) as usize;
            across += (case.pc.wrapping_add(at as u64) < case.pc) as usize;
        }
        assert!(prefixes.iter().all(|&number| number >= 5), "{prefixes:?}");
        assert!(exact >= 5_000 && across >= 100, "{exact} {across}");
    }

    /// Of the blocks that refusals 2, 4 and 5 leave, FENCE.I ends about one in eight, and it stands where the list
    /// has it.
    #[test]
    fn fence_i_in_every_place() {
        let (mut blocks, mut dropped) = (0, 0);
        let mut places = [0; 8];
        for (_, classes, behind, limit) in left() {
            blocks += 1;
            let (number, last) = (classes.len(), classes[classes.len() - 1]);
            let fence_i = last == Class::FenceI;
            dropped += (fence_i && number <= limit) as usize;
            let met = [
                fence_i && number == 1 && limit > 1,
                fence_i && number > 1 && number < limit,
                fence_i && number == limit,
                fence_i && number == limit + 1,
                fence_i && number == 63 && limit > 63,
                fence_i && number == 64,
                behind && last == Class::Helper,
                behind && last == Class::Uncovered,
            ];
            places.iter_mut().zip(met).for_each(|(place, met)| *place += met as usize);
        }
        assert!(blocks / 10 < dropped && dropped < blocks / 6, "{dropped} of {blocks}");
        assert!(places.iter().all(|&number| number >= 20), "{places:?}");
    }

    /// Of the blocks that refusals 2, 4 and 5 leave, about one in three reaches Zbb; each of its instructions is among
    /// them, and it stands where the list has it.
    #[test]
    fn zbb_in_every_place() {
        let (mut blocks, mut places, mut met) = (0, [0; 9], [0; zbb::FORMS.len()]);
        for (case, classes, _, limit) in left() {
            blocks += 1;
            let last = classes[classes.len() - 1];
            let count = (classes.len() - (last == Class::Uncovered) as usize).min(limit);
            let within = |count: usize| kinds(&case.guest, count as u32);
            let (found, before) = (within(count), within(count - 1).len());
            found.iter().for_each(|&kind| met[kind] += 1);
            let (any, ends) = (!found.is_empty(), before < found.len());
            let met = [
                any,
                any && !within(1).is_empty(),
                ends && count == limit,
                ends && count == 64,
                ends && count < limit && last == Class::Next,
                before > within(count.max(2) - 2).len() && last == Class::Helper,
                before > within(count.max(2) - 2).len() && last == Class::FenceI,
                ends && last == Class::Uncovered,
                found.len() == 64,
            ];
            places.iter_mut().zip(met).for_each(|(place, met)| *place += met as usize);
        }
        assert!(blocks / 4 < places[0] && places[0] < blocks / 2, "{places:?} of {blocks}");
        assert!(places.iter().all(|&number| number >= 20), "{places:?}");
        assert!(met.iter().all(|&number| number >= 500), "{met:?}");
    }
}
