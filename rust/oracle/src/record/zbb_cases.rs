//! The cases of `blocks.bin` around Zbb (document 02, No. 7).

use super::{after_nops, block_length, draw_form, enough, NOP};
use draw::case::HELPERS;
use draw::forms::{helper, Form, FENCE_I, LEFTOVER};
use draw::guest::instruction;
use draw::marked::LONG_PC;
use draw::marked_zbb::CPOPW;
use draw::zbb::{self, plain_straight, NEAR};
use draw::{Case, Random};

/// Each instruction first and after others, its output enough and a byte less; each encoding next to Zbb alone and
/// after others.
fn by_form(random: &mut Random, cases: &mut Vec<Case>) {
    for form in zbb::forms() {
        for before in [0, 0, 0, 0, 0, 0, 1, 1, 2, 3] {
            cases.push(draw_form(random, form, before));
        }
        let case = draw_form(random, form, 1);
        cases.push(Case { room: block_length(&case) - 1, ..case });
    }
    for form in NEAR {
        for before in [0, 1, 1] {
            cases.push(draw_form(random, form, before));
        }
    }
}

/// Between two of Zbb: a helper's instruction, FENCE.I, an encoding that leaves scratch words, one next to Zbb, a
/// third.
fn between(random: &mut Random, cases: &mut Vec<Case>) {
    let (all, helpers) = (zbb::forms(), helper());
    for round in 0..24 {
        let (helper, left) = (random.pick(&helpers), random.pick(&LEFTOVER));
        for form in [helper, FENCE_I, left, random.pick(&NEAR), random.pick(&all)] {
            let forms: [Form; 3] = [all[round], form, random.pick(&all)];
            let before = random.below(3);
            let guest = after_nops(random, before, &forms);
            let mut case = Case::draw(random, guest);
            case.limit = case.limit.max(before as u32 + random.below(5) as u32);
            cases.push(enough(random, case));
        }
    }
}

/// Zbb about the 64th, the limit before, at and after it; and cut to each of its lengths.
fn places(random: &mut Random, cases: &mut Vec<Case>) {
    let all = zbb::forms();
    for before in [1, 62, 63, 64] {
        for limit in [before, before + 1, before + 2, 64, 65, u32::MAX] {
            let form = random.pick(&all);
            let guest = after_nops(random, before as usize, &[form]);
            let case = Case { limit, ..Case::draw(random, guest) };
            cases.push(enough(random, case));
        }
    }
    for before in [0, 1] {
        let form = random.pick(&all);
        let guest = [NOP.repeat(before), instruction(random, form)].concat();
        for length in 0..=guest.len() {
            let case = Case { limit: 2, ..Case::draw(random, guest[..length].to_vec()) };
            cases.push(enough(random, case));
        }
    }
}

/// 64 of any, 64 CPOPW with the output just enough and a byte less, and 63 with a store after them.
fn largest(random: &mut Random, cases: &mut Vec<Case>) {
    let (slot_offset, helpers) = (32_512, HELPERS[4]);
    let host = Case { pc: LONG_PC, slot_offset, helpers, ..Case::new(&[], 64) };
    let store = [0x23, 0x3f, 0x53, 0xfe];
    for guest in [
        plain_straight(random, 64),
        CPOPW.repeat(64),
        [CPOPW.repeat(63), store.to_vec()].concat(),
        [CPOPW.repeat(62), store.to_vec()].concat(),
    ] {
        let case = Case { guest, ..host.clone() };
        let room = block_length(&case);
        cases.extend([room, room - 1].map(|room| Case { room, ..case.clone() }));
    }
}

pub fn cases(random: &mut Random, cases: &mut Vec<Case>) {
    by_form(random, cases);
    between(random, cases);
    places(random, cases);
    largest(random, cases);
}
