//! The recorded answers: cases drawn from a fixed seed, each with what the Rust says of it; of blocks that FENCE.I
//! ends, with their count as the limit; of those that reach Zbb, with its words. The README describes the files byte
//! by byte.

mod zbb_cases;

use crate::{compressed_immediates, decode, expected, place};
use draw::case::{self, BAD_SLOTS, HELPERS};
use draw::forms::{
    self, encode, helper, inline, inline32, Form, FENCE, FENCE_I, INLINE16, LEFTOVER,
};
use draw::guest::{instruction, next_instruction, stream};
use draw::marked::{DIV, LONG_PC};
use draw::place::PlaceCase;
use draw::{Case, Random, LONGEST};

const SEED: u64 = 0x2B13_4309_95A6_4001;
const MAGIC: &[u8; 8] = b"A64BLOCK";
/// The output bytes offered where a case does not say: enough for 64 DIV.
const AMPLE: usize = 4 * 1_862;
/// C.NOP.
const NOP: [u8; 2] = [0x01, 0x00];

fn block_length(case: &Case) -> usize {
    let mut output = [0; LONGEST];
    expected(case, &mut output).length as usize
}

/// An accepted case's room: what the block needs, or more.
fn enough(random: &mut Random, mut case: Case) -> Case {
    case.room = case::enough(random, block_length(&case));
    case
}

/// A form first in its block, or after one to three others.
fn draw_form(random: &mut Random, form: Form, before: usize) -> Case {
    let mut guest = Vec::new();
    for _ in 0..before {
        guest.extend(next_instruction(random, &INLINE16));
    }
    guest.extend(instruction(random, form));
    if random.below(3) == 0 {
        guest.extend(next_instruction(random, &INLINE16));
    }
    let mut case = Case::draw(random, guest);
    if random.below(4) != 0 {
        case.limit = case.limit.max(before as u32 + 1);
    }
    enough(random, case)
}

fn by_form(random: &mut Random, cases: &mut Vec<Case>) {
    for form in forms::all() {
        for _ in 0..13 {
            cases.push(draw_form(random, form, 0));
        }
        for before in [1, 1, 1, 1, 2, 2, 3] {
            cases.push(draw_form(random, form, before));
        }
    }
}

/// Refusals 1, 2, 3 and 6, each alone and with those that number higher.
fn refusals(random: &mut Random, cases: &mut Vec<Case>) {
    let guests: [&[u8]; 5] = [&[1, 0], &[0x7d, 0x55, 0x82, 0x80], &[], &[3], &[0x41, 0x9c]];
    for guest in guests {
        for slot_offset in BAD_SLOTS {
            let case = Case::draw(random, guest.to_vec());
            let limit = random.pick(&[0, 1]);
            cases.push(Case { slot_offset, limit, pc: case.pc ^ random.next() & 1, ..case });
        }
        for _ in 0..8 {
            let case = Case::draw(random, guest.to_vec());
            cases.push(Case { limit: 0, pc: case.pc ^ random.next() & 1, ..case.clone() });
            cases.push(Case { pc: case.pc | 1, room: random.pick(&[0, LONGEST]), ..case.clone() });
            cases.push(Case { room: 0, ..case });
        }
    }
    for form in [inline(), helper()].concat() {
        let case = draw_form(random, form, 1);
        let length = block_length(&case);
        for room in [length.max(1) - 1, random.below(length.max(1))] {
            cases.push(Case { room, ..case.clone() });
        }
    }
}

/// The guest cut to each of its lengths.
fn cuts(random: &mut Random, cases: &mut Vec<Case>) {
    let forms = [inline32(), helper()].concat();
    for _ in 0..24 {
        let form = random.pick(&forms);
        let short = next_instruction(random, &INLINE16);
        let guest = [instruction(random, form), short, next_instruction(random, &forms)].concat();
        let case = Case::draw(random, guest);
        for length in 0..=case.guest.len() {
            let guest = case.guest[..length].to_vec();
            let case = Case { guest, limit: case.limit.max(2), ..case.clone() };
            cases.push(enough(random, case));
        }
    }
}

/// Longer blocks of every inline form, around the limits.
fn sequences(random: &mut Random, cases: &mut Vec<Case>) {
    let (inline, all) = (inline(), forms::all());
    for index in 0..170 {
        let many = if index < 12 { 60 + random.below(7) } else { 2 + random.below(10) };
        let forms = if many > 20 { &INLINE16 } else { &inline[..] };
        let guest = stream(random, many, forms, &all);
        let case = Case::draw(random, guest);
        cases.push(enough(random, case));
    }
    for limit in [0, 1, 2, 63, 64, 65, u32::MAX] {
        for many in [0, 1, 2, 62, 63, 64, 65, 66] {
            for last in [&[0x02, 0x90][..], &[0x82, 0x80], &[0x41, 0x9c], &[0x03, 0x30, 0, 0]] {
                let guest = [NOP.repeat(many), last.to_vec()].concat();
                let case = Case { limit, ..Case::draw(random, guest) };
                cases.push(enough(random, case));
            }
        }
    }
}

/// Bytes from anywhere.
fn bytes(random: &mut Random, cases: &mut Vec<Case>) {
    for _ in 0..500 {
        let guest = random.bytes_below(13);
        let mut case = Case::draw(random, guest);
        case.limit = random.pick(&[0, 1, 2, 64, 64, 64]);
        case.pc ^= (random.below(12) == 0) as u64;
        case.room = random.pick(&[0, 11, 12, 16, 40, LONGEST, LONGEST]);
        cases.push(case);
    }
}

/// 64 DIV, 64 REM, and 63 DIV with a helper, a jump and leftover words after them.
fn largest(random: &mut Random, cases: &mut Vec<Case>) {
    let (slot_offset, helpers) = (32_512, HELPERS[4]);
    let case = Case { pc: LONG_PC, slot_offset, helpers, ..Case::new(&DIV.repeat(64), 64) };
    cases.push(case.clone());
    cases.push(Case { room: AMPLE - 1, ..case.clone() });
    cases.push(Case { limit: u32::MAX, room: LONGEST + 4, ..case.clone() });
    cases.push(Case { guest: [0xb3, 0x62, 0x73, 0x02].repeat(64), ..case.clone() });
    for last in [[0x23, 0x3f, 0x53, 0xfe], [0xe7, 0x82, 0x02, 0x80], [0xb3, 0x22, 0x73, 0x40]] {
        let guest = [DIV.repeat(63), last.to_vec()].concat();
        cases.push(enough(random, Case { guest, ..case.clone() }));
    }
}

/// C.NOPs, instructions of the forms, and two more after which the Rust's block goes on.
fn after_nops(random: &mut Random, before: usize, forms: &[Form]) -> Vec<u8> {
    let mut guest = NOP.repeat(before);
    for &form in forms {
        guest.extend(instruction(random, form));
    }
    guest.extend(next_instruction(random, &INLINE16));
    guest.extend(next_instruction(random, &inline32()));
    guest
}

/// FENCE.I at each place that matters, the limit before, at and after it; the output enough, exactly so, a byte less.
fn fence_places(random: &mut Random, cases: &mut Vec<Case>) {
    for before in [0, 1, 2, 3, 7, 61, 62, 63, 64] {
        for limit in [before.max(1), before + 1, before + 2, 64, 65, u32::MAX] {
            let guest = after_nops(random, before as usize, &[FENCE_I]);
            let case = Case { limit, ..Case::draw(random, guest) };
            let length = block_length(&case);
            for room in [length, length - 1] {
                cases.push(Case { room, ..case.clone() });
            }
            cases.push(enough(random, case));
        }
    }
}

/// What stands beside FENCE.I: FENCE, another FENCE.I, an encoding that leaves scratch words, a helper's instruction.
fn fence_neighbours(random: &mut Random, cases: &mut Vec<Case>) {
    let helpers = helper();
    for _ in 0..4 {
        let (left, helper) = (random.pick(&LEFTOVER), random.pick(&helpers));
        let beside = [FENCE, FENCE_I, left, helper];
        let pairs =
            beside.iter().flat_map(|&form| [[form, FENCE_I], [FENCE_I, form], [FENCE, form]]);
        for forms in pairs {
            for before in 0..3 {
                let guest = after_nops(random, before, &forms);
                let mut case = Case::draw(random, guest);
                case.limit = case.limit.max(before as u32 + random.below(4) as u32);
                cases.push(enough(random, case));
            }
        }
    }
}

/// FENCE and FENCE.I with each field set, first and after a C.NOP, and cut to each of their lengths.
fn fence_fields(random: &mut Random, cases: &mut Vec<Case>) {
    let mut guests = Vec::new();
    for form in [FENCE, FENCE_I] {
        for free in [0, 0xf80, 0xf_8000, 0xfff0_0000, u32::MAX] {
            let fence = encode(form, free).to_le_bytes();
            guests.extend([[&fence[..], &NOP].concat(), [&NOP, &fence[..], &NOP].concat()]);
        }
        for before in [0, 1] {
            let guest = after_nops(random, before, &[form]);
            guests.extend((0..=4).map(|cut| guest[..2 * before + cut].to_vec()));
        }
    }
    for guest in guests {
        let case = Case { limit: 3, ..Case::draw(random, guest) };
        cases.push(enough(random, case));
    }
}

/// The cases of `blocks.bin`.
fn cases() -> Vec<Case> {
    let mut random = Random(SEED);
    let mut cases = Vec::new();
    by_form(&mut random, &mut cases);
    refusals(&mut random, &mut cases);
    cuts(&mut random, &mut cases);
    sequences(&mut random, &mut cases);
    bytes(&mut random, &mut cases);
    largest(&mut random, &mut cases);
    fence_places(&mut random, &mut cases);
    fence_neighbours(&mut random, &mut cases);
    fence_fields(&mut random, &mut cases);
    zbb_cases::cases(&mut random, &mut cases);
    for case in cases.iter_mut().filter(|case| case.room >= LONGEST) {
        case.room -= LONGEST - AMPLE;
    }
    cases
}

fn put_case(file: &mut Vec<u8>, case: &Case) {
    file.extend((case.guest.len() as u16).to_le_bytes());
    file.extend(&case.guest);
    file.extend(case.pc.to_le_bytes());
    file.extend(case.limit.to_le_bytes());
    file.push(case.ignore_ebreak as u8);
    file.extend(case.slot_offset.to_le_bytes());
    for helper in case.helpers {
        file.extend(helper.to_le_bytes());
    }
    file.extend((case.room as u32).to_le_bytes());
    let mut output = vec![0; case.room];
    let answer = expected(case, &mut output);
    let length = answer.length as usize;
    file.extend([answer.refusal as u8, answer.end as u8, answer.count as u8]);
    file.extend((length as u16 / 4).to_le_bytes());
    file.extend(&output[..length]);
}

fn blocks() -> Vec<u8> {
    let cases = cases();
    let mut file = MAGIC.to_vec();
    file.extend((cases.len() as u32).to_le_bytes());
    file.extend(SEED.to_le_bytes());
    for case in &cases {
        put_case(&mut file, case);
    }
    file
}

fn put_decoded(file: &mut Vec<u8>, instr: u32) {
    let d = decode(instr);
    file.extend(instr.to_le_bytes());
    file.extend([d.opcode, d.rd, d.funct3, d.rs1, d.rs2, d.funct7, d.funct5, 0]);
    file.extend(d.imm12.to_le_bytes());
    for immediate in [d.imm_i, d.imm_s, d.imm_b, d.imm_u, d.imm_j] {
        file.extend(immediate.to_le_bytes());
    }
}

/// Every opcode with edge fields, every single bit, then any word.
fn decoded() -> Vec<u8> {
    let mut random = Random(SEED + 1);
    let mut file = Vec::new();
    for opcode in 0..128 {
        for _ in 0..14 {
            put_decoded(&mut file, random.pattern() & !0x7f | opcode);
        }
    }
    for bit in 0..32 {
        put_decoded(&mut file, 1 << bit);
        put_decoded(&mut file, !(1 << bit));
    }
    for _ in 0..2_144 {
        put_decoded(&mut file, random.next() as u32);
    }
    file
}

fn put_compressed(file: &mut Vec<u8>, instr: u16) {
    file.extend(instr.to_le_bytes());
    for immediate in compressed_immediates(instr) {
        file.extend(immediate.to_le_bytes());
    }
}

/// Every quadrant and funct3 with edge fields, every single bit, then any halfword.
fn compressed() -> Vec<u8> {
    let mut random = Random(SEED + 2);
    let mut file = Vec::new();
    for kind in 0..32u16 {
        for _ in 0..32 {
            let free = random.pattern() as u16;
            put_compressed(&mut file, (kind >> 2) << 13 | kind & 3 | free & 0x1ffc);
        }
    }
    for bit in 0..16 {
        put_compressed(&mut file, 1 << bit);
        put_compressed(&mut file, !(1 << bit));
    }
    for _ in 0..944 {
        put_compressed(&mut file, random.next() as u16);
    }
    file
}

/// Short stores around every boundary.
fn placed() -> Vec<u8> {
    let mut random = Random(SEED + 3);
    let mut file = Vec::new();
    for index in 0..800 {
        let size = random.below(25);
        let PlaceCase { mut store, used, code } = PlaceCase::draw(&mut random, size, index, index);
        file.push(size as u8);
        file.extend(&store);
        file.extend(used.to_le_bytes());
        file.push(code.len() as u8);
        file.extend(&code);
        let answer = place(&mut store, used, &code);
        file.push(answer.refusal as u8);
        file.extend(answer.start.to_le_bytes());
        file.extend(answer.used.to_le_bytes());
        file.extend(&store);
    }
    file
}

/// The recorded files by name.
pub fn files() -> [(&'static str, Vec<u8>); 4] {
    [
        ("crates/blocks_replay/data/blocks.bin", blocks()),
        ("crates/decode_replay/data/decode.bin", decoded()),
        ("crates/decode_replay/data/compressed.bin", compressed()),
        ("crates/place_replay/data/place.bin", placed()),
    ]
}
