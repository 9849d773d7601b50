//! Document 02, No. 7: Zbb inline. The marked blocks are in marked_blocks.rs; here are both runs on drawn values, what
//! is next to Zbb, the listing's texts, and the most bytes of a block.

use draw::forms::encode;
use draw::guest::Guests;
use draw::marked_zbb::{CPOPW, WORDS};
use draw::values::{registers, value};
use draw::zbb::{kinds, plain_straight, FORMS, NEAR};
use draw::{Case, Random};
use hilofanur::{a64_run, block_bytes, boundary, list, rv64_run, translate, LONGEST_BLOCK};
use hilofanur::{A64Run, A64State, End, EndKind, Guest, Host, Memory, Refusal, Registers, Words};

const HOST: Host =
    Host { slot_offset: 0, memory_helper: 0x10000, helper32: 0x20000, helper16: 0x30000 };
const SLOTS: u64 = 0x8000;

fn guest(bytes: &[u8], limit: u32) -> Guest<'_> {
    Guest { bytes, pc: 0x1000, limit, ignore_ebreak: false }
}

/// Translates into as many bytes as the limit may need, and runs the words and the guest: both come to the registers
/// of the plain stepper.
fn runs(bytes: &[u8], limit: u32, before: Registers) {
    let guest = guest(bytes, limit);
    let mut output = vec![0; block_bytes(limit)];
    let block = translate(&guest, &HOST, &mut output).unwrap();
    assert_eq!(block.end_kind, EndKind::Plain, "{bytes:02x?}");
    let mut plain = before.x;
    let expected = steppers::rv64_run(bytes, 0x1000, limit, false, &mut plain);
    let mut after = before;
    let ran = rv64_run(&guest, &mut after).unwrap();
    assert_eq!((ran.count, ran.next_pc), (expected.count, expected.next_pc), "{bytes:02x?}");
    assert_eq!(after.x, plain, "{bytes:02x?} from {before:x?}");

    let (mut slots, mut state) = (before.to_bytes(), A64State::default());
    state.x[0] = SLOTS;
    let words = Words { bytes: &output[..block.length], address: 0 };
    let steps = block.length as u64 / 4;
    let run = a64_run(words, &mut state, steps, Memory { bytes: &mut slots, base: SLOTS });
    assert_eq!(run, Ok(A64Run { end: End::Returned, steps }), "{bytes:02x?}");
    assert_eq!((state.x[0], state.x[1]), (ran.next_pc, ran.count.into()), "{bytes:02x?}");
    // Slot 0 stays, whatever it holds.
    plain[0] = before.x[0];
    assert_eq!(Registers::from_bytes(&slots).x, plain, "{bytes:02x?} from {before:x?}");
}

#[test]
fn each_instruction() {
    let mut random = Random(7);
    for (_, form) in FORMS {
        for _ in 0..500 {
            let instr = encode(form, random.pattern());
            let before = Registers { x: registers(|| value(&mut random)) };
            runs(&instr.to_le_bytes(), 1, before);
        }
    }
}

#[test]
fn blocks_of_zbb() {
    let mut random = Random(8);
    for length in (0..300).map(|round| 1 + round % 64) {
        let before = Registers { x: registers(|| value(&mut random)) };
        runs(&plain_straight(&mut random, length), length as u32, before);
    }
}

/// Refused by both operations as the first, and the end of a block after a C.NOP.
#[test]
fn next_to_zbb() {
    let mut random = Random(9);
    for form in NEAR {
        for _ in 0..50 {
            let instr = encode(form, random.pattern()).to_le_bytes();
            let (mut output, mut registers) = ([0; LONGEST_BLOCK], Registers::default());
            let alone = guest(&instr, 1);
            assert_eq!(translate(&alone, &HOST, &mut output), Err(Refusal::NotCovered));
            assert_eq!(rv64_run(&alone, &mut registers), Err(Refusal::NotCovered));
            let behind = [&[1, 0], &instr[..]].concat();
            assert_eq!(translate(&guest(&behind, 2), &HOST, &mut output).unwrap().count, 1);
            assert_eq!(rv64_run(&guest(&behind, 2), &mut registers).unwrap().count, 1);
        }
    }
}

/// The texts of the six forms, by the words of ANDN, ORN, XNOR, ROR, REV8 and CLZ.
#[test]
fn texts() {
    let texts = [
        ("andn", "bic x11, x9, x10, lsl #0"),
        ("orn", "orn x11, x9, x10, lsl #0"),
        ("xnor", "eon x11, x9, x10, lsl #0"),
        ("ror", "rorv x11, x9, x10"),
        ("rev8", "rev x11, x9"),
        ("clz", "clz x11, x9"),
    ];
    for (name, text) in texts {
        let row = WORDS.iter().find(|(row, ..)| row.split(' ').next() == Some(name));
        let bytes: Vec<u8> = row.unwrap().2.iter().flat_map(|word| word.to_le_bytes()).collect();
        let listing = list(&bytes).unwrap();
        assert!(listing.lines().any(|line| line[18..] == *text), "{name}: {listing}");
    }
}

/// By the limit as clamped, and as a constant.
#[test]
fn most_bytes() {
    const NINE: [u8; block_bytes(9)] = [0; block_bytes(9)];
    assert_eq!(NINE.len(), 4 * (9 * 40 + 6));
    let limits = [(0, 24), (1, 184), (63, 10_104), (64, LONGEST_BLOCK), (65, LONGEST_BLOCK)];
    for (limit, bytes) in limits.into_iter().chain([(u32::MAX, 10_264)]) {
        assert_eq!(block_bytes(limit), bytes);
        assert_eq!(draw::longest(limit), bytes);
    }
}

/// Output of so many bytes is never refused by 6: drawn blocks, and CPOPW as often as the limit says, at a PC and with
/// helpers of four words each.
#[test]
fn most_bytes_are_enough() {
    let (guests, mut random) = (Guests::default(), Random(10));
    let (mut accepted, mut with_zbb) = (0, 0);
    for _ in 0..20_000 {
        let case = guests.case(&mut random);
        let Case { pc, limit, ignore_ebreak, slot_offset, helpers, .. } = case;
        let [memory_helper, helper32, helper16] = helpers;
        let host = Host { slot_offset, memory_helper, helper32, helper16 };
        let asked = Guest { bytes: &case.guest, pc, limit, ignore_ebreak };
        let answer = boundary::translate(&asked, &host, &mut vec![0; block_bytes(limit)]);
        assert_ne!(answer.refusal, 6, "{case:x?}");
        accepted += (answer.refusal == 0) as u32;
        with_zbb += !kinds(&case.guest, answer.count).is_empty() as u32;
    }
    assert!(accepted > 10_000 && with_zbb > 3_000, "{accepted} {with_zbb}");
    for limit in 1..=64 {
        let bytes = CPOPW.repeat(64);
        let asked = Guest { pc: (u64::MAX / 3) & !1, ..guest(&bytes, limit) };
        let block = translate(&asked, &HOST, &mut vec![0; block_bytes(limit)]).unwrap();
        assert_eq!(block.length, 4 * (30 * limit as usize + 6));
    }
}
