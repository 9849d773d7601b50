//! Every refusal of every operation: the lowest number that applies, other numbers zero, lent bytes unchanged.
//! Beside 13 the offset is that of a word outside the forms.

use draw::forms::is_a64;
use draw::words;
use hilofanur::boundary::{self, A64RunAnswer, ListAnswer, PlaceAnswer};
use hilofanur::boundary::{IndexLookupAnswer, IndexPlaceAnswer, Rv64RunAnswer, TranslateAnswer};
use hilofanur::{a64_run, a64_run_from, list, list_into, place, rv64_run, translate};
use hilofanur::{A64Run, A64State, End, EndKind, Found, Guest, Host, Index, Key, ListRefused};
use hilofanur::{Memory, Placed, Refusal, Registers, Words, INDEX_BYTES};

const HOST: Host =
    Host { slot_offset: 0, memory_helper: 0x10000, helper32: 0x20000, helper16: 0x30000 };
const NOP: &[u8] = &[1, 0];
const FILL: u8 = 0xA5;

fn guest(bytes: &[u8], pc: u64, limit: u32) -> Guest<'_> {
    Guest { bytes, pc, limit, ignore_ebreak: false }
}

/// Output of `room` bytes is refused by the number and stays.
fn refuse_translate(number: u32, guest: Guest, slot_offset: u64, room: usize) {
    let host = Host { slot_offset, ..HOST };
    let mut output = vec![FILL; room];
    let answer = boundary::translate(&guest, &host, &mut output);
    let expected = TranslateAnswer { refusal: number, ..TranslateAnswer::default() };
    assert_eq!(answer, expected, "{guest:x?} {slot_offset} {room}");
    assert_eq!(output, vec![FILL; room]);
    let refusal = translate(&guest, &host, &mut output).unwrap_err();
    assert_eq!(refusal.number(), number);
}

#[test]
fn translate_by_number() {
    for slot_offset in [1, 4, 7, 32_516, 32_520, 65_536, 1 << 63, u64::MAX - 7, u64::MAX] {
        refuse_translate(1, guest(&[], 1, 0), slot_offset, 0);
        refuse_translate(1, guest(NOP, 0, 1), slot_offset, 64);
    }
    refuse_translate(2, guest(&[], 1, 0), 32_512, 0);
    refuse_translate(2, guest(NOP, 0, 0), 0, 64);
    for pc in [1, 0x1001, u64::MAX] {
        refuse_translate(3, guest(&[], pc, 1), 0, 0);
        refuse_translate(3, guest(NOP, pc, u32::MAX), 0, 64);
    }
    for bytes in [&[][..], &[1], &[3, 0], &[3, 0, 0], &[0x73, 0, 0]] {
        refuse_translate(4, guest(bytes, 0, 1), 0, 0);
        refuse_translate(4, guest(bytes, 0, u32::MAX), 8, 64);
    }
    for bytes in [&[0, 0][..], &[0x41, 0x9C], &[0x73, 0, 0, 0], &[2, 0x90], &[0x63, 0x20, 0, 0]] {
        refuse_translate(5, guest(bytes, 0, 1), 0, 0);
        refuse_translate(5, guest(bytes, 0, 64), 0, 64);
    }
    for room in 0..12 {
        refuse_translate(6, guest(NOP, 0x1000, 1), 0, room);
    }
}

#[test]
fn translate_accepts_the_edges() {
    for (slot_offset, room) in [(0, 12), (8, 13), (32_512, 12)] {
        let mut output = vec![FILL; room];
        let host = Host { slot_offset, ..HOST };
        let block = translate(&guest(NOP, 0x1000, u32::MAX), &host, &mut output).unwrap();
        assert_eq!((block.length, block.count, block.end_kind), (12, 1, EndKind::Plain));
        assert_eq!(output[12..], vec![FILL; room - 12]);
    }
    let flagged = Guest { ignore_ebreak: true, ..guest(&[2, 0x90], 0x1000, 1) };
    assert_eq!(translate(&flagged, &HOST, &mut [0; 64]).unwrap().count, 1);
    // c.lw x8, 0(x8)
    let block = translate(&guest(&[0, 0x40], 0x1000, 1), &HOST, &mut [0; 256]).unwrap();
    assert_eq!((block.count, block.end_kind), (1, EndKind::Helper));
}

fn refuse_place(number: u64, size: usize, used: u64, length: usize) {
    let mut store = vec![FILL; size];
    let answer = boundary::place(&mut store, used, &vec![1; length]);
    let expected = PlaceAnswer { refusal: number, ..PlaceAnswer::default() };
    assert_eq!(answer, expected, "{size} {used} {length}");
    assert_eq!(store, vec![FILL; size]);
    let refusal = place(&mut store, used as usize, &vec![1; length]).unwrap_err();
    assert_eq!(u64::from(refusal.number()), number);
}

#[test]
fn place_by_number() {
    for used in [9, 1 << 32, u64::MAX - 3, u64::MAX] {
        refuse_place(7, 8, used, 0);
        refuse_place(7, 8, used, 9);
    }
    refuse_place(7, 0, 1, 0);
    refuse_place(8, 8, 0, 9);
    refuse_place(8, 8, 1, 5);
    refuse_place(8, 8, 8, 1);
    // The start is rounded up beyond the store.
    refuse_place(8, 7, 5, 0);
    let mut store = [FILL; 8];
    assert_eq!(place(&mut store, 1, &[1, 2, 3, 4]), Ok(Placed { start: 4, used: 8 }));
    assert_eq!(store, [FILL, FILL, FILL, FILL, 1, 2, 3, 4]);
    assert_eq!(place(&mut store, 8, &[]), Ok(Placed { start: 8, used: 8 }));
    assert_eq!(place(&mut [], 0, &[]), Ok(Placed { start: 0, used: 0 }));
}

fn refuse_rv64(number: u32, guest: Guest, x0: u64) {
    let mut registers = Registers { x: [7; 32] };
    registers.x[0] = x0;
    let mut bytes = registers.to_bytes();
    let expected = Rv64RunAnswer { refusal: number, ..Rv64RunAnswer::default() };
    assert_eq!(boundary::rv64_run(&guest, &mut bytes), expected, "{guest:x?} {x0}");
    assert_eq!(bytes, registers.to_bytes());
    let before = registers;
    assert_eq!(rv64_run(&guest, &mut registers).unwrap_err().number(), number);
    assert_eq!(registers, before);
}

#[test]
fn rv64_run_by_number() {
    for x0 in [0, 1, 1 << 63] {
        refuse_rv64(2, guest(&[], 1, 0), x0);
        refuse_rv64(3, guest(&[], 1, 1), x0);
        for bytes in [&[][..], &[1], &[3, 0], &[3, 0, 0]] {
            refuse_rv64(4, guest(bytes, 0, 1), x0);
        }
        // Helper instructions are not covered here: c.lw, ld, sd, amoadd.w.
        let helpers: [&[u8]; 4] =
            [&[0, 0x40], &[3, 0x30, 0, 0], &[0x23, 0x30, 0, 0], &[0x2F, 0x20, 0, 0]];
        for bytes in [&[0, 0][..], &[0x73, 0, 0, 0], &[2, 0x90]].into_iter().chain(helpers) {
            refuse_rv64(5, guest(bytes, 0, 64), x0);
        }
    }
}

/// Words to begin at in a block of at most two: inside, at their number, beyond it, and such that four times the
/// number is a word's offset modulo 2^64.
const FIRSTS: [u64; 8] = [0, 1, 2, 3, 1 << 62, (1 << 62) + 1, 1 << 63, u64::MAX];

/// Every byte of it is other than 0.
fn a64_state() -> A64State {
    let x = std::array::from_fn(|n| (n as u64 + 1) * 0x0101_0101_0101_0101);
    A64State { x, sp: u64::MAX / 5, nzcv: u64::MAX - 5 }
}

/// By A64 run and, at whatever word it begins, by A64 run from.
fn refuse_a64(number: u32, block: &[u8], memory: usize, base: u64) {
    let (mut state, mut lent) = (a64_state(), vec![FILL; memory]);
    let mut bytes = state.to_bytes();
    let expected = A64RunAnswer { refusal: number, ..A64RunAnswer::default() };
    let refusal = Err(Refusal::from_number(number).unwrap());
    let words = Words { bytes: block, address: 0 };
    let answer = boundary::a64_run(block, 0, &mut bytes, 9, &mut lent, base);
    assert_eq!(answer, expected, "{block:x?} {memory} {base:x}");
    assert_eq!(a64_run(words, &mut state, 9, Memory { bytes: &mut lent, base }), refusal);
    for (first, budget) in FIRSTS.into_iter().flat_map(|first| [(first, 0), (first, 9)]) {
        let answer = boundary::a64_run_from(block, 0, first, &mut bytes, budget, &mut lent, base);
        assert_eq!(answer, expected, "{block:x?} {first} {memory} {base:x}");
        let memory = Memory { bytes: &mut lent, base };
        assert_eq!(a64_run_from(words, first, &mut state, budget, memory), refusal);
    }
    assert_eq!((bytes, state), (a64_state().to_bytes(), a64_state()));
    assert_eq!(lent, vec![FILL; memory]);
}

#[test]
fn a64_run_by_number() {
    // STR X0, [X0], and bytes of no word.
    let block = [0, 0, 0, 0xF9, 0, 0, 0];
    for length in [1, 2, 3, 5, 6, 7] {
        refuse_a64(10, &block[..length], 16, 0);
        refuse_a64(10, &block[..length], 16, u64::MAX);
    }
    refuse_a64(11, &block[..4], 16, u64::MAX - 14);
    refuse_a64(11, &[], 2, u64::MAX);
    let mut state = A64State { nzcv: u64::MAX, ..A64State::default() };
    let memory = Memory { bytes: &mut [FILL; 16], base: u64::MAX - 15 };
    let run = a64_run(Words { bytes: &[], address: 0 }, &mut state, 9, memory).unwrap();
    assert_eq!((run.end, run.steps, state.nzcv), (End::OffTheEnd, 0, 15));
}

/// Of NZCV the low four bits come out. At or beyond the number of words no word is left, whatever the budget.
#[test]
fn a64_run_from_accepts_the_edges() {
    let after = A64State { nzcv: 10, ..a64_state() };
    for (number, first) in (0..3).flat_map(|number| FIRSTS.map(|first| (number, first))) {
        let block = 0xD65F_03C0_u32.to_le_bytes().repeat(number);
        for budget in [0, 1, 9, u64::MAX] {
            let (mut state, mut memory) = (a64_state(), [FILL; 16]);
            let lent = Memory { bytes: &mut memory, base: u64::MAX - 15 };
            let words = Words { bytes: &block, address: 0 };
            let run = a64_run_from(words, first, &mut state, budget, lent);
            let (end, steps) = match budget {
                _ if first >= number as u64 => (End::OffTheEnd, 0),
                0 => (End::Spent, 0),
                _ => (End::Returned, 1),
            };
            assert_eq!(run, Ok(A64Run { end, steps }), "{number} {first} {budget}");
            assert_eq!((state, memory), (after, [FILL; 16]), "{number} {first} {budget}");
        }
    }
}

fn refuse_list(number: u64, block: &[u8], room: usize) {
    let mut output = vec![FILL; room];
    let answer = boundary::list(block, &mut output);
    let offset = if number == 13 { answer.offset } else { 0 };
    assert_eq!(answer, ListAnswer { refusal: number, length: 0, offset }, "{block:x?} {room}");
    assert_eq!(output, vec![FILL; room]);
    let outside = (number == 13).then_some(offset as usize);
    if let Some(offset) = outside {
        assert!(offset.is_multiple_of(4) && offset < block.len(), "{block:x?} {offset}");
        assert!(!is_a64(words(block)[offset / 4]), "{block:x?} {offset}");
    }
    let refusal = Refusal::from_number(number as u32).unwrap();
    let refused = ListRefused { refusal, offset: outside };
    assert_eq!(list_into(block, &mut output), Err(refused), "{block:x?} {room}");
    assert_eq!(output, vec![FILL; room]);
    if number != 14 {
        assert_eq!(list(block), Err(refusal));
    }
}

#[test]
fn list_by_number() {
    let (ret, unreadable) = (0xD65F_03C0_u32.to_le_bytes(), 0xD65F_03E0_u32.to_le_bytes());
    let line = "00000000 d65f03c0 ret x30\n".len();
    // 12 before 13 and 14: the first word is outside the forms, the output short or long enough.
    for length in [1, 2, 3, 5, 6, 7] {
        refuse_list(12, &[unreadable, ret].concat()[..length], 0);
        refuse_list(12, &[ret, unreadable].concat()[..length], 100);
    }
    // 13 before 14, wherever the word stands.
    for at in 0..5 {
        let mut block = [ret; 5];
        block[at] = unreadable;
        for room in [0, 1, line, 5 * line - 1, 5 * line, 500] {
            refuse_list(13, &block.concat(), room);
        }
    }
    // One bit away from a form: LSL #1, MOVZ of 32 bits, MOVN, RET X31, CMP into X30, ADD X0, SP.
    for word in [0x8B00_0400, 0x5282_0040, 0x9282_0040, 0xD65F_03E0, 0xEB1E_03DE, 0x9100_03E0] {
        refuse_list(13, &u32::to_le_bytes(word), 100);
    }
    for room in 0..2 * line {
        refuse_list(14, &[ret, ret].concat(), room);
    }
}

#[test]
fn list_accepts_the_edges() {
    let block = 0xD65F_03C0_u32.to_le_bytes().repeat(2);
    let text = "00000000 d65f03c0 ret x30\n00000004 d65f03c0 ret x30\n";
    for room in [text.len(), text.len() + 1, 100, 5_000] {
        let mut output = vec![FILL; room];
        let answer = boundary::list(&block, &mut output);
        assert_eq!(answer, ListAnswer { refusal: 0, length: text.len() as u64, offset: 0 });
        let (written, rest) = output.split_at(text.len());
        assert_eq!((written, rest), (text.as_bytes(), &vec![FILL; room - text.len()][..]));
    }
    for room in [0, 1, 100] {
        let mut output = vec![FILL; room];
        assert_eq!(boundary::list(&[], &mut output), ListAnswer::default());
        assert_eq!((list_into(&[], &mut output), output), (Ok(0), vec![FILL; room]));
    }
    assert_eq!((list(&[]).as_deref(), list(&block).as_deref()), (Ok(""), Ok(text)));
}

const KEY: Key = Key { space: 3, pc: 0x1000 };

/// An empty index with a store of such bytes.
fn filled(size: usize) -> Index {
    let mut index = Index::from_saved(&[FILL; INDEX_BYTES], vec![FILL; size].into());
    index.empty();
    index
}

/// Length `length` is refused by 15 in a store of `size`, by an index that is empty and by one with blocks; what is
/// lent stays.
fn refuse_index_place(size: usize, length: usize) {
    let code = vec![1; length];
    let mut store = vec![FILL; size];
    let (mut index, mut bytes) = (filled(size), [FILL; INDEX_BYTES]);
    boundary::index_empty(&mut bytes);
    for pc in [1, 2, 3] {
        let before = (bytes, store.clone());
        let answer = boundary::index_place(&mut bytes, &mut store, KEY, 9, &code);
        assert_eq!(answer, IndexPlaceAnswer { refusal: 15, start: 0 }, "{size} {length}");
        assert!((bytes, &store) == (before.0, &before.1), "{size} {length}");
        assert_eq!(index.place(KEY, 9, &code), Err(Refusal::CodeLength));
        assert!((index.saved(), &index.store()[..]) == (&bytes, &store[..]), "{size} {length}");
        assert_eq!(index.get(KEY), None);
        // A block more, where there is room for it.
        let other = Key { pc, ..KEY };
        boundary::index_place(&mut bytes, &mut store, other, 1, &[2; 4]);
        assert_eq!(index.place(other, 1, &[2; 4]).is_ok(), size >= 4);
    }
}

#[test]
fn index_place_by_number() {
    for size in [0, 1, 3, 4, 7, 8, 9, 64, 4_096] {
        // Zero, not a multiple of 4, and beyond the store, also with both.
        let beyond = (size / 4 + 1) * 4;
        for length in [0, 1, 2, 3, 5, 6, 7, 63, beyond, beyond + 2, beyond + 4, beyond + 4_096] {
            refuse_index_place(size, length);
        }
    }
}

#[test]
fn index_place_accepts_the_edges() {
    for (size, length) in [(4, 4), (5, 4), (7, 4), (8, 8), (64, 64), (66, 64), (8_192, 8_192)] {
        let (mut index, code) = (filled(size), vec![1; length]);
        assert_eq!(index.place(KEY, 9, &code), Ok(0), "{size} {length}");
        assert_eq!(index.get(KEY), Some(Found { start: 0, code: &code, count: 9 }));
        let (written, rest) = index.store().split_at(length);
        assert_eq!((written, rest), (&code[..], &vec![FILL; size - length][..]));
    }
}

fn refuse_lookup(bytes: &[u8; INDEX_BYTES], key: Key) {
    let answer = boundary::index_lookup(bytes, key);
    assert_eq!(
        answer,
        IndexLookupAnswer { refusal: 16, start: 0, length: 0, count: 0 },
        "{key:x?}"
    );
}

#[test]
fn index_lookup_by_number() {
    let others =
        [Key { space: 3, pc: 0x1001 }, Key { space: 4, pc: 0x1000 }, Key { space: 0, pc: 0 }];
    let mut store = [FILL; 16];
    let (mut index, mut bytes) = (filled(16), [FILL; INDEX_BYTES]);
    boundary::index_empty(&mut bytes);
    refuse_lookup(&bytes, KEY);
    assert_eq!(index.get(KEY), None);

    boundary::index_place(&mut bytes, &mut store, KEY, 9, &[1; 8]);
    index.place(KEY, 9, &[1; 8]).unwrap();
    let found = IndexLookupAnswer { refusal: 0, start: 0, length: 8, count: 9 };
    assert_eq!(boundary::index_lookup(&bytes, KEY), found);
    assert_eq!(index.get(KEY), Some(Found { start: 0, code: &[1; 8], count: 9 }));
    for key in others {
        refuse_lookup(&bytes, key);
        assert_eq!(index.get(key), None);
    }

    boundary::index_empty(&mut bytes);
    index.empty();
    refuse_lookup(&bytes, KEY);
    assert_eq!(index.get(KEY), None);
}

#[test]
fn numbers_and_words() {
    // 9 is no number.
    for (refusal, number) in Refusal::ALL.into_iter().zip((1..).filter(|&number| number != 9)) {
        assert_eq!((refusal.number(), Refusal::from_number(number)), (number, Some(refusal)));
        let text = refusal.to_string();
        assert_eq!(text, format!("refused {number}: {}", refusal.meaning()));
        assert!(Refusal::ALL.iter().all(|&other| other == refusal || other.to_string() != text));
    }
    for (end, number) in End::ALL.into_iter().zip(1..) {
        assert_eq!((end.number(), End::from_number(number)), (number, Some(end)));
    }
    for (kind, number) in EndKind::ALL.into_iter().zip(1..) {
        assert_eq!((kind.number(), EndKind::from_number(number)), (number, Some(kind)));
    }
    assert_eq!((Refusal::ALL.len(), End::ALL.len(), EndKind::ALL.len()), (15, 6, 3));
    assert_eq!([0, 9, 17].map(Refusal::from_number), [None; 3]);
    assert_eq!((End::from_number(0), End::from_number(7)), (None, None));
    assert_eq!((EndKind::from_number(0), EndKind::from_number(4)), (None, None));
    let refused = list_into(&[0; 4], &mut []).unwrap_err();
    assert_eq!(refused.to_string(), "refused 13: a word outside the forms, at byte 0");
    let refused = list_into(&[0; 3], &mut []).unwrap_err();
    assert_eq!(refused.to_string(), Refusal::ListingLength.to_string());
}
