//! Recorded answers, listings and the index through the library, every lent slice between inaccessible pages: a byte
//! too far faults. Slices that are lent to be read only stand in pages that cannot be written.

mod guard;
mod index;

use guard::{Edge, Guarded};
use hilofanur::boundary::{a64_run, a64_run_from, list, place, rv64_run, translate};
use hilofanur::boundary::{A64RunAnswer, ListAnswer, PlaceAnswer, Rv64RunAnswer, TranslateAnswer};
use hilofanur::{Guest, Host, Refusal, Registers, LONGEST_LINE};
use std::os::unix::process::ExitStatusExt;
use std::process::Command;
use steppers::records::{a64_cases, rv64_cases, rv64_rules, Reader};
use steppers::{Rv64Answer, OFF_THE_END, RETURNED};

const BLOCKS: &[u8] = include_bytes!("../../../../crates/blocks_replay/data/blocks.bin");
const PLACE: &[u8] = include_bytes!("../../../../crates/place_replay/data/place.bin");
const RV64: &[u8] = include_bytes!("../../../../crates/rv64_replay/data/rv64.bin");
const RV64_RULES: &[u8] = include_bytes!("../../../../crates/rv64_replay/data/rv64_rules.bin");
const A64: &[u8] = include_bytes!("../../../../crates/a64_replay/data/a64.bin");
const A64_RULES: &[u8] = include_bytes!("../../../../crates/a64_replay/data/a64_rules.bin");
const EDGES: [Edge; 2] = [Edge::End, Edge::Start];
const FILL: u8 = 0xA5;

/// A recorded question to Translate with the Rust's answer; rust/oracle/README.md has the format.
struct Case {
    guest: Vec<u8>,
    pc: u64,
    limit: u32,
    ignore_ebreak: bool,
    host: Host,
    room: usize,
    answer: TranslateAnswer,
    words: Vec<u8>,
}

impl Case {
    fn read(r: &mut Reader) -> Case {
        let length = r.u16();
        let guest = r.bytes(length.into());
        let (pc, limit, ignore_ebreak) = (r.u64(), r.u32(), r.u8() != 0);
        let host = Host {
            slot_offset: r.u64(),
            memory_helper: r.u64(),
            helper32: r.u64(),
            helper16: r.u64(),
        };
        let room = r.u32() as usize;
        let (refusal, end, count) = (r.u8().into(), r.u8().into(), r.u8().into());
        let length = 4 * u32::from(r.u16());
        let words = r.bytes(length as usize);
        let answer = TranslateAnswer { refusal, length, count, end };
        Case { guest, pc, limit, ignore_ebreak, host, room, answer, words }
    }

    fn replay(&self, edge: Edge) {
        let guest = Guarded::read_only(&self.guest, edge);
        let mut output = Guarded::new(&vec![FILL; self.room], edge);
        let Case { pc, limit, ignore_ebreak, .. } = *self;
        let guest = Guest { bytes: &guest, pc, limit, ignore_ebreak };
        assert_eq!(translate(&guest, &self.host, &mut output), self.answer, "{guest:x?}");
        let (written, rest) = output.split_at(self.words.len());
        assert_eq!(written, self.words, "{guest:x?}");
        assert!(rest.iter().all(|&byte| byte == FILL), "{guest:x?}");
    }
}

#[test]
fn translations() {
    let mut r = Reader(BLOCKS);
    let number = r.header(b"A64BLOCK");
    r.u64();
    assert!(number >= 4_900);
    let mut met = [0; 4];
    for _ in 0..number {
        let case = Case::read(&mut r);
        met[case.answer.end as usize] += 1;
        for edge in EDGES {
            case.replay(edge);
        }
    }
    assert!(r.0.is_empty());
    // Refused, and of each end kind.
    assert!(met.into_iter().all(|number| number >= 100), "{met:?}");
}

#[test]
fn places() {
    let mut r = Reader(PLACE);
    let mut number = 0;
    while !r.0.is_empty() {
        let size = r.u8().into();
        let (before, used, length) = (r.bytes(size), r.u64(), r.u8());
        let code = r.bytes(length.into());
        let expected = PlaceAnswer { refusal: r.u8().into(), start: r.u64(), used: r.u64() };
        let after = r.bytes(size);
        for edge in EDGES {
            let mut store = Guarded::new(&before, edge);
            let code = Guarded::read_only(&code, edge);
            assert_eq!(place(&mut store, used, &code), expected, "{size} {used} {length}");
            assert_eq!(*store, after);
        }
        number += 1;
    }
    assert!(number >= 800);
}

#[test]
fn rv64_runs() {
    let mut cases = rv64_cases(RV64);
    cases.extend(rv64_rules(RV64_RULES));
    assert!(cases.len() >= 20_600);
    for case in cases {
        for edge in EDGES {
            let bytes = Guarded::read_only(&case.guest, edge);
            let (pc, limit, ignore_ebreak) = (case.pc, case.limit, case.ignore_ebreak);
            let guest = Guest { bytes: &bytes, pc, limit, ignore_ebreak };
            let mut registers = Guarded::new(&Registers { x: case.before }.to_bytes(), edge);
            let answer = rv64_run(&guest, registers.first_chunk_mut().unwrap());
            let Rv64Answer { refusal, count, next_pc } = case.answer;
            assert_eq!(answer, Rv64RunAnswer { refusal, count, next_pc }, "{guest:x?}");
            assert_eq!(*registers, Registers { x: case.after }.to_bytes(), "{guest:x?}");
        }
    }
}

#[test]
fn a64_runs() {
    let mut cases = a64_cases(A64);
    cases.extend(a64_cases(A64_RULES));
    assert!(cases.len() >= 20_400);
    for case in cases {
        for edge in EDGES {
            let block = Guarded::read_only(&case.block, edge);
            let mut state = Guarded::new(&case.before.to_bytes(), edge);
            let mut memory = Guarded::new(&case.memory_before, edge);
            let lent = state.first_chunk_mut().unwrap();
            let answer = a64_run(&block, case.address, lent, case.budget, &mut memory, case.base);
            let (end, steps) = (case.answer.end, case.answer.steps);
            assert_eq!(answer, A64RunAnswer { refusal: 0, end, steps }, "{:x?}", case.block);
            assert_eq!(*state, case.after.to_bytes(), "{:x?}", case.block);
            assert_eq!(*memory, case.memory_after, "{:x?}", case.block);
        }
    }
}

/// Each run cut after one of its words, and gone on with there: it ends as recorded. From a word beyond the last no
/// more comes.
#[test]
fn a64_runs_in_two_parts() {
    let cases = a64_cases(A64).into_iter().step_by(8).chain(a64_cases(A64_RULES));
    for ((number, case), edge) in cases.enumerate().zip(EDGES.into_iter().cycle()) {
        let (address, base, end, steps) =
            (case.address, case.base, case.answer.end, case.answer.steps);
        let cuts = if end < RETURNED { steps + 1 } else { steps };
        let first = number as u64 / 2 % cuts;
        let block = Guarded::read_only(&case.block, edge);
        let mut state = Guarded::new(&case.before.to_bytes(), edge);
        let mut memory = Guarded::new(&case.memory_before, edge);
        let lent = state.first_chunk_mut().unwrap();
        assert_eq!(a64_run(&block, address, lent, first, &mut memory, base).steps, first);
        let left = case.budget - first;
        let answer = a64_run_from(&block, address, first, lent, left, &mut memory, base);
        let rest = A64RunAnswer { refusal: 0, end, steps: steps - first };
        assert_eq!(answer, rest, "{:x?} {first}", case.block);
        let words = block.len() as u64 / 4;
        for beyond in [words, words + 1, 1 << 62, (1 << 62) + first, u64::MAX] {
            let answer = a64_run_from(&block, address, beyond, lent, 9, &mut memory, base);
            let none = A64RunAnswer { refusal: 0, end: OFF_THE_END, steps: 0 };
            assert_eq!(answer, none, "{beyond}");
        }
        assert_eq!(*state, case.after.to_bytes(), "{:x?} {first}", case.block);
        assert_eq!(*memory, case.memory_after, "{:x?} {first}", case.block);
    }
}

/// Lists a block between the pages, the output exactly as long as the listing, a byte shorter, longer, or empty; the
/// plain writer's refusal where it is long enough.
fn listed(block: &[u8], edge: Edge) -> u64 {
    let mut plain = vec![FILL; block.len().div_ceil(4) * LONGEST_LINE];
    let whole = steppers::list(block, &mut plain);
    let length = whole.length as usize;
    let block = Guarded::read_only(block, edge);
    for room in [length, length.saturating_sub(1), length + 7, plain.len(), 0] {
        let mut output = Guarded::new(&vec![FILL; room], edge);
        let mut expected = vec![FILL; room];
        let numbers = steppers::list(&block, &mut expected);
        let answer = list(&block, &mut output);
        let same = (answer.refusal, answer.length) == (numbers.refusal, numbers.length);
        assert!(same && *output == expected, "{:x?} {room}: {answer:?}, {numbers:?}", &*block);
    }
    whole.refusal
}

/// The words of some recorded translations and of A64 runs, which have words outside the forms too; and a byte less.
#[test]
fn listings() {
    let mut r = Reader(BLOCKS);
    let number = r.header(b"A64BLOCK");
    r.u64();
    let blocks: Vec<Vec<u8>> = (0..number).map(|_| Case::read(&mut r).words).collect();
    let runs = a64_cases(A64_RULES).into_iter().map(|case| case.block);
    let mut met = [0; 15];
    for mut block in blocks.into_iter().step_by(8).chain(runs) {
        for edge in EDGES {
            met[listed(&block, edge) as usize] += 1;
        }
        block.pop();
        met[listed(&block, Edge::End) as usize] += 1;
    }
    assert!(met[0] > 1_000 && met[12] > 500 && met[13] > 100, "{met:?}");
}

/// Refusal 12's bound, with zeros, which are words outside the forms.
#[test]
fn listings_of_4_gib() {
    let zeros = Guarded::zeros((1 << 32) + 4);
    let mut output = [FILL; 100];
    let answer = list(&zeros, &mut output);
    assert_eq!(answer, ListAnswer { refusal: 12, length: 0, offset: 0 });
    assert_eq!(hilofanur::list(&zeros), Err(Refusal::ListingLength));
    let answer = list(&zeros[..1 << 32], &mut output);
    assert_eq!((answer.refusal, answer.length, answer.offset % 4), (13, 0, 0));
    assert!(answer.offset < 1 << 32);
    assert_eq!(hilofanur::list(&zeros[..1 << 32]), Err(Refusal::OutsideForms));
    assert_eq!(output, [FILL; 100]);
}

const TRY: &str = "HILOFANUR_GUARD";

/// One access that has to fault.
#[test]
#[ignore = "guards_fault runs it, in processes of its own"]
fn a_byte_too_far() {
    let access = std::env::var(TRY).unwrap();
    let bytes = Guarded::read_only(&[1, 2, 3], Edge::End);
    match access.as_str() {
        "after" => drop(bytes.read_after()),
        "before" => drop(Guarded::new(&[1, 2, 3], Edge::Start).read_before()),
        "write" => bytes.write_first(),
        _ => {}
    }
}

/// The guards guard: each access beyond them ends the process by SIGSEGV, an access inside does not.
#[test]
fn guards_fault() {
    const SIGSEGV: i32 = 11;
    for (access, signal) in
        [("after", Some(SIGSEGV)), ("before", Some(SIGSEGV)), ("write", Some(SIGSEGV)), ("", None)]
    {
        let child = Command::new(std::env::current_exe().unwrap())
            .args(["--ignored", "--exact", "a_byte_too_far"])
            .env(TRY, access)
            .output()
            .unwrap();
        assert_eq!(child.status.signal(), signal, "{access}");
    }
}
