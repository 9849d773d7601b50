//! The two runs beside the plain steppers.

use crate::{row, SEED};
use draw::a64::plain_run;
use draw::guest::Guests;
use draw::marked::LONG_PC;
use draw::values::registers;
use draw::zbb::plain_straight;
use draw::{Case, Random, LONGEST};
use hilofanur::{boundary, Guest, Registers};
use oracle::expected;
use std::hint::black_box;
use steppers::{a64_run, a64_run_from, rv64_run, A64Answer, A64State, Rv64Answer};

/// The memory of A64 runs. X0 and SP point to its middle; loads and stores reach 32 KiB from there.
const BASE: u64 = 0x10_0000;
const MEMORY: usize = 0x4_0000;
const MIDDLE: u64 = BASE + MEMORY as u64 / 2;

pub fn rows() {
    for (length, number) in [(64, 256), (8, 2048), (64, 4), (8, 4)] {
        let guests = Guests::default();
        let blocks = draw(number, |random| guests.plain_block(random, length));
        rv64(&format!("RV64 run, {number} blocks of {length}"), length, &blocks);
    }
    for (length, number) in [(64, 256), (8, 2048), (64, 4)] {
        let blocks = draw(number, |random| plain_straight(random, length));
        rv64(&format!("RV64 run, {number} blocks of {length}, Zbb"), length, &blocks);
    }
    for (length, number) in [(400, 40), (16, 1024), (400, 1), (16, 4)] {
        let blocks = draw(number, |random| plain_run(random, length));
        a64(&format!("A64 run, {number} runs of {length}"), &blocks);
    }
    for (length, number) in [(64, 256), (8, 2048), (64, 4)] {
        let blocks = draw(number, |random| translation(&plain_straight(random, length)));
        a64(&format!("A64 run, {number} blocks of {length}, Zbb"), &blocks);
    }
    no_word();
    behind_a_call();
    one_nop();
}

fn proved_rv64(bytes: &[u8], registers: &mut [u8; 256]) -> Rv64Answer {
    let guest = Guest { bytes, pc: 0x1000, limit: 64, ignore_ebreak: false };
    let a = boundary::rv64_run(&guest, registers);
    Rv64Answer { refusal: a.refusal, count: a.count, next_pc: a.next_pc }
}

fn plain_rv64(block: &[u8], registers: &mut [u64; 32]) -> Rv64Answer {
    rv64_run(block, 0x1000, 64, false, registers)
}

/// So many blocks, from the one seed.
fn draw(number: usize, mut block: impl FnMut(&mut Random) -> Vec<u8>) -> Vec<Vec<u8>> {
    let mut random = Random(SEED);
    (0..number).map(|_| block(&mut random)).collect()
}

/// The words of a guest's block.
pub fn translation(guest: &[u8]) -> Vec<u8> {
    let mut output = vec![0; LONGEST];
    let answer = expected(&Case { pc: LONG_PC, ..Case::new(guest, 64) }, &mut output);
    assert_eq!(answer.refusal, 0);
    output.truncate(answer.length as usize);
    output
}

/// Blocks of `length` instructions, in turn.
fn rv64(name: &str, length: usize, blocks: &[Vec<u8>]) {
    let mut random = Random(SEED + 1);
    let mut plain = registers(|| random.next());
    let mut bytes = Registers { x: plain }.to_bytes();
    for block in blocks {
        let (mut plain, mut bytes) = (plain, bytes);
        let answer = plain_rv64(block, &mut plain);
        assert_eq!(answer.count as usize, length);
        assert_eq!(answer, proved_rv64(block, &mut bytes));
        assert_eq!(bytes, Registers { x: plain }.to_bytes());
    }
    row(
        name,
        (length * blocks.len(), "instruction"),
        blocks,
        |block| proved_rv64(block, &mut bytes),
        |block| plain_rv64(block, &mut plain),
    );
}

fn proved_a64(block: &[u8], state: &mut [u8; 264], memory: &mut [u8]) -> A64Answer {
    let a = boundary::a64_run(block, 0, state, u64::MAX, memory, BASE);
    A64Answer { refusal: a.refusal, end: a.end, steps: a.steps }
}

fn plain_a64(block: &[u8], state: &mut A64State, memory: &mut [u8]) -> A64Answer {
    a64_run(block, 0, state, u64::MAX, memory, BASE)
}

/// Straight runs, in turn.
fn a64(name: &str, blocks: &[Vec<u8>]) {
    let mut random = Random(SEED + 1);
    let mut start = A64State { x: std::array::from_fn(|_| random.next()), sp: MIDDLE, nzcv: 0 };
    start.x[0] = MIDDLE;
    let start_bytes = start.to_bytes();
    let mut memory = random.bytes(MEMORY);
    let mut plain_memory = memory.clone();
    for block in blocks {
        let (mut plain, mut bytes) = (start, start_bytes);
        let answer = plain_a64(block, &mut plain, &mut plain_memory);
        assert_eq!((answer.end, answer.steps), (steppers::RETURNED, block.len() as u64 / 4));
        assert_eq!(answer, proved_a64(block, &mut bytes, &mut memory));
        assert_eq!(bytes, plain.to_bytes());
        assert!(memory == plain_memory);
    }
    row(
        name,
        (blocks.iter().map(|block| block.len() / 4).sum(), "word"),
        blocks,
        |block| {
            let mut bytes = start_bytes;
            (proved_a64(block, &mut bytes, &mut memory), bytes)
        },
        |block| {
            let mut plain = start;
            (plain_a64(block, &mut plain, &mut plain_memory), plain)
        },
    );
}

/// What an A64 run costs that runs nothing.
fn no_word() {
    let mut state = A64State { x: [7; 31], sp: 0, nzcv: 0 };
    let mut bytes = state.to_bytes();
    row(
        "A64 run, no word",
        (1, "call"),
        &[()],
        |()| proved_a64(black_box(&[]), &mut bytes, &mut []),
        |()| plain_a64(black_box(&[]), &mut state, &mut []),
    );
}

/// What it costs to go on after the call of a helper: the five words of a block of seven C.NOP and LD x10, 8(x11).
fn behind_a_call() {
    let guest = [&[1, 0].repeat(7)[..], &[0x03, 0xB5, 0x85, 0x00]].concat();
    let block = translation(&guest);
    let mut start = A64State { x: [MIDDLE; 31], sp: MIDDLE, nzcv: 0 };
    let mut memory = vec![0; MEMORY];
    let call = plain_a64(&block, &mut start, &mut memory);
    assert_eq!(call.end, steppers::CALLED);
    let (first, start_bytes, mut plain_memory) = (call.steps, start.to_bytes(), memory.clone());
    let mut proved = |block: &[u8]| {
        let mut bytes = start_bytes;
        let a = boundary::a64_run_from(block, 0, first, &mut bytes, u64::MAX, &mut memory, BASE);
        (A64Answer { refusal: a.refusal, end: a.end, steps: a.steps }, bytes)
    };
    let mut plain = |block: &[u8]| {
        let mut state = start;
        let a = a64_run_from(block, 0, first, &mut state, u64::MAX, &mut plain_memory, BASE);
        (a, state)
    };
    let (answer, after) = plain(&block);
    assert_eq!(answer, A64Answer { refusal: 0, end: steppers::RETURNED, steps: 5 });
    assert_eq!(proved(&block), (answer, after.to_bytes()));
    row(
        "A64 run from, after a call",
        (1, "call"),
        &[block],
        |block| proved(black_box(block)),
        |block| plain(black_box(block)),
    );
}

/// What an RV64 run costs that does nothing.
fn one_nop() {
    let mut random = Random(SEED);
    let mut plain = registers(|| random.next());
    let mut bytes = Registers { x: plain }.to_bytes();
    row(
        "RV64 run, one C.NOP",
        (1, "call"),
        &[()],
        |()| proved_rv64(black_box(&[1, 0]), &mut bytes),
        |()| plain_rv64(black_box(&[1, 0]), &mut plain),
    );
}
