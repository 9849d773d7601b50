//! Translates a guest block, lists it, runs it, places it and looks it up. It runs on x86-64 and on AArch64; the
//! block's words are done by `a64_run`, so that no Arm processor is needed.

use hilofanur::{a64_run, list, translate, A64State, End, Guest, Host};
use hilofanur::{Index, Key, Memory, Refusal, Registers, Words};

/// addi a0, a0, 5; add a0, a0, a1; ret
const GUEST: [u8; 10] = [0x13, 0x05, 0x55, 0x00, 0x33, 0x05, 0xb5, 0x00, 0x82, 0x80];
const PC: u64 = 0x1000;
const RA: usize = 1;
const A0: usize = 10;
const A1: usize = 11;

fn main() -> Result<(), Refusal> {
    let guest = Guest { bytes: &GUEST, pc: PC, limit: 64, ignore_ebreak: false };
    let host =
        Host { slot_offset: 0, memory_helper: 0x10000, helper32: 0x20000, helper16: 0x30000 };
    let mut output = [0; hilofanur::LONGEST_BLOCK];
    let block = translate(&guest, &host, &mut output)?;
    let words = Words { bytes: &output[..block.length], address: 0x4_0000 };
    println!("{} guest instructions, {} words:", block.count, block.length / 4);
    print!("{}", list(words.bytes)?);

    // The guest's registers, one to a slot, are the run's whole memory. X0 has its address.
    let mut registers = Registers::default();
    (registers.x[RA], registers.x[A0], registers.x[A1]) = (0x2000, 30, 7);
    let (mut slots, mut state) = (registers.to_bytes(), A64State::default());
    state.x[0] = 0x8000;
    let memory = Memory { bytes: &mut slots, base: 0x8000 };
    let run = a64_run(words, &mut state, block.length as u64 / 4, memory)?;
    let a0 = Registers::from_bytes(&slots).x[A0];
    let ended = if run.end == End::Returned { "returned" } else { "stopped" };
    print!("run: {ended} after {} words, a0 = {a0}", run.steps);
    println!(", next PC {:x}, {} instructions", state.x[0], state.x[1]);

    // For years: an index of blocks, with its store.
    let (mut index, key) = (Index::new(1 << 16), Key { space: 0, pc: PC });
    let start = index.place(key, block.count as u8, words.bytes)?;
    let same = index.get(key).is_some_and(|found| found.code == words.bytes);
    println!(
        "placed at {start} and found: {}",
        if same { "the same words" } else { "NOT THE SAME" }
    );
    assert!(run.end == End::Returned && a0 == 42 && state.x[..2] == [0x2000, 3] && same);
    Ok(())
}
