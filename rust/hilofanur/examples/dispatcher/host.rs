//! The host's side: a memory with the slots and a stack in it, where a block's words are run, with its helper's work
//! in between.

use super::code::HOST;
use super::compare::Run;
use super::helper::help;
use super::memory::{Access, Memory};
use draw::Random;
use hilofanur::{a64_run, a64_run_from, A64Run, A64State, End, Guest, Registers, Words};
use std::ops::Range;

pub const BASE: u64 = 0x7FFF_0000_0000;
pub const SIZE: usize = 1024;
/// X0 and SP of entry.
const HART: u64 = BASE + 128;
pub const SP: u64 = BASE + 896;
const FIRST_SLOT: usize = (HART + HOST.slot_offset - BASE) as usize;
/// Slots 1 to 31. Slot 0 holds anything, as after a snapshot load.
pub const SLOTS: Range<usize> = FIRST_SLOT + 8..FIRST_SLOT + 256;

/// The host's registers and memory.
#[derive(Clone, Copy)]
pub struct Machine {
    pub state: A64State,
    pub memory: [u8; SIZE],
}

/// A block that is run: its guest, its count, its words.
pub struct Running<'a> {
    pub guest: &'a Guest<'a>,
    pub count: u32,
    pub words: Words<'a>,
}

/// What a block's words did, and what differs from the RV64 run.
pub struct Done {
    pub registers: Registers,
    /// The next PC.
    pub pc: u64,
    pub steps: u64,
    pub returned: bool,
    /// What the helper did that the block called. Where that cannot be done, why; the block has then not gone on.
    pub helper: Option<Result<Access, String>>,
    pub differences: Vec<String>,
}

pub struct HostSide {
    memory: [u8; SIZE],
    runs: u64,
}

impl Running<'_> {
    /// The number of its words.
    pub fn number(&self) -> u64 {
        self.words.bytes.len() as u64 / 4
    }
}

impl Machine {
    /// The guest's registers; register 0 is 0, whatever its slot holds.
    pub fn slots(&self) -> Registers {
        let mut bytes = [0; 256];
        bytes[8..].copy_from_slice(&self.memory[SLOTS]);
        Registers::from_bytes(&bytes)
    }

    /// Puts the guest's registers there; slot 0 keeps what it holds.
    pub fn set_slots(&mut self, registers: &Registers) {
        self.memory[SLOTS].copy_from_slice(&registers.to_bytes()[8..]);
    }

    /// Does the block's words from the one numbered `first` on.
    fn run(&mut self, block: &Running, first: u64) -> Result<A64Run, String> {
        let Running { guest, words, .. } = *block;
        let memory = hilofanur::Memory { bytes: &mut self.memory, base: BASE };
        let left = block.number() - first;
        let run = match first {
            0 => a64_run(words, &mut self.state, left, memory),
            _ => a64_run_from(words, first, &mut self.state, left, memory),
        };
        run.map_err(|refusal| format!("A64 run at {:x}: {refusal}", guest.pc))
    }
}

impl HostSide {
    pub fn new() -> HostSide {
        HostSide { memory: std::array::from_fn(|n| (n * 151 % 251) as u8), runs: 0 }
    }

    /// The registers in the slots, X0 to these, SP to the stack, anything in the others.
    fn entry(&self, random: &mut Random, registers: &Registers) -> Machine {
        let mut x = std::array::from_fn(|_| random.next());
        x[0] = HART;
        let state = A64State { x, sp: SP, nzcv: random.below(16) as u64 };
        let mut machine = Machine { state, memory: self.memory };
        machine.set_slots(registers);
        machine
    }

    /// Runs the block's words with the registers in the slots, and the guest's instructions beside it. Where it calls
    /// a helper, that does its work in the guest's memory, and the block goes on after the call.
    pub fn run(
        &mut self,
        block: &Running,
        registers: &Registers,
        memory: &mut Memory,
    ) -> Result<Done, String> {
        // Another seed for each run.
        self.runs += 1;
        let mut random = Random(self.runs);
        let before = self.entry(&mut random, registers);
        let mut machine = before;
        let mut ended = machine.run(block, 0)?;
        let run = Run::new(block, (before, machine), ended)?;
        let (mut steps, mut differences) = (ended.steps, run.differences());
        let mut helper = None;
        if ended.end == End::Called {
            let helped = help(&mut machine, memory, &mut random);
            if helped.is_ok() {
                let left = machine;
                ended = machine.run(block, steps)?;
                differences.extend(run.differences_after((left, machine), ended));
                steps += ended.steps;
            }
            helper = Some(helped.map_err(|text| run.not_served(&text)));
        }
        self.memory = machine.memory;
        let (registers, pc) = (machine.slots(), machine.state.x[0]);
        let returned = ended.end == End::Returned;
        Ok(Done { registers, pc, steps, returned, helper, differences })
    }
}
