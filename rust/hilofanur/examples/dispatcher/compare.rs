//! A block's run beside the RV64 run of its guest: what differs at its return or its call, and what after the call.

use super::code::HOST;
use super::host::{Machine, Running, BASE, SIZE, SLOTS, SP};
use super::memory::Access;
use draw::class;
use hilofanur::{rv64_run, A64Run, End, Guest, Refusal, Registers};
use std::ops::Range;

/// What a block that calls a helper has of the stack; X30 is kept in the lower half.
const STACK: Range<usize> = (SP - 16 - BASE) as usize..(SP - BASE) as usize;
const LINK: Range<usize> = STACK.start..STACK.start + 8;

/// A block that has run to its return or its call.
pub struct Run<'a> {
    block: &'a Running<'a>,
    before: Machine,
    after: Machine,
    ended: A64Run,
    /// By the RV64 run: the registers, the next PC, the count.
    registers: Registers,
    next_pc: u64,
    count: u32,
}

impl<'a> Run<'a> {
    /// A run that ended so, from the machine before it to the one after it; the RV64 run beside it.
    pub fn new(
        block: &'a Running,
        (before, after): (Machine, Machine),
        ended: A64Run,
    ) -> Result<Run<'a>, String> {
        let (guest, mut registers) = (block.guest, before.slots());
        // Before a helper instruction the RV64 run stops; as the first it is refused.
        let (count, next_pc) = match rv64_run(guest, &mut registers) {
            Ok(run) => (run.count, run.next_pc),
            Err(Refusal::NotCovered) => (0, guest.pc),
            Err(refusal) => return Err(format!("RV64 run at {:x}: {refusal}", guest.pc)),
        };
        Ok(Run { block, before, after, ended, registers, next_pc, count })
    }

    /// A helper ended the block: the words called it.
    fn called(&self) -> bool {
        self.ended.end == End::Called
    }

    /// Those that do not hold.
    fn wrong(&self, held: &[(&str, bool)]) -> Vec<String> {
        let wrong = held.iter().filter(|(_, holds)| !holds);
        wrong.map(|(what, _)| format!("block at {:x}: {what}", self.block.guest.pc)).collect()
    }

    /// At the return or the call, against the RV64 run.
    pub fn differences(&self) -> Vec<String> {
        let (entry, state) = (&self.before.state, &self.after.state);
        let count = self.block.count;
        let mut wrong = self.wrong(&[
            ("registers", self.after.slots() == self.registers),
            ("other memory", self.other_memory()),
            ("X18 to X29", state.x[18..30] == entry.x[18..30]),
        ]);
        wrong.extend(if self.called() {
            let link = self.block.words.address.wrapping_add(4 * self.ended.steps);
            self.wrong(&[
                ("count", self.count + 1 == count),
                ("SP", state.sp == SP - 16),
                ("saved X30", self.after.memory[LINK] == entry.x[30].to_le_bytes()),
                ("X30", state.x[30] == link),
                ("helper's arguments", self.call() == self.expected_call()),
            ])
        } else {
            let returned = A64Run { end: End::Returned, steps: self.block.number() };
            let kept = state.x[2..9] == entry.x[2..9] && state.x[30] == entry.x[30];
            self.wrong(&[
                ("end", self.ended == returned),
                ("count", self.count == count && state.x[1] == u64::from(count)),
                ("next PC", state.x[0] == self.next_pc),
                ("SP", state.sp == SP),
                ("X2 to X8, X30", kept),
            ])
        });
        wrong
    }

    /// After the call, against what the helper left, which did one instruction.
    pub fn differences_after(
        &self,
        (left, after): (Machine, Machine),
        ended: A64Run,
    ) -> Vec<String> {
        let (entry, left_state, state) = (&self.before.state, &left.state, &after.state);
        let steps = self.block.number() - self.ended.steps;
        let returned = A64Run { end: End::Returned, steps };
        self.wrong(&[
            ("end after the call", ended == returned),
            ("next PC after the call", state.x[0] == left_state.x[0]),
            ("count after the call", state.x[1] == u64::from(self.block.count)),
            ("SP after the call", state.sp == SP),
            ("X30 after the call", state.x[30] == entry.x[30]),
            ("X18 to X29 after the call", state.x[18..30] == left_state.x[18..30]),
            ("memory after the call", after.memory == left.memory),
        ])
    }

    /// Memory outside slots 1 to 31 and, before a call, the block's part of the stack.
    fn other_memory(&self) -> bool {
        let (before, after) = (&self.before.memory, &self.after.memory);
        (0..SIZE)
            .filter(|at| !(SLOTS.contains(at) || self.called() && STACK.contains(at)))
            .all(|at| before[at] == after[at])
    }

    /// The helper's address and its eight argument registers, of which an instruction helper takes seven.
    fn call(&self) -> [u64; 9] {
        let x = &self.after.state.x;
        let eighth = if x[16] == HOST.memory_helper { x[7] } else { 0 };
        [x[16], x[0], x[1], x[2], x[3], x[4], x[5], x[6], eighth]
    }

    /// The same by document 01: operation, rd, value, address and PC, or the instruction and PC.
    fn expected_call(&self) -> [u64; 9] {
        let x = &self.before.state.x;
        let instr = instruction(self.block.guest, self.next_pc);
        match Access::decode(instr, &self.registers) {
            Some(a) if a.length == 4 => {
                let (operation, rd) = (a.operation(), a.rd as u64);
                let helper = HOST.memory_helper;
                [helper, x[1], x[2], x[3], operation, rd, a.value, a.address, self.next_pc]
            }
            _ => {
                let helper = if instr & 3 == 3 { HOST.helper32 } else { HOST.helper16 };
                [helper, x[1], x[2], x[3], x[4], x[5], instr.into(), self.next_pc, 0]
            }
        }
    }

    /// Why the helper's instruction is not done.
    pub fn not_served(&self, why: &str) -> String {
        let instr = instruction(self.block.guest, self.next_pc);
        format!("{instr:x} at {:x}: {why}", self.next_pc)
    }
}

/// The instruction at a PC of the guest's bytes, 16 bits or 32; beyond them 0.
pub fn instruction(guest: &Guest, pc: u64) -> u32 {
    let at = usize::try_from(pc.wrapping_sub(guest.pc)).unwrap_or(usize::MAX);
    guest.bytes.get(at..).and_then(class::instruction).unwrap_or(0)
}

#[cfg(test)]
mod tests {
    use super::super::host::HostSide;
    use super::super::memory::Memory;
    use super::*;
    use hilofanur::{translate, Words, LONGEST_BLOCK};

    /// What is found after the words of a block have been changed: each pair puts a word at an index.
    fn differences(bytes: &[u8], changes: &[(usize, u32)]) -> String {
        let guest = &Guest { bytes, pc: 0x1000, limit: 64, ignore_ebreak: false };
        let mut output = [0; LONGEST_BLOCK];
        let block = translate(guest, &HOST, &mut output).unwrap();
        for &(index, word) in changes {
            output[4 * index..][..4].copy_from_slice(&word.to_le_bytes());
        }
        let registers = Registers { x: std::array::from_fn(|n| 8 * n as u64) };
        let words = Words { bytes: &output[..block.length], address: 0x4000 };
        let running = Running { guest, count: block.count, words };
        let mut memory = Memory { base: 0, bytes: vec![0; 256] };
        let done = HostSide::new().run(&running, &registers, &mut memory).unwrap();
        let differences: Vec<_> =
            done.differences.iter().map(|text| text.replace("block at 1000: ", "")).collect();
        differences.join(", ")
    }

    /// c.li a0, -1: four words of the constant, its store, the PC, the count, RET.
    #[test]
    fn a_plain_block() {
        let found = |changes: &[(usize, u32)]| differences(&[0x7D, 0x55], changes);
        assert_eq!(found(&[]), "");
        assert_eq!(found(&[(0, 0xD29F_FFCB)]), "registers");
        // STR X11, [X0, #320]: after the slots
        assert_eq!(found(&[(4, 0xF900_A00B)]), "registers, other memory");
        assert_eq!(found(&[(5, 0xD282_0060)]), "next PC");
        assert_eq!(found(&[(6, 0xD280_0041)]), "count");
        // MOVZ X18, X30 and X8, ADD SP in place of the PC
        assert_eq!(found(&[(5, 0xD280_0012)]), "X18 to X29, next PC");
        assert_eq!(found(&[(5, 0xD280_001E)]), "next PC, X2 to X8, X30");
        assert_eq!(found(&[(5, 0xD280_0008)]), "next PC, X2 to X8, X30");
        assert_eq!(found(&[(5, 0x9100_43FF)]), "next PC, SP");
        assert_eq!(found(&[(6, 0xD65F_03C0)]), "end, count");
        // BLR X16 in place of RET
        assert_eq!(found(&[(7, 0xD63F_0200)]), "count, SP, saved X30, helper's arguments");
    }

    /// addi t0, zero, 1: MOVZ X9 with 0 for register 0, whose slot holds anything; the constant, the sum, its store.
    #[test]
    fn register_0() {
        let found = |changes: &[(usize, u32)]| differences(&[0x93, 0x02, 0x10, 0x00], changes);
        assert_eq!(found(&[]), "");
        // LDR X9, STR X9: slot 0 is read, or written
        assert_eq!(found(&[(0, 0xF940_2009)]), "registers");
        assert_eq!(found(&[(4, 0xF900_2009)]), "other memory, next PC");
    }

    /// C.NOP and c.lw a0, 4(a1): five moves, instruction, PC, three words of the helper's address, the call.
    #[test]
    fn a_block_with_a_helper() {
        let found = |changes: &[(usize, u32)]| differences(&[1, 0, 0xC8, 0x41], changes);
        assert_eq!(found(&[]), "");
        assert_eq!(found(&[(0, 0xD280_0000)]), "helper's arguments");
        assert_eq!(found(&[(5, 0xD288_3925)]), "helper's arguments");
        assert_eq!(found(&[(6, 0xD282_0006)]), "helper's arguments");
        assert_eq!(found(&[(7, 0xD280_0010)]), "helper's arguments");
        // SUB SP by 32; STR X30, [SP, #8]; BLR before STR
        let lower = "other memory, SP, saved X30, SP after the call";
        assert_eq!(found(&[(10, 0xD100_83FF)]), lower);
        assert_eq!(found(&[(11, 0xF900_07FE)]), "saved X30, X30 after the call");
        // STR X30, [SP, #16]: above the 16 bytes
        let above = "other memory, saved X30, X30 after the call";
        assert_eq!(found(&[(11, 0xF900_0BFE)]), above);
        // RET in place of the call
        let returned = "other memory, end, count, next PC, SP, X2 to X8, X30";
        assert_eq!(found(&[(12, 0xD65F_03C0)]), returned);
    }

    /// The words after the same block's call: LDR X30, ADD SP, MOVZ X12 with the one before, ADD X1, RET.
    #[test]
    fn after_the_call() {
        let found = |index, word| {
            let found = differences(&[1, 0, 0xC8, 0x41], &[(index, word)]);
            found.replace(" after the call", "")
        };
        // LDR X30, [SP, #8]; MOVZ X30; MOVZ X18
        assert_eq!(found(13, 0xF940_07FE), "X30");
        assert_eq!(found(13, 0xD280_001E), "X30");
        assert_eq!(found(13, 0xD280_0012), "X30, X18 to X29");
        // ADD SP by 32; SUB SP by 16; STR X2, [SP, #0]
        assert_eq!(found(14, 0x9100_83FF), "SP");
        assert_eq!(found(14, 0xD100_43FF), "SP");
        assert_eq!(found(14, 0xF900_03E2), "SP, memory");
        // The count before it 2; MOVZ X0; MOVZ X1; ADD X0; RET
        assert_eq!(found(15, 0xD280_004C), "count");
        assert_eq!(found(15, 0xD280_0000), "next PC, count");
        assert_eq!(found(16, 0xD280_0001), "count");
        assert_eq!(found(16, 0x8B0C_0000), "next PC, count");
        assert_eq!(found(16, 0xD65F_03C0), "end, count");
        // BLR X16 in place of RET
        assert_eq!(found(17, 0xD63F_0200), "end, X30");
    }

    /// ld a0, -8(a1): six words of the address, then the arguments.
    #[test]
    fn a_block_with_the_memory_helper() {
        let found = |changes: &[(usize, u32)]| differences(&[3, 0xB5, 0x85, 0xFF], changes);
        assert_eq!(found(&[]), "");
        for index in 6..14 {
            // ORR XZR, XZR, XZR: an argument left out
            assert_eq!(found(&[(index, 0xAA1F_03FF)]), "helper's arguments", "{index}");
        }
    }
}
