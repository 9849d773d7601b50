//! A helper as a block calls it: it does the load or store that its arguments tell, and changes all else that it may.

use super::code::HOST;
use super::host::{Machine, BASE};
use super::memory::{Access, Memory};
use draw::Random;

/// The access that the arguments tell, and the PC of its instruction: the memory helper gets the access, the others
/// the instruction.
fn asked(machine: &Machine) -> (Option<Access>, u64) {
    let x = &machine.state.x;
    if x[16] == HOST.memory_helper {
        return (Access::from_arguments([x[3], x[4], x[5], x[6]]), x[7]);
    }
    let instr = u32::try_from(x[5]).ok();
    (instr.and_then(|instr| Access::decode(instr, &machine.slots())), x[6])
}

/// Does the helper's work in the guest's memory and the slots: what it was, or why it cannot be done. X0 is then the
/// next PC and X1 the one instruction. SP and the eight bytes there stay; nothing else does.
pub fn help(
    machine: &mut Machine,
    memory: &mut Memory,
    random: &mut Random,
) -> Result<Access, String> {
    let (access, pc) = asked(machine);
    let access = access.ok_or("not served")?;
    let mut registers = machine.slots();
    access.serve(memory, &mut registers)?;
    let saved = machine.state.sp.wrapping_sub(BASE) as usize;
    for (n, eight) in machine.memory.as_chunks_mut().0.iter_mut().enumerate() {
        if 8 * n != saved {
            *eight = random.next().to_le_bytes();
        }
    }
    machine.set_slots(&registers);
    machine.state.x = std::array::from_fn(|_| random.next());
    machine.state.nzcv = random.next();
    machine.state.x[0] = pc.wrapping_add(access.length);
    machine.state.x[1] = 1;
    Ok(access)
}

#[cfg(test)]
mod tests {
    use super::super::host::{SIZE, SLOTS, SP};
    use super::*;
    use hilofanur::A64State;

    /// A call's machine with registers 8n in the slots, and these numbers in its registers.
    fn called(numbers: &[(usize, u64)]) -> Machine {
        let mut x = [0x77; 31];
        numbers.iter().for_each(|&(n, number)| x[n] = number);
        let state = A64State { x, sp: SP - 16, nzcv: 0x77 };
        let mut machine = Machine { state, memory: [0x77; SIZE] };
        for (n, slot) in machine.memory[SLOTS].as_chunks_mut().0.iter_mut().enumerate() {
            *slot = (8 * (n as u64 + 1)).to_le_bytes();
        }
        machine
    }

    fn memory() -> Memory {
        Memory { base: 0x40, bytes: (0..64).collect() }
    }

    /// What is asked is done, in a slot or in the guest's memory.
    #[test]
    fn works() {
        let m = HOST.memory_helper;
        // lh x9, with 0x5A; sw of 0x1234_5678 to 0x5C; c.lw a0, 4(a1)
        let load = called(&[(16, m), (3, 1), (4, 9), (5, 0), (6, 0x5A), (7, 0x1000)]);
        let store = called(&[(16, m), (3, 18), (4, 9), (5, 0x1234_5678), (6, 0x5C), (7, !3)]);
        let load16 = called(&[(16, HOST.helper16), (5, 0x41C8), (6, 0x1000)]);
        let written = [0x1B, 0x78, 0x56, 0x34, 0x12, 0x20];
        for (before, slot, bytes, pc) in [
            (load, (9, 0x1B1A), [0x1B, 0x1C, 0x1D, 0x1E, 0x1F, 0x20], 0x1004),
            (store, (9, 0x48), written, 0),
            (load16, (10, 0x1F1E_1D1C), [0x1B, 0x1C, 0x1D, 0x1E, 0x1F, 0x20], 0x1002),
        ] {
            let (mut machine, mut memory) = (before, memory());
            help(&mut machine, &mut memory, &mut Random(1)).unwrap();
            let mut expected = before.slots();
            expected.x[slot.0] = slot.1;
            assert_eq!(machine.slots(), expected);
            assert_eq!(memory.from(0x5B, 6), bytes);
            assert_eq!(machine.state.x[..2], [pc, 1]);
        }
    }

    /// Of the rest SP and the eight bytes there stay, and only these.
    #[test]
    fn changes_all_else() {
        let before = called(&[(16, HOST.helper16), (5, 0x41C8), (6, 0x1000)]);
        let mut changed = [false; SIZE];
        for seed in 0..8 {
            let mut machine = before;
            help(&mut machine, &mut memory(), &mut Random(seed)).unwrap();
            changed.iter_mut().enumerate().for_each(|(at, changed)| {
                *changed |= machine.memory[at] != before.memory[at];
            });
            let (state, old) = (&machine.state, &before.state);
            assert!(state.x.iter().zip(old.x).all(|(&new, old)| new != old));
            assert_eq!((state.sp, state.nzcv == old.nzcv), (old.sp, false));
        }
        let saved = (SP - 16 - BASE) as usize;
        for at in (0..SIZE).filter(|at| !SLOTS.contains(at)) {
            assert_eq!(changed[at], !(saved..saved + 8).contains(&at), "{at}");
        }
    }

    /// Calls that are not served change nothing.
    #[test]
    fn not_served() {
        let m = HOST.memory_helper;
        for numbers in [
            [(16, m), (3, 7), (4, 9), (6, 0x5A)],
            [(16, m), (3, 0), (4, 32), (6, 0x5A)],
            [(16, m), (3, 0), (4, 9), (6, 0x80)],
            [(16, HOST.helper16), (5, 0x557D), (6, 0x1000), (0, 0)],
            [(16, HOST.helper32), (5, 0x00B5_252F), (6, 0x1000), (0, 0)],
            [(16, HOST.helper32), (5, 1 << 32 | 0x41C8), (6, 0x1000), (0, 0)],
        ] {
            let (before, mut memory) = (called(&numbers), memory());
            let mut machine = before;
            assert!(help(&mut machine, &mut memory, &mut Random(1)).is_err(), "{numbers:x?}");
            assert_eq!((machine.state, machine.memory), (before.state, before.memory));
        }
    }
}
