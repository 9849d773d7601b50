//! The Rust's blocks that a helper ends, as qemu-aarch64 ran them to the call, and from what a helper left to the
//! return (`machines/helpers.py`). Translate answers these words, both A64 runs do what the machine did, and at the
//! call slots 1 to 31 are the registers of the RV64 run; slot 0 holds anything, and stays. `machines/README.md` has
//! the record's format.

use draw::class::instruction;
use draw::forms::HELPER_KINDS;
use hilofanur::{a64_run, a64_run_from, rv64_run, translate, LONGEST_BLOCK};
use hilofanur::{A64Run, A64State, End, EndKind, Guest, Host, Memory, Refusal, Registers, Words};
use steppers::records::{defaults, Reader};

const HELPERS: &[u8] = include_bytes!("data/helpers.bin");

#[derive(Clone, Debug, PartialEq)]
struct Machine {
    state: A64State,
    memory: Vec<u8>,
}

impl Machine {
    /// After a run: registers that changed, SP, NZCV, bytes that changed.
    fn after(&self, r: &mut Reader) -> Machine {
        let mut after = self.clone();
        r.registers(&mut after.state.x);
        (after.state.sp, after.state.nzcv) = (r.u64(), r.u8().into());
        for _ in 0..r.u16() {
            let at = r.u16();
            after.memory[usize::from(at)] = r.u8();
        }
        after
    }

    /// What the helper left that was called so: the complement of what a register starts as, of the flags, and of
    /// every byte but the eight at SP, unless the record names it.
    fn left(&self, base: u64, r: &mut Reader) -> Machine {
        let cell = (self.state.sp - base) as usize;
        let bytes = self.memory.iter().enumerate();
        let memory = bytes.map(|(at, &b)| if (cell..cell + 8).contains(&at) { b } else { !b });
        let state = A64State { x: defaults().map(|x: u64| !x), ..self.state };
        let mut left = Machine { state, memory: memory.collect() };
        r.registers(&mut left.state.x);
        left.state.nzcv = r.u8().into();
        left
    }
}

struct Case {
    question: draw::Case,
    count: u32,
    words: Vec<u8>,
    steps: u64,
    address: u64,
    base: u64,
    slots: usize,
    entry: Machine,
    called: Machine,
    left: Machine,
    returned: Machine,
}

impl Case {
    fn read(r: &mut Reader) -> Case {
        let length = r.u16();
        let question = draw::Case {
            guest: r.bytes(length.into()),
            pc: r.u64(),
            limit: r.u32(),
            ignore_ebreak: r.u8() != 0,
            slot_offset: r.u64(),
            helpers: [(); 3].map(|()| r.u64()),
            room: LONGEST_BLOCK,
        };
        let (count, number, steps) = (r.u8().into(), usize::from(r.u16()), r.u16().into());
        let words = r.bytes(4 * number);
        let (address, base, slots) = (r.u64(), r.u64(), r.u16().into());
        let size = r.u16();
        let memory = r.bytes(size.into());
        let mut entry =
            Machine { state: A64State { x: defaults(), ..A64State::default() }, memory };
        r.registers(&mut entry.state.x);
        (entry.state.sp, entry.state.nzcv) = (r.u64(), r.u8().into());
        let called = entry.after(r);
        let left = called.left(base, r);
        let returned = left.after(r);
        Case { question, count, words, steps, address, base, slots, entry, called, left, returned }
    }

    /// Runs the words from the one numbered `first` on, as the machine did.
    fn run(&self, first: u64, from: &Machine) -> (Result<A64Run, Refusal>, Machine) {
        let Machine { mut state, mut memory } = from.clone();
        let words = Words { bytes: &self.words, address: self.address };
        let lent = Memory { bytes: &mut memory, base: self.base };
        let budget = self.words.len() as u64 / 4 - first;
        let run = match first {
            0 => a64_run(words, &mut state, budget, lent),
            _ => a64_run_from(words, first, &mut state, budget, lent),
        };
        (run, Machine { state, memory })
    }

    fn slots(&self, machine: &Machine) -> Registers {
        Registers::from_bytes(machine.memory[self.slots..].first_chunk().unwrap())
    }

    /// The kind of the helper's instruction, before which the RV64 run stands with the slots of the call.
    fn kind(&self, guest: &Guest) -> usize {
        let (entry, called) = (self.slots(&self.entry).x, self.slots(&self.called).x);
        let mut registers = Registers { x: entry };
        let at = match rv64_run(guest, &mut registers) {
            Ok(run) => {
                assert_eq!(run.count + 1, self.count);
                run.next_pc.wrapping_sub(guest.pc) as usize
            }
            Err(refusal) => {
                assert_eq!((refusal, self.count), (Refusal::NotCovered, 1));
                0
            }
        };
        assert_eq!((called[0], &called[1..]), (entry[0], &registers.x[1..]));
        let instr = instruction(&guest.bytes[at..]).unwrap();
        HELPER_KINDS.iter().position(|&(_, (value, fixed))| instr & fixed == value).unwrap()
    }

    /// Holds all that was recorded to the operations: the kind of the helper's instruction.
    fn hold(&self) -> usize {
        let draw::Case { guest, pc, limit, ignore_ebreak, slot_offset, helpers, room } =
            &self.question;
        let (pc, limit, ignore_ebreak, steps) = (*pc, *limit, *ignore_ebreak, self.steps);
        let guest = Guest { bytes: guest, pc, limit, ignore_ebreak };
        let (slot_offset, [memory_helper, helper32, helper16]) = (*slot_offset, *helpers);
        let host = Host { slot_offset, memory_helper, helper32, helper16 };
        let mut output = vec![0; *room];
        let block = translate(&guest, &host, &mut output).unwrap();
        assert_eq!((block.count, block.end_kind), (self.count, EndKind::Helper), "{guest:x?}");
        assert_eq!(output[..block.length], self.words, "{guest:x?}");
        let called = (Ok(A64Run { end: End::Called, steps }), self.called.clone());
        assert_eq!(self.run(0, &self.entry), called, "{guest:x?}");
        let after = self.words.len() as u64 / 4 - steps;
        let returned = (Ok(A64Run { end: End::Returned, steps: after }), self.returned.clone());
        assert_eq!(self.run(steps, &self.left), returned, "{guest:x?}");
        self.kind(&guest)
    }
}

#[test]
fn as_the_machine_ran_them() {
    let mut r = Reader(HELPERS);
    let number = r.header(b"A64CALLS");
    assert!(number >= 600);
    let (mut met, mut after_others, mut rubbish) = ([0; HELPER_KINDS.len()], 0, 0);
    for _ in 0..number {
        let case = Case::read(&mut r);
        met[case.hold()] += 1;
        after_others += (case.count > 1) as u32;
        rubbish += (case.slots(&case.entry).x[0] != 0) as u32;
    }
    assert!(r.0.is_empty());
    assert!(met.iter().all(|&cases| cases >= 5) && after_others >= 200, "{met:?}");
    assert!(rubbish >= 500, "{rubbish}");
}
