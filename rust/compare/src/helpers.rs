//! Document 02's No. 5 on the library's own answers: a block that a helper ends is run to its call, and from what a
//! helper left on to its return. Each run is the plain stepper's, and each phrase is held to the RV64 stepper and
//! document 01.

use crate::{question, Compared, Zbb};
use draw::case::HelperCase;
use draw::class::instruction;
use draw::forms::HELPER_KINDS;
use draw::guest::Guests;
use draw::values::{registers, value, Layout, Pool};
use draw::{Random, LONGEST};
use hilofanur::{boundary, translate, EndKind, Guest, Host, Registers};
use std::ops::Range;
use steppers::{a64_run_from, rv64_run, A64Answer, A64State, Rv64Answer, CALLED, RETURNED};

const KINDS: usize = HELPER_KINDS.len();
const NAMES: [&str; KINDS] = {
    let (mut names, mut kind) = ([""; KINDS], 0);
    while kind < KINDS {
        names[kind] = HELPER_KINDS[kind].0;
        kind += 1;
    }
    names
};

pub struct Helpers {
    guests: Guests,
    output: Vec<u8>,
    pool: Pool,
    /// Which prefixes were met, by kind.
    met: [[bool; 64]; KINDS],
    zbb: Zbb,
}

impl Default for Helpers {
    fn default() -> Helpers {
        let (guests, pool, zbb) = (Guests::default(), Pool::default(), Zbb::default());
        Helpers { guests, output: vec![0; LONGEST], pool, met: [[false; 64]; KINDS], zbb }
    }
}

/// A block's words and their address, and what it runs with.
struct Block<'a> {
    words: &'a [u8],
    address: u64,
    layout: Layout,
    /// The instructions before the helper's.
    prefix: u64,
}

#[derive(Clone)]
struct Machine {
    state: A64State,
    memory: Vec<u8>,
}

/// What is so, or not.
type Phrases<'a> = Vec<(&'a str, bool)>;

impl Block<'_> {
    /// The words after the call: X30 loaded, SP back, the prefix added if not 0, RET.
    fn behind(&self) -> u64 {
        if self.prefix == 0 {
            3
        } else {
            5
        }
    }

    /// The words up to the call.
    fn steps(&self) -> u64 {
        self.words.len() as u64 / 4 - self.behind()
    }

    fn slots(&self) -> Range<usize> {
        self.layout.slots..self.layout.slots + 256
    }

    /// Slots 1 to 31.
    fn registers(&self) -> Range<usize> {
        self.layout.slots + 8..self.layout.slots + 256
    }

    /// Where X30 is kept: the lower half of the 16 bytes.
    fn cell(&self) -> Range<usize> {
        self.layout.stack..self.layout.stack + 8
    }

    /// Runs the words from the one numbered `first` on, as many as `steps` or more: what the plain stepper has, if
    /// the library has the same.
    fn run(
        &self,
        random: &mut Random,
        (first, steps): (u64, u64),
        before: &Machine,
    ) -> Result<(A64Answer, Machine), String> {
        let budget = random.pick(&[steps, steps, steps + 1, steps + 1_000, u64::MAX]);
        let (block, address, base) = (self.words, self.address, self.layout.base);
        let Machine { mut state, mut memory } = before.clone();
        let expected = a64_run_from(block, address, first, &mut state, budget, &mut memory, base);
        let (mut lent, mut bytes) = (before.memory.clone(), before.state.to_bytes());
        let a = match first {
            0 => boundary::a64_run(block, address, &mut bytes, budget, &mut lent, base),
            _ => boundary::a64_run_from(block, address, first, &mut bytes, budget, &mut lent, base),
        };
        let answer = A64Answer { refusal: a.refusal, end: a.end, steps: a.steps };
        if answer != expected || bytes != state.to_bytes() || lent != memory {
            let after = hilofanur::A64State::from_bytes(&bytes);
            let same = lent == memory;
            return Err(format!(
                "from word {first}: {answer:x?} {after:x?}, the stepper {expected:x?} {state:x?}, memory the same: {same}"
            ));
        }
        Ok((expected, Machine { state, memory }))
    }

    /// Up to the call; `x` are the registers after the prefix.
    fn at_the_call(
        &self,
        (before, after): (&Machine, &Machine),
        x: &[u64; 32],
        (helper, arguments): (u64, &[u64]),
    ) -> Phrases<'static> {
        let (entry, state, memory) = (&before.state, &after.state, &after.memory);
        let (slots, stack) = (self.registers(), self.layout.stack..self.layout.stack + 16);
        let next = self.address.wrapping_add(4 * self.steps());
        let mut other = before.memory.clone();
        other[slots.clone()].copy_from_slice(&memory[slots.clone()]);
        other[stack.clone()].copy_from_slice(&memory[stack]);
        vec![
            (
                "slots 1 to 31 are the registers",
                memory[slots] == Registers { x: *x }.to_bytes()[8..],
            ),
            ("arguments", state.x[..arguments.len()] == *arguments),
            ("X16 is the helper's address", state.x[16] == helper),
            ("SP is 16 lower", state.sp == entry.sp.wrapping_sub(16)),
            ("X30 is saved", memory[self.cell()] == entry.x[30].to_le_bytes()),
            ("X30 is the next word's address", state.x[30] == next),
            ("X18 to X29 at the call", state.x[18..30] == entry.x[18..30]),
            ("slot 0 and other memory", *memory == other),
        ]
    }

    /// From what the helper left to the return.
    fn at_the_return(
        &self,
        entry: &A64State,
        (left, after): (&Machine, &Machine),
    ) -> Phrases<'static> {
        let (helper, state) = (&left.state, &after.state);
        vec![
            ("X0 is the helper's", state.x[0] == helper.x[0]),
            ("X1 plus the prefix", state.x[1] == helper.x[1].wrapping_add(self.prefix)),
            ("SP as at entry", state.sp == entry.sp),
            ("X30 as at entry", state.x[30] == entry.x[30]),
            ("X18 to X29 as the helper left them", state.x[18..30] == helper.x[18..30]),
            ("memory as the helper left it", after.memory == left.memory),
        ]
    }
}

/// What does not hold.
fn wrong(phrases: Phrases) -> Result<(), String> {
    let wrong: Vec<_> = phrases.iter().filter(|(_, holds)| !holds).map(|(what, _)| what).collect();
    if wrong.is_empty() {
        return Ok(());
    }
    Err(format!("not so: {wrong:?}"))
}

/// The helper's address and arguments by document 01, with the X1 to X5 of entry and the registers `x`: of a load or
/// store of 32 bits operation, rd, value or 0, address and PC, of others the instruction and the PC.
fn call(host: &Host, instr: u32, pc: u64, entry: &[u64; 31], x: &[u64; 32]) -> (u64, Vec<u64>) {
    let field = |from: u32, width: u32| instr >> from & ((1 << width) - 1);
    let (funct3, rd) = (u64::from(field(12, 3)), u64::from(field(7, 5)));
    let (rs1, rs2) = (x[field(15, 5) as usize], x[field(20, 5) as usize]);
    let memory = |operation, value, immediate: i32| {
        let address = rs1.wrapping_add(immediate as u64);
        let arguments = [&entry[1..4], &[operation, rd, value, address, pc]].concat();
        (host.memory_helper, arguments)
    };
    match instr & 0x7F {
        // MEM_OP_LB to MEM_OP_LWU are 0 to 6, MEM_OP_SB to MEM_OP_SD 16 to 19.
        0x03 => memory(funct3, 0, instr as i32 >> 20),
        0x23 => memory(16 + funct3, rs2, instr as i32 >> 25 << 5 | rd as i32),
        _ => {
            let helper = if instr & 3 == 3 { host.helper32 } else { host.helper16 };
            (helper, [&entry[1..6], &[instr.into(), pc]].concat())
        }
    }
}

/// Takes the registers through the prefix by the RV64 stepper: whether it does just that and stands before the
/// helper's instruction. Where that is the first, it refuses.
fn does_prefix(guest: &Guest, prefix: u64, pc: u64, x: &mut [u64; 32]) -> bool {
    let expected = match prefix {
        0 => Rv64Answer { refusal: 5, count: 0, next_pc: 0 },
        _ => Rv64Answer { refusal: 0, count: prefix as u32, next_pc: pc },
    };
    rv64_run(guest.bytes, guest.pc, guest.limit, guest.ignore_ebreak, x) == expected
}

impl Helpers {
    /// The words' address: anywhere, at times around 2^64.
    fn address(random: &mut Random, length: usize) -> u64 {
        match random.below(4) {
            0 => (random.below(length + 8) as u64).wrapping_neg(),
            _ => random.next(),
        }
    }

    /// The machine at a block's entry, with these registers in the slots; slot 0 is register 0's entry, anything.
    fn entry(&self, random: &mut Random, block: &Block, offset: u64, x: &[u64; 32]) -> Machine {
        let Layout { base, size, slots, .. } = block.layout;
        let mut memory = self.pool.cut(random, size);
        memory[block.slots()].copy_from_slice(&Registers { x: *x }.to_bytes());
        let mut x = std::array::from_fn(|_| random.next());
        x[0] = base.wrapping_add(slots as u64).wrapping_sub(offset);
        Machine { state: A64State { x, sp: block.layout.sp(), nzcv: random.next() }, memory }
    }

    /// What a helper leaves that changes all it may: not SP, and not the eight bytes there.
    fn helper(&self, random: &mut Random, block: &Block, called: &Machine) -> Machine {
        let mut memory = self.pool.cut(random, block.layout.size);
        memory[block.cell()].copy_from_slice(&called.memory[block.cell()]);
        let mut x = std::array::from_fn(|_| random.next());
        (x[0], x[1]) = (value(random), value(random));
        Machine { state: A64State { x, sp: called.state.sp, nzcv: random.next() }, memory }
    }

    /// To the call, and from there to the return; or what is not so.
    fn run(
        &self,
        random: &mut Random,
        (guest, host): (&Guest, &Host),
        (block, at): (&Block, usize),
        mut x: [u64; 32],
    ) -> Result<(), String> {
        let entry = self.entry(random, block, host.slot_offset, &x);
        let (steps, behind) = (block.steps(), block.behind());
        let (answer, called) = block.run(random, (0, steps), &entry)?;
        let pc = guest.pc.wrapping_add(at as u64);
        let done = does_prefix(guest, block.prefix, pc, &mut x);
        // A refusal leaves register 0's entry.
        x[0] = 0;
        let instr = instruction(&guest.bytes[at..]).expect("the helper's is whole");
        let (helper, arguments) = call(host, instr, pc, &entry.state.x, &x);
        let mut phrases = block.at_the_call((&entry, &called), &x, (helper, &arguments));
        phrases.push(("called", answer == A64Answer { refusal: 0, end: CALLED, steps }));
        phrases.push(("the count less one instructions, then the helper's", done));
        wrong(phrases)?;
        let left = self.helper(random, block, &called);
        let (answer, returned) = block.run(random, (steps, behind), &left)?;
        let mut phrases = block.at_the_return(&entry.state, (&left, &returned));
        let expected = A64Answer { refusal: 0, end: RETURNED, steps: behind };
        phrases.push(("returned", answer == expected));
        wrong(phrases)
    }
}

impl Compared for Helpers {
    const NAME: &'static str = "helper blocks";
    const OUTCOMES: &'static [&'static str] = &NAMES;

    fn compare(&mut self, random: &mut Random) -> Result<usize, String> {
        let HelperCase { case, kind, prefix, at } = self.guests.helper_case(random);
        let (guest, host) = question(&case);
        let block = translate(&guest, &host, &mut self.output)
            .map_err(|refusal| format!("{case:x?}: {refusal}"))?;
        if (block.count as usize, block.end_kind) != (prefix + 1, EndKind::Helper) {
            return Err(format!("{case:x?}: {block:?}, of {} a helper's", prefix + 1));
        }
        let words = &self.output[..block.length];
        let (address, layout) = (Helpers::address(random, words.len()), Layout::draw(random));
        let block = Block { words, address, layout, prefix: prefix as u64 };
        let x = registers(|| value(random));
        let ran = self.run(random, (&guest, &host), (&block, at), x);
        ran.map_err(|text| {
            format!("{case:x?} at {address:x}, {:x?} from {x:x?}: {text}", block.layout)
        })?;
        self.met[kind][prefix] = true;
        self.zbb.take(&case.guest, prefix as u32);
        Ok(kind)
    }

    /// Kinds without a prefix, kinds after one, and prefixes.
    fn missed(&self) -> Vec<String> {
        let mut missed = Vec::new();
        for (name, met) in NAMES.iter().zip(&self.met) {
            if !met[0] {
                missed.push(format!("{name} as the first"));
            }
            if !met[1..].contains(&true) {
                missed.push(format!("{name} behind others"));
            }
        }
        let prefixes = (0..64).filter(|&prefix| !self.met.iter().any(|met| met[prefix]));
        missed.extend(prefixes.map(|prefix| format!("a prefix of {prefix}")));
        missed
    }

    fn zbb(&self) -> Option<&Zbb> {
        Some(&self.zbb)
    }
}
