//! Demand 3 on the library's own answers: a helper-free block, plain or drop, run as A64 words against the RV64 run.

use crate::{question, Compared, Zbb};
use draw::guest::Guests;
use draw::values::{registers, value, Pool};
use draw::{Random, LONGEST};
use hilofanur::{a64_run, rv64_run, translate};
use hilofanur::{A64Run, A64State, End, EndKind, Guest, Memory, Registers, Words};

/// The bytes of the 32 slots.
const SLOTS: usize = 256;

pub struct Blocks {
    guests: Guests,
    output: Vec<u8>,
    pool: Pool,
    zbb: Zbb,
}

/// Memory around the slots, the base, and where in memory the slots begin.
struct Place {
    memory: Vec<u8>,
    base: u64,
    slots: usize,
}

impl Default for Blocks {
    fn default() -> Blocks {
        let (guests, pool, zbb) = (Guests::default(), Pool::default(), Zbb::default());
        Blocks { guests, output: vec![0; LONGEST], pool, zbb }
    }
}

impl Blocks {
    /// Memory with room for the slots, up to the last address now and then.
    fn place(&self, random: &mut Random, registers: &Registers) -> Place {
        let (before, after) = (random.below(8), random.below(24));
        let slots = 8 * before;
        let size = slots + SLOTS + after;
        let mut memory = self.pool.cut(random, size);
        memory[slots..slots + SLOTS].copy_from_slice(&registers.to_bytes());
        let base = match random.below(4) {
            0 => 0,
            1 => (size as u64).wrapping_neg() & !7,
            _ => random.next() >> 1 & !7,
        };
        Place { memory, base, slots }
    }
}

/// A block's words run, and the guest's instructions: the phrases of demand 3 that do not hold.
fn run(
    random: &mut Random,
    (guest, slot_offset): (&Guest, u64),
    (words, count): (&[u8], u32),
    mut registers: Registers,
    Place { mut memory, base, slots }: Place,
) -> Vec<&'static str> {
    let mut x = std::array::from_fn(|_| random.next());
    x[0] = base.wrapping_add(slots as u64).wrapping_sub(slot_offset);
    let before = A64State { x, sp: random.next(), nzcv: random.next() };
    let (mut after, mut expected) = (before, memory.clone());
    let steps = words.len() as u64 / 4;
    let words = Words { bytes: words, address: random.next() };
    let lent = Memory { bytes: &mut memory, base };
    let run = a64_run(words, &mut after, steps, lent).unwrap();
    let ran = rv64_run(guest, &mut registers).unwrap();
    expected[slots + 8..slots + SLOTS].copy_from_slice(&registers.to_bytes()[8..]);
    let phrases = [
        ("returned in as many steps as words", run == A64Run { end: End::Returned, steps }),
        ("as many instructions as the count", ran.count == count),
        ("X0 is the next PC", after.x[0] == ran.next_pc),
        ("X1 is the count", after.x[1] == u64::from(count)),
        (
            "slots 1 to 31 are the registers, slot 0 and other memory as at entry",
            memory == expected,
        ),
        ("register 0 comes back as 0", registers.x[0] == 0),
        ("SP", after.sp == before.sp),
        ("X2 to X8", after.x[2..9] == before.x[2..9]),
        ("X18 to X30", after.x[18..] == before.x[18..]),
    ];
    phrases.into_iter().filter(|(_, holds)| !holds).map(|(phrase, _)| phrase).collect()
}

impl Compared for Blocks {
    const NAME: &'static str = "demand 3";
    const OUTCOMES: &'static [&'static str] = &[
        "plain",
        "with a helper",
        "drop",
        "plain with Zbb",
        "with a helper and Zbb",
        "drop with Zbb",
        "refused",
    ];

    fn compare(&mut self, random: &mut Random) -> Result<usize, String> {
        let case = self.guests.case(random);
        let (guest, host) = question(&case);
        let block = match translate(&guest, &host, &mut self.output) {
            Err(_) => return Ok(6),
            Ok(block) => block,
        };
        let outcome = self.zbb.outcome(&case.guest, block.count, block.end_kind.number());
        if block.end_kind == EndKind::Helper {
            return Ok(outcome);
        }
        let registers = Registers { x: registers(|| value(random)) };
        let place = self.place(random, &registers);
        let words = (&self.output[..block.length], block.count);
        let wrong = run(random, (&guest, host.slot_offset), words, registers, place);
        if wrong.is_empty() {
            return Ok(outcome);
        }
        Err(format!("{case:x?} from {registers:x?}: not so: {wrong:?}"))
    }

    fn zbb(&self) -> Option<&Zbb> {
        Some(&self.zbb)
    }
}
