//! RV64 guest blocks in, A64 words out: the proved library, with a safe interface.
//!
//! Translate, place and the two runs are document 01's; the listing, the index and the way to go on after a call are
//! document 02's. Each operation is accepted, or refused by number with every lent byte unchanged.
//!
//! ```
//! use hilofanur::{a64_run, list, place, rv64_run, translate};
//! use hilofanur::{A64State, End, EndKind, Guest, Host, Memory, Refusal, Registers, Words};
//!
//! // c.li x10, -1 at 0x1000
//! let guest = Guest { bytes: &[0x7d, 0x55], pc: 0x1000, limit: 64, ignore_ebreak: false };
//! let host = Host { slot_offset: 0, memory_helper: 0x10000, helper32: 0x20000, helper16: 0x30000 };
//! let mut output = [0; hilofanur::LONGEST_BLOCK];
//! let block = translate(&guest, &host, &mut output)?;
//! assert_eq!((block.length, block.count, block.end_kind), (32, 1, EndKind::Plain));
//!
//! let mut store = vec![0; 4096];
//! let placed = place(&mut store, 0, &output[..block.length])?;
//! let words = Words { bytes: &store[placed.start..placed.used], address: 0x4_0000 };
//!
//! let listing = list(words.bytes)?;
//! assert_eq!(listing.lines().count(), 8);
//! assert_eq!(listing.lines().next(), Some("00000000 d29fffeb movz x11, #65535, lsl #0"));
//! assert_eq!(listing.lines().last(), Some("0000001c d65f03c0 ret x30"));
//!
//! // The slots of the 32 registers are the whole memory, X0 points to slot 0.
//! let mut slots = Registers::default().to_bytes();
//! let mut state = A64State::default();
//! state.x[0] = 0x8000;
//! let run = a64_run(words, &mut state, 100, Memory { bytes: &mut slots, base: 0x8000 })?;
//! assert_eq!((run.end, run.steps), (End::Returned, 8));
//!
//! // The ISA says the same of the guest.
//! let mut registers = Registers::default();
//! let ran = rv64_run(&guest, &mut registers)?;
//! assert_eq!((state.x[0], state.x[1]), (ran.next_pc, ran.count.into()));
//! assert_eq!(slots, registers.to_bytes());
//! assert_eq!(registers.x[10], u64::MAX);
//!
//! let odd = Guest { pc: 0x1001, ..guest };
//! assert_eq!(translate(&odd, &host, &mut output), Err(Refusal::OddPc));
//! # Ok::<(), Refusal>(())
//! ```
//!
//! How a block is called, on an Arm processor or by [`a64_run`]: from word 0, with X30 the address to return to and
//! X0 such that register n has its slot, eight little-endian bytes, at X0 plus the slot offset plus 8n, a multiple of
//! 8. The slots are in memory and apart from the block's words. Slot 0 may hold anything: it is neither read nor
//! written. docs/USING.md of the repository has the whole convention, register by register, and what to see to before
//! a jump.
//!
//! A block that no helper ends returns with X0 the next guest PC and X1 the guest instructions done; slots 1 to 31
//! hold the registers. X9 to X17 and NZCV are lost; X2 to X8, X18 to X30, SP and all other memory are as they were.
//!
//! A block that a helper ends calls it, with slots 1 to 31 the registers before its instruction. The helper returns
//! with X0 the next guest PC and X1 the instructions that it did; the block then returns with that X0, and with that
//! X1 plus its count less one. On AArch64 Linux `Host::calling` takes helpers, `Index::executable` has a store of
//! words that the processor runs, and its `call` jumps. [`a64_run`] ends such a block as [`End::Called`]; the caller
//! does the helper's work, and [`a64_run_from`] goes on:
//!
//! ```
//! use hilofanur::{a64_run, a64_run_from, translate, A64State, End, EndKind, Guest, Host};
//! use hilofanur::{Memory, Refusal, Words};
//!
//! // c.nop, then ld x10, 8(x11)
//! let code = [0x01, 0x00, 0x03, 0xb5, 0x85, 0x00];
//! let guest = Guest { bytes: &code, pc: 0x1000, limit: 64, ignore_ebreak: false };
//! let host = Host { slot_offset: 0, memory_helper: 0x10000, helper32: 0x20000, helper16: 0x30000 };
//! let mut output = [0; hilofanur::LONGEST_BLOCK];
//! let block = translate(&guest, &host, &mut output)?;
//! assert_eq!((block.count, block.end_kind), (2, EndKind::Helper));
//! let words = Words { bytes: &output[..block.length], address: 0x4_0000 };
//!
//! // Memory is the slots, of which x11's holds 0x2000, and the 16 bytes below SP.
//! let mut bytes = [0; 256 + 16];
//! bytes[8 * 11..8 * 12].copy_from_slice(&0x2000_u64.to_le_bytes());
//! let mut state = A64State { sp: 0x8110, ..A64State::default() };
//! (state.x[0], state.x[30]) = (0x8000, 0x5555);
//! let run = a64_run(words, &mut state, 100, Memory { bytes: &mut bytes, base: 0x8000 })?;
//! assert_eq!((run.end, state.x[16], state.sp), (End::Called, 0x10000, 0x8100));
//! // LD into x10, no value, the address, the PC.
//! assert_eq!(state.x[3..8], [3, 10, 0, 0x2008, 0x1002]);
//!
//! // The helper's work: what is loaded goes into x10's slot; the next PC, one instruction done.
//! bytes[8 * 10..8 * 11].copy_from_slice(&77_u64.to_le_bytes());
//! (state.x[0], state.x[1]) = (0x1006, 1);
//! let memory = Memory { bytes: &mut bytes, base: 0x8000 };
//! let run = a64_run_from(words, run.steps, &mut state, 100, memory)?;
//! assert_eq!((run.end, state.x[0], state.x[1]), (End::Returned, 0x1006, 2));
//! assert_eq!((state.sp, state.x[30]), (0x8110, 0x5555));
//! # Ok::<(), Refusal>(())
//! ```
//!
//! [`translate`] takes 16 KB of stack, 4 KB where the limit is at most 8, the others 1 KB. The library has no state:
//! calls may run in any threads at once.

#![deny(unsafe_code)]
#![warn(missing_docs)]

// For comparisons, which read every number of an answer.
#[doc(hidden)]
pub mod boundary;
mod index;
#[cfg(all(target_arch = "aarch64", target_os = "linux"))]
mod jump;
mod numbered;
mod refusal;
mod state;

pub use index::{Found, Index, Key};
#[cfg(all(target_arch = "aarch64", target_os = "linux"))]
pub use jump::{ExecutableStore, Helper, MemoryHelper, Next, OpenStore, PlaceError};
pub use refusal::{ListRefused, Refusal};
pub use state::{A64State, End, EndKind, Registers};

/// The most bytes of a block: 40 words for each of 64 instructions, and 6.
pub const LONGEST_BLOCK: usize = 4 * 2_566;

/// The most bytes of a block at a limit, which above 64 counts as 64: an output of so many is long enough.
///
/// ```
/// use hilofanur::{block_bytes, translate, Guest, Host, Refusal};
///
/// // clz x5, x6 (Zbb)
/// let guest = Guest { bytes: &[0x93, 0x12, 0x03, 0x60], pc: 0x1000, limit: 1, ignore_ebreak: false };
/// let host = Host { slot_offset: 0, memory_helper: 0x10000, helper32: 0x20000, helper16: 0x30000 };
/// let mut output = [0; block_bytes(1)];
/// assert_eq!(translate(&guest, &host, &mut output)?.length, 24);
/// # Ok::<(), Refusal>(())
/// ```
pub const fn block_bytes(limit: u32) -> usize {
    let instructions = if limit < 64 { limit as usize } else { 64 };
    4 * (40 * instructions + 6)
}

/// The bytes of the longest line of a listing: of one whose text is `subs xzr, x30, x30, lsl #0`.
pub const LONGEST_LINE: usize = 45;

/// The bytes of an index.
pub const INDEX_BYTES: usize = 45_056;

/// The guest's code and how far a block may go.
#[derive(Clone, Copy, Debug)]
pub struct Guest<'a> {
    /// Little-endian halfwords, the first at `pc`; a lone last byte is no halfword. Four bytes for each instruction
    /// of the limit are enough, 256 at the most.
    pub bytes: &'a [u8],
    /// The PC of the first instruction.
    pub pc: u64,
    /// The most instructions; above 64 it counts as 64.
    pub limit: u32,
    /// C.EBREAK does nothing.
    pub ignore_ebreak: bool,
}

/// What a block has to know of its host.
#[derive(Clone, Copy, Debug, PartialEq, Eq)]
pub struct Host {
    /// Register n has its slot at X0 plus this plus 8n. A multiple of 8, at most 32,512.
    pub slot_offset: u64,
    /// The address of the helper for loads and stores of 32 bits.
    pub memory_helper: u64,
    /// The address of the helper for other instructions of 32 bits.
    pub helper32: u64,
    /// The address of the helper for instructions of 16 bits.
    pub helper16: u64,
}

/// A translated block.
#[derive(Clone, Copy, Debug, PartialEq, Eq)]
pub struct Block {
    /// Its bytes, at the front of the output.
    pub length: usize,
    /// The guest instructions in it; a helper instruction counts.
    pub count: u32,
    /// What ended it.
    pub end_kind: EndKind,
}

/// Where code was placed.
#[derive(Clone, Copy, Debug, PartialEq, Eq)]
pub struct Placed {
    /// The code's first byte in the store.
    pub start: usize,
    /// How much of the store is then used.
    pub used: usize,
}

/// What an RV64 run did.
#[derive(Clone, Copy, Debug, PartialEq, Eq)]
pub struct Rv64Run {
    /// The instructions done.
    pub count: u32,
    /// The PC after them.
    pub next_pc: u64,
}

/// A block's words for an A64 run.
#[derive(Clone, Copy, Debug)]
pub struct Words<'a> {
    /// Four little-endian bytes a word.
    pub bytes: &'a [u8],
    /// Where word 0 would stand; only X30 at a call depends on it.
    pub address: u64,
}

/// The memory of an A64 run.
#[derive(Debug)]
pub struct Memory<'a> {
    /// Its bytes; they end at 2^64 or below.
    pub bytes: &'a mut [u8],
    /// The address of the first one.
    pub base: u64,
}

/// What an A64 run did.
#[derive(Clone, Copy, Debug, PartialEq, Eq)]
pub struct A64Run {
    /// How it ended.
    pub end: End,
    /// The words done.
    pub steps: u64,
}

/// Translate: writes the block at the front of `output`, whose other bytes stay.
///
/// Inline are the instructions of RV64I, M, C and Zbb that access no memory, but not SYSTEM. Loads, stores, AMO, FP
/// loads and FP stores call a helper. So a guest may be built with -march=rv64gc_zbb; the rest of its instructions, FP
/// arithmetic and SYSTEM, end a block before them, and the caller does them.
///
/// FENCE.I, whatever its fields beside opcode and funct3, ends the block: it is counted, and the next PC is the one
/// after it. FENCE goes on. With [`block_bytes`] of the limit, and so with [`LONGEST_BLOCK`] bytes of output,
/// refusal 6 does not occur.
///
/// # Errors
/// Refusals 1 to 6.
pub fn translate(guest: &Guest, host: &Host, output: &mut [u8]) -> Result<Block, Refusal> {
    let answer = boundary::translate(guest, host, output);
    accepted(answer.refusal)?;
    let end_kind = EndKind::from_number(answer.end).expect("the library ends a block as 1 to 3");
    Ok(Block { length: answer.length as usize, count: answer.count, end_kind })
}

/// Place: copies `code` into `store` at `used`, rounded up to a multiple of 4; other bytes stay.
///
/// # Errors
/// Refusals 7 and 8.
pub fn place(store: &mut [u8], used: usize, code: &[u8]) -> Result<Placed, Refusal> {
    let answer = boundary::place(store, used as u64, code);
    accepted(answer.refusal as u32)?;
    Ok(Placed { start: answer.start as usize, used: answer.used as usize })
}

/// RV64 run: does the guest's block on `registers`, as the ISA says. It stops where translation would, after FENCE.I
/// too, which is counted, and before a helper instruction. Register 0's entry is read as 0, whatever it is, and comes
/// back as 0.
///
/// # Errors
/// Refusals 2 to 5.
pub fn rv64_run(guest: &Guest, registers: &mut Registers) -> Result<Rv64Run, Refusal> {
    let mut bytes = registers.to_bytes();
    let answer = boundary::rv64_run(guest, &mut bytes);
    accepted(answer.refusal)?;
    *registers = Registers::from_bytes(&bytes);
    Ok(Rv64Run { count: answer.count, next_pc: answer.next_pc })
}

/// A64 run: does the words on `state` and `memory`.
///
/// For a block of Translate's a budget of as many steps as it has words is enough, to the call and again from it.
///
/// # Errors
/// Refusals 10 and 11.
pub fn a64_run(
    words: Words,
    state: &mut A64State,
    budget: u64,
    memory: Memory,
) -> Result<A64Run, Refusal> {
    let (Words { bytes, address }, mut lent) = (words, state.to_bytes());
    let Memory { bytes: memory, base } = memory;
    let answer = boundary::a64_run(bytes, address, &mut lent, budget, memory, base);
    a64_ran(answer, &lent, state)
}

/// A64 run from: goes on after a call, from the state that the caller gives, at the word numbered `first`, counted
/// from 0. The address stays that of word 0; the steps count from 0. Where `first` is at or beyond the number of
/// words it ends as [`End::OffTheEnd`] with no step, whatever the budget.
///
/// # Errors
/// Refusals 10 and 11, whatever `first`.
pub fn a64_run_from(
    words: Words,
    first: u64,
    state: &mut A64State,
    budget: u64,
    memory: Memory,
) -> Result<A64Run, Refusal> {
    let (Words { bytes, address }, mut lent) = (words, state.to_bytes());
    let Memory { bytes: memory, base } = memory;
    let answer = boundary::a64_run_from(bytes, address, first, &mut lent, budget, memory, base);
    a64_ran(answer, &lent, state)
}

/// What a run answered, with the state that it left in `bytes`.
fn a64_ran(
    answer: boundary::A64RunAnswer,
    bytes: &[u8; 264],
    state: &mut A64State,
) -> Result<A64Run, Refusal> {
    accepted(answer.refusal)?;
    *state = A64State::from_bytes(bytes);
    let end = End::from_number(answer.end).expect("the library ends a run as 1 to 6");
    Ok(A64Run { end, steps: answer.steps })
}

/// List: a line for each word of `block`, its byte offset, the word, and the Arm manual's unaliased assembler form.
///
/// It allocates the text, [`LONGEST_LINE`] bytes a word; for a block longer than [`LONGEST_BLOCK`] only where it is
/// not refused. [`list_into`] allocates nothing, and tells where a word outside the forms stands.
///
/// # Errors
/// Refusals 12 and 13.
pub fn list(block: &[u8]) -> Result<String, Refusal> {
    // With no output 12 and 13 are told before 14.
    if block.len() > LONGEST_BLOCK {
        match list_into(block, &mut []) {
            Err(refused) if refused.refusal != Refusal::ListingShort => return Err(refused.refusal),
            _ => {}
        }
    }
    let mut output = vec![0; block.len() / 4 * LONGEST_LINE];
    let length = list_into(block, &mut output)?;
    output.truncate(length);
    Ok(String::from_utf8(output).expect("the library's lines are ASCII"))
}

/// List: writes the lines at the front of `output`, whose other bytes stay; their length.
///
/// # Errors
/// Refusals 12 to 14.
pub fn list_into(block: &[u8], output: &mut [u8]) -> Result<usize, ListRefused> {
    let answer = boundary::list(block, output);
    accepted(answer.refusal as u32).map_err(|refusal| ListRefused {
        refusal,
        offset: (refusal == Refusal::OutsideForms).then_some(answer.offset as usize),
    })?;
    Ok(answer.length as usize)
}

fn accepted(number: u32) -> Result<(), Refusal> {
    match number {
        0 => Ok(()),
        number => Err(Refusal::from_number(number).expect("the library refuses by 1 to 16")),
    }
}
