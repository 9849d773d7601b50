//! A dispatcher: runs an RV64 program block by block, as A64 words and beside them as the ISA says, and compares.
//!
//! `dispatcher [--keep] [--store BYTES] [FILE [ENTRY [BASE]]]`: an ELF64 file, or a raw binary that goes to BASE;
//! ENTRY and BASE in hexadecimal. Without a file it takes examples/centroid/centroid.
//!
//! A block is translated, placed and then run by the library's A64 run, which stands in for the Arm processor. The
//! first one's words are listed. The library's index keeps the blocks, in a store of BYTES, without it 1 MiB; where
//! that is full, new blocks take the place of old ones, which are translated again when their turn comes. A guest
//! that changes its code executes FENCE.I, which ends a block: that block is run but not placed, and the index is
//! emptied. With --keep it is not emptied, only to show what comes of it: blocks of the old code are run, and the
//! comparison, which reads the guest's code anew, tells of them. A block that ends in a helper instruction runs up to
//! its call; the dispatcher compares the call's arguments, does the load or store as a helper would, and lets the
//! block go on after the call to its return, which it compares too. ECALL ends a block too: `write` (64) is served,
//! `exit` (93) ends the program, and so does EBREAK.

mod code;
mod compare;
mod helper;
mod host;
mod image;
mod memory;

use code::{Code, OnFence};
use compare::instruction;
use hilofanur::{list, Block, EndKind, Guest, Refusal, Registers};
use host::{Done, HostSide, Running};
use image::Image;
use memory::Memory;
use std::path::Path;
use std::process::ExitCode;

const CENTROID: &str = concat!(env!("CARGO_MANIFEST_DIR"), "/examples/centroid/centroid");
/// Where a raw binary goes.
const RAW: u64 = 0x1_0000;
/// The store's bytes, and the most that it may have.
const STORE: usize = 1 << 20;
const MOST: usize = 1 << 28;
const LIMIT: u32 = 64;
/// Bytes of 64 instructions.
const WINDOW: usize = 256;
/// New blocks that get a line, and after how many runs a line tells how far it is.
const LINES: u64 = 8;
const OFTEN: u64 = 5_000;

/// What has been counted.
#[derive(Default)]
struct Counts {
    /// Blocks run, guest instructions and A64 words done in them.
    runs: u64,
    instructions: u64,
    words: u64,
    /// Blocks that returned, and how many of them after a call; helpers' loads and stores.
    returned: u64,
    after: u64,
    loads: u64,
    stores: u64,
    ecalls: u64,
    differences: u64,
}

/// The guest and its blocks.
struct Dispatcher {
    memory: Memory,
    registers: Registers,
    pc: u64,
    code: Code,
    host: HostSide,
    counts: Counts,
}

/// How a program goes on after an ECALL or EBREAK.
enum Flow {
    Next,
    Ended(u64),
}

impl Dispatcher {
    fn new(image: Image, code: Code) -> Dispatcher {
        let mut registers = Registers::default();
        registers.x[2] = (image.memory.base + image.memory.bytes.len() as u64 - 16) & !15;
        Dispatcher {
            memory: image.memory,
            registers,
            pc: image.entry,
            code,
            host: HostSide::new(),
            counts: Counts::default(),
        }
    }

    /// Runs the program to its end: its exit status.
    fn run(&mut self) -> Result<u64, String> {
        loop {
            let bytes = self.memory.from(self.pc, WINDOW).to_vec();
            let guest = Guest { bytes: &bytes, pc: self.pc, limit: LIMIT, ignore_ebreak: false };
            match self.code.block(&guest) {
                Ok(ready) => {
                    let words = self.code.words(&ready);
                    self.tell(ready.new, words.bytes)?;
                    let (guest, count) = (&guest, ready.count);
                    let block = Running { guest, count, words };
                    let done = self.host.run(&block, &self.registers, &mut self.memory)?;
                    self.take(count, done)?;
                }
                Err(Refusal::NotCovered) => match self.system(instruction(&guest, self.pc))? {
                    Flow::Next => self.pc = self.pc.wrapping_add(4),
                    Flow::Ended(status) => return Ok(status),
                },
                Err(refusal @ Refusal::CodeLength) => {
                    return Err(format!("place at {:x}: {refusal}", self.pc));
                }
                Err(refusal) => return Err(format!("translate at {:x}: {refusal}", self.pc)),
            }
        }
    }

    /// A line for each of the first blocks that are translated, and the listing of the very first.
    fn tell(&self, new: Option<Block>, words: &[u8]) -> Result<(), String> {
        if let Some(block) = new {
            if self.code.translated <= LINES {
                print_block(self.pc, &block);
            }
            if self.code.translated == 1 {
                print_listing(words)?;
            }
        }
        Ok(())
    }

    /// Takes over what a block did.
    fn take(&mut self, count: u32, done: Done) -> Result<(), String> {
        self.registers = done.registers;
        self.pc = done.pc;
        for difference in &done.differences {
            println!("  DIFFERENCE {difference}");
        }
        let counts = &mut self.counts;
        counts.runs += 1;
        counts.instructions += u64::from(count);
        counts.words += done.steps;
        counts.differences += done.differences.len() as u64;
        counts.returned += u64::from(done.returned);
        if counts.runs.is_multiple_of(OFTEN) {
            let Counts { runs, instructions, differences, .. } = counts;
            println!("  {runs} blocks run, {instructions} instructions, {differences} differences");
        }
        if let Some(access) = done.helper.transpose()? {
            counts.after += u64::from(done.returned);
            *(if access.store { &mut counts.stores } else { &mut counts.loads }) += 1;
        }
        Ok(())
    }

    /// ECALL and EBREAK, which no block covers.
    fn system(&mut self, instr: u32) -> Result<Flow, String> {
        let x = &mut self.registers.x;
        self.counts.ecalls += u64::from(instr == 0x73);
        match (instr, x[17]) {
            (0x73, 64) => {
                let text = self.memory.from(x[11], x[12] as usize);
                print!("guest: {}", String::from_utf8_lossy(text));
                x[10] = text.len() as u64;
                Ok(Flow::Next)
            }
            (0x73, 93) => Ok(Flow::Ended(x[10])),
            (0x73 | 0x10_0073 | 0x9002, _) => Ok(Flow::Ended(0)),
            _ => Err(format!("{instr:x} at {:x} is not covered", self.pc)),
        }
    }

    fn summary(&self) {
        let Counts { runs, instructions, words, differences, .. } = self.counts;
        let Counts { returned, after, loads, stores, ecalls, .. } = self.counts;
        let Code { translated, placed, found, fences, emptied, .. } = self.code;
        println!("blocks: {translated} translated into {} words", self.code.words);
        println!("index: {placed} placed, {found} found, {} dropped", self.code.dropped());
        println!("fences: {fences}, which emptied the index of {emptied} blocks");
        println!("run: {runs} blocks, {instructions} guest instructions, {words} A64 words");
        println!(
            "stops: {returned} returned, {after} of them after a call ({loads} loads, {stores} stores), {ecalls} ecall"
        );
        println!("differences: {differences}");
    }
}

fn print_block(pc: u64, block: &Block) {
    let (count, words) = (block.count, block.length / 4);
    let last = match block.end_kind {
        EndKind::Plain => "",
        EndKind::Helper => ", the last by a helper",
        EndKind::Drop => ", the last FENCE.I",
    };
    println!("  block at {pc:x}: {count} guest instructions, {words} words{last}");
}

/// Lists a block's words.
fn print_listing(words: &[u8]) -> Result<(), String> {
    let listing = list(words).map_err(|refusal| format!("list: {refusal}"))?;
    listing.lines().for_each(|line| println!("    {line}"));
    Ok(())
}

fn hexadecimal(text: &str) -> Result<u64, String> {
    let digits = text.strip_prefix("0x").unwrap_or(text);
    u64::from_str_radix(digits, 16).map_err(|_| format!("{text} is no hexadecimal number"))
}

fn store_bytes(text: Option<&String>) -> Result<usize, String> {
    let text = text.ok_or("--store wants a number of bytes")?;
    let bytes = text.parse().ok().filter(|&bytes| bytes <= MOST);
    bytes.ok_or(format!("{text} is no number of bytes up to {MOST}"))
}

/// True if the program ended with status 0 and nothing differed.
fn dispatch(arguments: &[String]) -> Result<bool, String> {
    let mut arguments = arguments.iter().peekable();
    let (mut store, mut on_fence) = (STORE, OnFence::Empty);
    while let Some(option) = arguments.next_if(|text| text.starts_with("--")) {
        match option.as_str() {
            "--store" => store = store_bytes(arguments.next())?,
            "--keep" => on_fence = OnFence::Keep,
            _ => return Err(format!("{option} is no option")),
        }
    }
    let path = arguments.next().map_or(CENTROID, String::as_str);
    let entry = arguments.next().map(|text| hexadecimal(text)).transpose()?;
    let base = arguments.next().map_or(Ok(RAW), |text| hexadecimal(text))?;
    let file = std::fs::read(path).map_err(|error| format!("{path}: {error}"))?;
    let image = Image::load(&file, entry, base)?;
    let mut dispatcher = Dispatcher::new(image, Code::new(store, on_fence));
    let name = Path::new(path).file_name().unwrap_or_default().to_string_lossy();
    println!("{name}, entry {:x}", dispatcher.pc);
    let ended = dispatcher.run();
    dispatcher.summary();
    let status = ended?;
    println!("exit status of the guest: {status}");
    Ok(status == 0 && dispatcher.counts.differences == 0)
}

fn main() -> ExitCode {
    let arguments: Vec<String> = std::env::args().skip(1).collect();
    match dispatch(&arguments) {
        Ok(true) => ExitCode::SUCCESS,
        Ok(false) => ExitCode::FAILURE,
        Err(error) => {
            eprintln!("dispatcher: {error}");
            ExitCode::FAILURE
        }
    }
}
