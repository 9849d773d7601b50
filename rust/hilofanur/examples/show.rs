//! Shows blocks: each guest instruction over the words that were made of it, a block that a helper ends, and a
//! refusal.

use hilofanur::{list, translate, EndKind, Guest, Host, Refusal, LONGEST_BLOCK};

/// Instructions as the RISC-V assembler writes them, and their bytes.
type Code = [(&'static str, &'static [u8])];

const PLAIN: &Code = &[
    ("addi a0, a0, 5", &[0x13, 0x05, 0x55, 0x00]),
    ("c.add a0, a1", &[0x2e, 0x95]),
    ("bne a0, a1, 16", &[0x63, 0x18, 0xb5, 0x00]),
];
const HELPED: &Code = &[("c.nop", &[0x01, 0x00]), ("ld a0, 8(a1)", &[0x03, 0xb5, 0x85, 0x00])];
const UNCOVERED: &Code = &[("ecall", &[0x73, 0x00, 0x00, 0x00])];
const PC: u64 = 0x1000;

/// The block of the first `limit` instructions: its words, its count, what ended it.
fn block(code: &Code, limit: usize) -> Result<(Vec<u8>, u32, EndKind), Refusal> {
    let bytes: Vec<u8> = code.iter().flat_map(|(_, bytes)| bytes.iter().copied()).collect();
    let guest = Guest { bytes: &bytes, pc: PC, limit: limit as u32, ignore_ebreak: false };
    let host =
        Host { slot_offset: 0, memory_helper: 0x10000, helper32: 0x20000, helper16: 0x30000 };
    let mut output = [0; LONGEST_BLOCK];
    let block = translate(&guest, &host, &mut output)?;
    Ok((output[..block.length].to_vec(), block.count, block.end_kind))
}

/// How many words two blocks have in common, from the front.
fn common(one: &[u8], other: &[u8]) -> usize {
    one.chunks(4).zip(other.chunks(4)).take_while(|(a, b)| a == b).count()
}

/// Each instruction over its words: those that the block of the instructions up to it has in common with the whole.
fn show(code: &Code) -> Result<(), Refusal> {
    let (words, count, end) = block(code, code.len())?;
    let listing = list(&words)?;
    let mut lines = listing.lines();
    let mut shown = 0;
    for (n, (text, _)) in code.iter().enumerate() {
        println!("  {text}");
        let upto = if n + 1 < code.len() {
            common(&block(code, n + 1)?.0, &words)
        } else {
            words.len() / 4
        };
        lines.by_ref().take(upto - shown).for_each(|line| println!("      {line}"));
        shown = upto;
    }
    println!("  {count} guest instructions, {shown} words; end: {end:?}");
    Ok(())
}

fn main() -> Result<(), Refusal> {
    println!("A block at {PC:x} that a branch ends; slot n is at X0 + 8n:");
    show(PLAIN)?;
    println!("\nA block that a load ends. The words call the memory helper, then return:");
    show(HELPED)?;
    let refused = block(UNCOVERED, 1).expect_err("SYSTEM is never covered");
    println!("\n{}, which no block covers: {refused}", UNCOVERED[0].0);
    Ok(())
}
