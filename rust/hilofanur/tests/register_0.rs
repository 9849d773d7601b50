//! Register 0 without its slot (document 02, No. 6): its loads are MOVZ with 0, inline, in leftover words and in
//! stubs, and whatever slot 0 holds is neither read nor written.

use draw::forms::{self, encode};
use draw::values::{registers, value};
use draw::{words, zbb, Random};
use hilofanur::{a64_run, rv64_run, translate, LONGEST_BLOCK};
use hilofanur::{A64State, End, EndKind, Guest, Host, Memory, Registers, Words};

const SLOTS: u64 = 0x8000;
/// The slots, and 16 bytes for the stack.
const SIZE: usize = 256 + 16;

fn host(slot_offset: u64) -> Host {
    Host { slot_offset, memory_helper: 0x10000, helper32: 0x20000, helper16: 0x30000 }
}

fn translated(bytes: &[u8], slot_offset: u64) -> Option<(Vec<u8>, EndKind)> {
    let guest = Guest { bytes, pc: 0x1000, limit: 64, ignore_ebreak: false };
    let mut output = [0; LONGEST_BLOCK];
    let block = translate(&guest, &host(slot_offset), &mut output).ok()?;
    Some((output[..block.length].to_vec(), block.end_kind))
}

/// Words by hand, from document 01's rules with MOVZ for the loads: addi x5, x0, 1; c.nop and an encoding of OP that
/// leaves two loads; beq x0, x0, 8; jalr x0, 4(x0); lw x10, 0(x0) and sd x0, 8(x0), up to the moves.
#[test]
fn words_by_hand() {
    let rows: [(&[u8], EndKind, &[u32]); 6] = [
        (&[0x93, 0x02, 0x10, 0], EndKind::Plain, &[0xD280_0009, 0xD280_002A, 0x8B0A_012B]),
        (&[1, 0, 0xB3, 0x02, 0, 0x0C], EndKind::Plain, &[0xD280_0009, 0xD280_000A, 0xD282_0040]),
        (&[0x63, 0x04, 0, 0], EndKind::Plain, &[0xD280_0009, 0xD280_000A, 0xEB0A_013F]),
        (&[0x67, 0, 0x40, 0], EndKind::Plain, &[0xD280_0009, 0xD280_008A, 0x8B0A_012B]),
        (&[0x03, 0x25, 0, 0], EndKind::Helper, &[0xD280_0009, 0xD280_000A, 0x8B0A_012B]),
        (
            &[0x23, 0x34, 0, 0],
            EndKind::Helper,
            &[0xD280_0009, 0xD280_010A, 0x8B0A_012B, 0xD280_000C, 0xAA1F_0020],
        ),
    ];
    for (guest, end, first) in rows {
        for slot_offset in [0, 8, 32_512] {
            let (block, found) = translated(guest, slot_offset).unwrap();
            assert_eq!((found, &words(&block)[..first.len()]), (end, first), "{guest:02x?}");
        }
    }
}

/// A block run with these numbers in its slots: X0 to X8 and X16 then, and the slots.
fn run(block: &[u8], end: EndKind, slots: &Registers, slot_offset: u64) -> (Vec<u64>, Registers) {
    let mut memory = [0; SIZE];
    memory[..256].copy_from_slice(&slots.to_bytes());
    let sp = SLOTS + SIZE as u64;
    let mut state = A64State { x: std::array::from_fn(|n| !(n as u64)), sp, nzcv: 5 };
    state.x[0] = SLOTS.wrapping_sub(slot_offset);
    let words = Words { bytes: block, address: 0x4000 };
    let lent = Memory { bytes: &mut memory, base: SLOTS };
    let run = a64_run(words, &mut state, 2_000, lent).unwrap();
    assert_eq!(run.end, if end == EndKind::Helper { End::Called } else { End::Returned });
    let numbers = [&state.x[..9], &[state.x[16]]].concat();
    (numbers, Registers::from_bytes(memory.first_chunk().unwrap()))
}

/// With anything in slot 0 the block does what it does with 0 there, and leaves slot 0; the RV64 run is the same with
/// anything in register 0's entry as with 0 there, and gives 0 back unless it refuses.
fn hold(bytes: &[u8], block: &[u8], end: EndKind, slot_offset: u64, random: &mut Random) {
    let mut zero = Registers { x: registers(|| value(random)) };
    let mut rubbish = zero;
    (zero.x[0], rubbish.x[0]) = (0, random.next() | 1);
    let (numbers, slots) = run(block, end, &zero, slot_offset);
    let (numbers_beside, mut slots_beside) = run(block, end, &rubbish, slot_offset);
    assert_eq!((numbers, slots_beside.x[0]), (numbers_beside, rubbish.x[0]), "{bytes:02x?}");
    slots_beside.x[0] = 0;
    assert_eq!(slots, slots_beside, "{bytes:02x?}");
    let guest = Guest { bytes, pc: 0x1000, limit: 64, ignore_ebreak: false };
    let before = rubbish;
    let answer = rv64_run(&guest, &mut rubbish);
    assert_eq!(answer, rv64_run(&guest, &mut zero), "{bytes:02x?}");
    assert_eq!(rubbish, if answer.is_ok() { zero } else { before }, "{bytes:02x?}");
    assert_eq!(slots, zero, "{bytes:02x?}");
}

/// Every form with each of its registers 0, or any.
#[test]
fn every_form_with_rubbish_in_slot_0() {
    let (mut random, mut blocks, mut helpers) = (Random(6), 0, 0);
    for form in forms::all().into_iter().chain(zbb::forms()) {
        for free in [0, 0xF80, 0xF_8000, 0x1F0_0000, 0xF_8F80, 0x1F0_0F80, u32::MAX] {
            let bytes = encode(form, free & random.next() as u32).to_le_bytes();
            let slot_offset = random.pick(&[0, 8, 32_512]);
            let Some((block, end)) = translated(&bytes, slot_offset) else { continue };
            hold(&bytes, &block, end, slot_offset, &mut random);
            blocks += 1;
            helpers += (end == EndKind::Helper) as u32;
        }
    }
    assert!(blocks >= 500 && helpers >= 100, "{blocks} {helpers}");
}
