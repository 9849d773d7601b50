//! The taken text, with what it leans on and does not hold, supplied as document 01 says.

// The taken text stays as it is.
#![allow(dead_code, clippy::let_and_return)]

use draw::case::{HELPER, PLAIN};

include!(concat!(env!("OUT_DIR"), "/emuko.rs"));

/// The fields of the source's `Hart` that translation reads.
struct Hart {
    pc: u64,
    ignore_ebreak: bool,
    slot_offset: u16,
    /// Memory, 32-bit, 16-bit.
    helpers: [u64; 3],
}

trait Bus {
    fn halfword(&self, pc: u64) -> Option<u16>;
}

/// The fetch window: the lent bytes and the PC of their first.
struct Window<'a> {
    guest: &'a [u8],
    start: u64,
}

impl Bus for Window<'_> {
    fn halfword(&self, pc: u64) -> Option<u16> {
        let offset = pc.wrapping_sub(self.start);
        if u128::from(offset) + 2 > self.guest.len() as u128 {
            return None;
        }
        let at = offset as usize;
        Some(u16::from_le_bytes([self.guest[at], self.guest[at + 1]]))
    }
}

impl Hart {
    /// Rule 9.
    fn reg_off(&self, n: usize) -> u16 {
        self.slot_offset + 8 * n as u16
    }

    /// Refusal 3.
    fn check_align(&self, addr: u64, size: u64) -> Result<(), Trap> {
        if addr.is_multiple_of(size) {
            Ok(())
        } else {
            Err(Trap::MisalignedAccess { addr, size })
        }
    }

    /// Refusal 4.
    fn read_u16(&self, bus: &mut impl Bus, addr: u64, kind: AccessType) -> Result<u16, Trap> {
        bus.halfword(addr).ok_or(Trap::PageFault { addr, kind })
    }
}

/// What `compile_native_block` has when it would ask for a place in the code cache.
struct NativeBlock {
    code: Vec<u8>,
    instrs: u32,
    helper: bool,
}

struct NativeCodeCache {
    ptr: *mut u8,
    size: usize,
    used: usize,
}

/// What translation answers; after a refusal every other number is zero.
#[derive(Clone, Copy, Debug, Default, PartialEq, Eq)]
pub struct Answer {
    pub refusal: u32,
    pub length: u32,
    pub count: u32,
    /// The end kind. The Rust itself knows plain and helper alone.
    pub end: u32,
}

fn refused(refusal: u32) -> Answer {
    Answer { refusal, ..Answer::default() }
}

/// Document 01's Translate around `compile_native_block`. `helpers`: memory, 32-bit, 16-bit.
pub fn translate(
    guest: &[u8],
    pc: u64,
    limit: u32,
    ignore_ebreak: bool,
    slot_offset: u64,
    helpers: [u64; 3],
    output: &mut [u8],
) -> Answer {
    if !slot_offset.is_multiple_of(8) || slot_offset > 32_512 {
        return refused(1);
    }
    let slot_offset = slot_offset as u16;
    let mut hart = Hart { pc, ignore_ebreak, slot_offset, helpers };
    let mut window = Window { guest, start: pc };
    let block = match hart.compile_native_block(&mut window, limit) {
        Ok(Some(block)) => block,
        Ok(None) if limit == 0 => return refused(2),
        Ok(None) => return refused(5),
        Err(Trap::MisalignedAccess { .. }) => return refused(3),
        Err(Trap::PageFault { .. }) => return refused(4),
        Err(trap) => panic!("the source gave {trap:?}"),
    };
    let length = block.code.len();
    if output.len() < length {
        return refused(6);
    }
    output[..length].copy_from_slice(&block.code);
    let end = if block.helper { HELPER } else { PLAIN };
    Answer { refusal: 0, length: length as u32, count: block.instrs, end }
}

/// What placing answers; after a refusal every other number is zero.
#[derive(Clone, Copy, Debug, Default, PartialEq, Eq)]
pub struct Placed {
    pub refusal: u32,
    pub start: u64,
    pub used: u64,
}

/// Document 01's Place around `alloc`.
pub fn place(store: &mut [u8], used: u64, code: &[u8]) -> Placed {
    if u128::from(used) > store.len() as u128 {
        return Placed { refusal: 7, ..Placed::default() };
    }
    let (ptr, size) = (store.as_mut_ptr(), store.len());
    let mut cache = NativeCodeCache { ptr, size, used: used as usize };
    match cache.alloc(code) {
        None => Placed { refusal: 8, ..Placed::default() },
        Some(start) => Placed { refusal: 0, start: start as u64, used: cache.used as u64 },
    }
}

/// The fields of `decode32` without the CSR field, and the five immediates.
#[derive(Clone, Copy, Debug, PartialEq, Eq)]
pub struct Decoded {
    pub opcode: u8,
    pub rd: u8,
    pub funct3: u8,
    pub rs1: u8,
    pub rs2: u8,
    pub funct7: u8,
    pub funct5: u8,
    pub imm12: u16,
    pub imm_i: u64,
    pub imm_s: u64,
    pub imm_b: u64,
    pub imm_u: u64,
    pub imm_j: u64,
}

pub fn decode(instr: u32) -> Decoded {
    let d = Hart::decode32(instr);
    Decoded {
        opcode: d.opcode,
        rd: d.rd,
        funct3: d.funct3,
        rs1: d.rs1,
        rs2: d.rs2,
        funct7: d.funct7,
        funct5: d.funct5,
        imm12: d.imm12,
        imm_i: Hart::imm_i(instr) as u64,
        imm_s: Hart::imm_s(instr) as u64,
        imm_b: Hart::imm_b(instr) as u64,
        imm_u: Hart::imm_u(instr) as u64,
        imm_j: Hart::imm_j(instr) as u64,
    }
}

/// The immediates of `emit_native_instr16`: C.ADDI4SPN, `imm_ci`, C.ADDI16SP, C.J, C.BEQZ and
/// C.BNEZ, the shift amount. Each is read from any halfword.
pub fn compressed_immediates(instr: u16) -> [u64; 6] {
    [
        Hart::c_addi4spn(instr),
        Hart::c_imm_ci(instr),
        Hart::c_addi16sp(instr),
        Hart::c_j(instr),
        Hart::c_branch(instr),
        Hart::c_shamt(instr),
    ]
}
