//! What an instruction is to a block, by document 01's rules 2 to 4 and document 02's Nos. 3 and 7.

use crate::zbb;

#[derive(Clone, Copy, PartialEq, Eq, Debug)]
pub enum Class {
    /// Inline, and the block goes on.
    Next,
    /// Inline, and ends the block: a jump or a branch.
    Ends,
    /// FENCE.I: inline, and ends the block. The Rust's block goes on after it.
    FenceI,
    Helper,
    Uncovered,
}

/// The first instruction, of 16 bits or of 32, if no halfword of it is missing.
pub fn instruction(guest: &[u8]) -> Option<u32> {
    let low = u16::from_le_bytes(*guest.first_chunk()?);
    if low & 3 != 3 {
        return Some(low.into());
    }
    Some(u32::from_le_bytes(*guest.first_chunk()?))
}

/// The class and the length of the first instruction, if no halfword of it is missing.
pub fn first(guest: &[u8], ignore_ebreak: bool) -> Option<(Class, usize)> {
    let instr = instruction(guest)?;
    Some(match instr & 3 {
        3 => (class32(instr), 4),
        _ => (class16(instr as u16, ignore_ebreak), 2),
    })
}

fn inline(covered: bool) -> Class {
    if covered {
        Class::Next
    } else {
        Class::Uncovered
    }
}

/// Rules 2 to 4 for a 16-bit instruction.
pub fn class16(instr: u16, ignore_ebreak: bool) -> Class {
    let funct3 = instr >> 13;
    let rd = instr >> 7 & 31;
    let rs2 = instr >> 2 & 31;
    let bit12 = instr >> 12 & 1;
    let zero6 = bit12 == 0 && rs2 == 0;
    match (instr & 3, funct3) {
        (0 | 2, 2 | 3 | 6 | 7) => Class::Helper,
        (0, 0) => inline(instr >> 5 & 0xff != 0),
        (1, 0 | 2) => Class::Next,
        (1, 1) => inline(rd != 0),
        (1, 3) => inline(rd != 0 && !zero6),
        (1, 4) => inline(!(instr >> 10 & 3 == 3 && bit12 == 1 && instr >> 6 & 1 == 1)),
        (1, 5..=7) => Class::Ends,
        (2, 0) => inline(rd != 0),
        (2, 4) if rs2 != 0 => inline(rd != 0),
        (2, 4) if rd != 0 => Class::Ends,
        (2, 4) => inline(bit12 == 1 && ignore_ebreak),
        _ => Class::Uncovered,
    }
}

/// Rules 2 to 4 for a 32-bit instruction; Zbb's are inline.
pub fn class32(instr: u32) -> Class {
    match base32(instr) {
        Class::Uncovered => inline(zbb::kind(instr).is_some()),
        class => class,
    }
}

/// Without Zbb, as the Rust has it.
fn base32(instr: u32) -> Class {
    let funct3 = instr >> 12 & 7;
    let funct7 = instr >> 25;
    match instr & 0x7f {
        0x37 | 0x17 => Class::Next,
        0x6f | 0x67 => Class::Ends,
        0x63 if funct3 != 2 && funct3 != 3 => Class::Ends,
        0x13 => inline(match funct3 {
            1 => funct7 >> 1 == 0,
            5 => funct7 >> 1 == 0 || funct7 >> 1 == 16,
            _ => true,
        }),
        0x1b => inline(match funct3 {
            0 => true,
            1 => funct7 == 0,
            5 => funct7 == 0 || funct7 == 32,
            _ => false,
        }),
        0x33 => inline(match funct7 {
            0 | 1 => true,
            32 => funct3 == 0 || funct3 == 5,
            _ => false,
        }),
        0x3b => inline(match funct7 {
            0 => matches!(funct3, 0 | 1 | 5),
            1 => matches!(funct3, 0 | 4 | 5 | 6 | 7),
            32 => matches!(funct3, 0 | 5),
            _ => false,
        }),
        0x0f if funct3 == 1 => Class::FenceI,
        0x0f => inline(funct3 == 0),
        0x03 if funct3 != 7 => Class::Helper,
        0x23 if funct3 < 4 => Class::Helper,
        0x07 | 0x27 | 0x2f => Class::Helper,
        _ => Class::Uncovered,
    }
}

#[cfg(test)]
mod tests {
    use super::*;
    use crate::{forms, guest, Random};

    fn classes(form: forms::Form) -> Vec<Class> {
        let mut random = Random(1);
        let draw = |_| first(&guest::instruction(&mut random, form), false).unwrap().0;
        (0..1_000).map(draw).collect()
    }

    #[test]
    fn forms_are_of_their_rules() {
        for form in forms::inline() {
            let met = classes(form);
            // C.EBREAK is inline only under the flag.
            let inline =
                [Class::Next, Class::Ends, Class::FenceI].map(|class| met.contains(&class));
            assert!(inline.contains(&true) || form.0 == 0x9002, "{form:x?}");
            assert!(!met.contains(&Class::Helper), "{form:x?}");
            let fence_i = met.iter().filter(|&&class| class == Class::FenceI).count();
            assert_eq!(fence_i, if form == forms::FENCE_I { met.len() } else { 0 }, "{form:x?}");
        }
        for form in forms::helper() {
            assert!(classes(form).iter().all(|&class| class == Class::Helper), "{form:x?}");
        }
        for form in zbb::forms() {
            assert!(classes(form).iter().all(|&class| class == Class::Next), "{form:x?}");
        }
        for form in [&forms::LEFTOVER[..], &forms::UNCOVERED, &zbb::NEAR].concat() {
            assert!(classes(form).iter().all(|&class| class == Class::Uncovered), "{form:x?}");
        }
    }
}
