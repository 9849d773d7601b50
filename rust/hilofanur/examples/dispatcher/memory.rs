//! The guest's flat memory, and the loads and stores that it sees.

use hilofanur::Registers;

/// Bytes, the first at `base`.
pub struct Memory {
    pub base: u64,
    pub bytes: Vec<u8>,
}

impl Memory {
    /// The bytes from `address` on, at most `most`.
    pub fn from(&self, address: u64, most: usize) -> &[u8] {
        let rest = usize::try_from(address.wrapping_sub(self.base)).ok();
        let rest = rest.and_then(|at| self.bytes.get(at..)).unwrap_or(&[]);
        &rest[..rest.len().min(most)]
    }

    fn place(&mut self, address: u64, size: usize) -> Result<&mut [u8], String> {
        let at = usize::try_from(address.wrapping_sub(self.base)).ok();
        let place =
            at.and_then(|at| self.bytes.get_mut(at..)).and_then(|rest| rest.get_mut(..size));
        place.ok_or(format!("{size} bytes at {address:x} are not in memory"))
    }
}

/// A load or a store of an RV64 instruction.
#[derive(Clone, Copy, Debug, PartialEq, Eq)]
pub struct Access {
    /// funct3 of the 32-bit form: the size's logarithm, 4 more for a load without sign.
    pub funct3: u32,
    pub store: bool,
    /// The register that a load writes; of a store the same five bits, unused.
    pub rd: usize,
    /// What a store writes; 0 for a load.
    pub value: u64,
    pub address: u64,
    /// The instruction's bytes.
    pub length: u64,
}

impl Access {
    /// The access of a load or store of 32 or 16 bits; other helper instructions have none here.
    pub fn decode(instr: u32, registers: &Registers) -> Option<Access> {
        let x = &registers.x;
        if instr & 3 != 3 {
            return Access::decode16(instr, x);
        }
        let (funct3, rd) = (instr >> 12 & 7, (instr >> 7 & 31) as usize);
        let (rs1, rs2) = ((instr >> 15 & 31) as usize, (instr >> 20 & 31) as usize);
        let high = instr as i32 >> 20;
        let access = |store, offset: i32, value| Access {
            funct3,
            store,
            rd,
            value,
            address: x[rs1].wrapping_add(offset as u64),
            length: 4,
        };
        match instr & 0x7F {
            0x03 if funct3 < 7 => Some(access(false, high, 0)),
            0x23 if funct3 < 4 => Some(access(true, high & !31 | rd as i32, x[rs2])),
            _ => None,
        }
    }

    /// C.LW, C.LD, C.SW, C.SD, and the same four from the stack.
    fn decode16(i: u32, x: &[u64; 32]) -> Option<Access> {
        let (double, store) = (i >> 13 & 1 == 1, i >> 15 == 1);
        if i >> 14 & 1 == 0 || i & 3 == 1 {
            return None;
        }
        let upper = i >> 10 & 7; // bits 12 to 10
        let (offset, base, rd, rs2) = if i & 3 == 0 {
            let low =
                if double { (i >> 5 & 3) << 6 } else { (i >> 5 & 1) << 6 | (i >> 6 & 1) << 2 };
            let register = (i >> 2 & 7) as usize + 8;
            (upper << 3 | low, (i >> 7 & 7) as usize + 8, register, register)
        } else {
            let offset = match (store, double) {
                (false, false) => (i >> 12 & 1) << 5 | (i >> 4 & 7) << 2 | (i >> 2 & 3) << 6,
                (false, true) => (i >> 12 & 1) << 5 | (i >> 5 & 3) << 3 | (i >> 2 & 7) << 6,
                (true, false) => (i >> 9 & 15) << 2 | (i >> 7 & 3) << 6,
                (true, true) => upper << 3 | (i >> 7 & 7) << 6,
            };
            (offset, 2, (i >> 7 & 31) as usize, (i >> 2 & 31) as usize)
        };
        Some(Access {
            funct3: 2 + u32::from(double),
            store,
            rd,
            value: if store { x[rs2] } else { 0 },
            address: x[base].wrapping_add(offset.into()),
            length: 2,
        })
    }

    /// The memory helper's number for it: MEM_OP_*.
    pub fn operation(&self) -> u64 {
        u64::from(self.funct3) + if self.store { 16 } else { 0 }
    }

    /// The access that the memory helper's arguments tell: operation, rd, value, address.
    pub fn from_arguments([operation, rd, value, address]: [u64; 4]) -> Option<Access> {
        let (funct3, store) = match operation {
            0..=6 => (operation as u32, false),
            16..=19 => (operation as u32 - 16, true),
            _ => return None,
        };
        let rd = usize::try_from(rd).ok().filter(|&rd| rd < 32)?;
        Some(Access { funct3, store, rd, value, address, length: 4 })
    }

    /// Does it.
    pub fn serve(&self, memory: &mut Memory, registers: &mut Registers) -> Result<(), String> {
        let size = 1 << (self.funct3 & 3);
        let place = memory.place(self.address, size)?;
        if self.store {
            place.copy_from_slice(&self.value.to_le_bytes()[..size]);
        } else if self.rd != 0 {
            let number = place.iter().rev().fold(0, |number, &byte| number << 8 | u64::from(byte));
            let unused = 64 - 8 * size;
            let signed = ((number << unused) as i64 >> unused) as u64;
            registers.x[self.rd] = if self.funct3 < 4 { signed } else { number };
        }
        Ok(())
    }
}

#[cfg(test)]
mod tests {
    use super::*;

    fn registers() -> Registers {
        Registers { x: std::array::from_fn(|n| 0x1000 * n as u64) }
    }

    /// Encodings with their operands, as binutils assembles them.
    #[test]
    fn decodes() {
        let load = |funct3, rd, address, length| Access {
            funct3,
            store: false,
            rd,
            value: 0,
            address,
            length,
        };
        let store = |funct3, rd, rs2: u64, address, length| Access {
            store: true,
            value: 0x1000 * rs2,
            ..load(funct3, rd, address, length)
        };
        let cases = [
            (0xFF85_B503, load(3, 10, 0xAFF8, 4)),      // ld a0, -8(a1)
            (0x7FF5_C503, load(4, 10, 0xB7FF, 4)),      // lbu a0, 2047(a1)
            (0xFEA5_9FA3, store(1, 31, 10, 0xAFFF, 4)), // sh a0, -1(a1)
            (0x41C8, load(2, 10, 0xB004, 2)),           // c.lw a0, 4(a1)
            (0x6DE8, load(3, 10, 0xB0D8, 2)),           // c.ld a0, 216(a1)
            (0xDDE8, store(2, 10, 10, 0xB07C, 2)),      // c.sw a0, 124(a1)
            (0xFDE8, store(3, 10, 10, 0xB0F8, 2)),      // c.sd a0, 248(a1)
            (0x550E, load(2, 10, 0x20E0, 2)),           // c.lwsp a0, 224(sp)
            (0x75FE, load(3, 11, 0x21F8, 2)),           // c.ldsp a1, 504(sp)
            (0xDFAA, store(2, 31, 10, 0x20FC, 2)),      // c.swsp a0, 252(sp)
            (0xFFAA, store(3, 31, 10, 0x21F8, 2)),      // c.sdsp a0, 504(sp)
        ];
        for (instr, expected) in cases {
            assert_eq!(Access::decode(instr, &registers()), Some(expected), "{instr:x}");
        }
        // amoadd.w, fld, c.fld, c.li
        for instr in [0x00B5_252F, 0x0005_3507, 0x2108, 0x557D] {
            assert_eq!(Access::decode(instr, &registers()), None, "{instr:x}");
        }
    }

    /// Every operation there and back, and those that there are not.
    #[test]
    fn arguments() {
        for operation in 0..32 {
            let arguments = [operation, 31, 5, 0x1000];
            let access = Access::from_arguments(arguments);
            assert_eq!(access.is_some(), operation < 7 || (16..20).contains(&operation));
            if let Some(a) = access {
                assert_eq!([a.operation(), a.rd as u64, a.value, a.address], arguments);
                assert_eq!((a.store, a.length), (operation >= 16, 4));
            }
        }
        for (operation, rd) in [(1 << 32, 0), (!0, 0), (0, 32), (0, !0)] {
            assert_eq!(Access::from_arguments([operation, rd, 0, 0]), None);
        }
    }

    #[test]
    fn serves() {
        let mut memory = Memory { base: 0x100, bytes: (0x80..0x90).collect() };
        let mut registers = Registers::default();
        let access = Access { funct3: 0, store: false, rd: 5, value: 0, address: 0x104, length: 4 };
        let expected = [
            0xFFFF_FFFF_FFFF_FF84,
            0xFFFF_FFFF_FFFF_8584,
            0xFFFF_FFFF_8786_8584,
            0x8B8A_8988_8786_8584,
            0x84,
            0x8584,
            0x8786_8584,
        ];
        for (funct3, value) in (0..).zip(expected) {
            Access { funct3, ..access }.serve(&mut memory, &mut registers).unwrap();
            assert_eq!(registers.x[5], value);
        }
        let store = Access { store: true, funct3: 1, value: 0x1234_5678, ..access };
        store.serve(&mut memory, &mut registers).unwrap();
        assert_eq!(memory.from(0x103, 4), [0x83, 0x78, 0x56, 0x86]);
        for address in [0xFF, 0x10F, u64::MAX] {
            assert!(Access { address, ..store }.serve(&mut memory, &mut registers).is_err());
        }
        Access { rd: 0, ..access }.serve(&mut memory, &mut registers).unwrap();
        assert_eq!(registers.x[0], 0);
    }
}
