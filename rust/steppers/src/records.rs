//! Reads the cases recorded from outside machines; the formats stand in machines/README.md.

use crate::{A64Answer, A64State, Rv64Answer};

pub struct Rv64Case {
    pub guest: Vec<u8>,
    pub pc: u64,
    pub limit: u32,
    pub ignore_ebreak: bool,
    pub before: [u64; 32],
    pub after: [u64; 32],
    pub answer: Rv64Answer,
}

pub struct A64Case {
    pub block: Vec<u8>,
    pub address: u64,
    pub budget: u64,
    pub base: u64,
    pub before: A64State,
    pub memory_before: Vec<u8>,
    pub after: A64State,
    pub memory_after: Vec<u8>,
    pub answer: A64Answer,
}

/// A recorded file from where it is read on. Each method panics where the file is too short.
pub struct Reader<'a>(pub &'a [u8]);

impl Reader<'_> {
    pub fn bytes(&mut self, length: usize) -> Vec<u8> {
        let (front, rest) = self.0.split_at(length);
        self.0 = rest;
        front.to_vec()
    }

    fn array<const N: usize>(&mut self) -> [u8; N] {
        self.bytes(N).try_into().unwrap()
    }

    pub fn u8(&mut self) -> u8 {
        self.array::<1>()[0]
    }

    pub fn u16(&mut self) -> u16 {
        u16::from_le_bytes(self.array())
    }

    pub fn u32(&mut self) -> u32 {
        u32::from_le_bytes(self.array())
    }

    pub fn u64(&mut self) -> u64 {
        u64::from_le_bytes(self.array())
    }

    /// [number u8]{register u8, value u64}*number
    pub fn registers(&mut self, into: &mut [u64]) {
        for _ in 0..self.u8() {
            let register = self.u8();
            into[usize::from(register)] = self.u64();
        }
    }

    /// The magic, then the number of cases.
    pub fn header(&mut self, magic: &[u8; 8]) -> u32 {
        assert_eq!(self.bytes(8), magic);
        self.u32()
    }
}

/// What registers start as where a case does not say.
pub fn defaults<const N: usize>() -> [u64; N] {
    std::array::from_fn(|i| i as u64 * 0x0101_0101_0101_0101)
}

/// # Panics
/// If the file is not a record of RV64 cases.
pub fn rv64_cases(file: &[u8]) -> Vec<Rv64Case> {
    read_rv64(file, b"RV64CASE", false)
}

/// # Panics
/// If the file is not one of the rules' RV64 cases.
pub fn rv64_rules(file: &[u8]) -> Vec<Rv64Case> {
    read_rv64(file, b"RV64RULE", true)
}

/// `rules`: the cases have a flag and a refusal too.
fn read_rv64(file: &[u8], magic: &[u8; 8], rules: bool) -> Vec<Rv64Case> {
    let mut r = Reader(file);
    let number = r.header(magic);
    let cases = (0..number).map(|_| {
        let length = r.u8();
        let guest = r.bytes(length.into());
        let (pc, limit) = (r.u64(), r.u8().into());
        let ignore_ebreak = rules && r.u8() != 0;
        let mut before = defaults();
        r.registers(&mut before);
        let mut after = before;
        r.registers(&mut after);
        let (next_pc, count) = (r.u64(), r.u8().into());
        let refusal = if rules { r.u8().into() } else { 0 };
        Rv64Case {
            guest,
            pc,
            limit,
            ignore_ebreak,
            before,
            after,
            answer: Rv64Answer { refusal, count, next_pc },
        }
    });
    let cases = cases.collect();
    assert!(r.0.is_empty());
    cases
}

/// # Panics
/// If the file is not a record of A64 cases.
pub fn a64_cases(file: &[u8]) -> Vec<A64Case> {
    let mut r = Reader(file);
    let number = r.header(b"A64CASES");
    let cases = (0..number).map(|_| {
        let words = r.u8();
        let block = r.bytes(4 * usize::from(words));
        let (address, budget) = (r.u64(), r.u64());
        let mut before = A64State { x: defaults(), sp: 0, nzcv: 0 };
        r.registers(&mut before.x);
        (before.sp, before.nzcv) = (r.u64(), r.u8().into());
        let base = r.u64();
        let size = r.u8();
        let memory_before = r.bytes(size.into());
        let mut after = before;
        r.registers(&mut after.x);
        (after.sp, after.nzcv) = (r.u64(), r.u8().into());
        let memory_after = r.bytes(size.into());
        let answer = A64Answer { refusal: 0, end: r.u8().into(), steps: r.u8().into() };
        A64Case { block, address, budget, base, before, memory_before, after, memory_after, answer }
    });
    let cases = cases.collect();
    assert!(r.0.is_empty());
    cases
}
