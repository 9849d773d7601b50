//! The listing by `write!`, with a decoder of its own, by the forms' fixed bits.

use crate::listing::{refused, words, ListAnswer};
use std::fmt::{self, Display, Formatter};
use std::io::{Result, Write};

/// The same as [`crate::list`].
pub fn list_fmt(block: &[u8], output: &mut [u8]) -> ListAnswer {
    let Some(words) = words(block) else { return refused(12) };
    let mut length = Length(0);
    for (n, &word) in words.iter().enumerate() {
        let word = u32::from_le_bytes(word);
        let Some(form) = Form::read(word) else {
            return ListAnswer { offset: 4 * n as u64, ..refused(13) };
        };
        write_line(&mut length, 4 * n, word, form).expect("a length takes every line");
    }
    if length.0 > output.len() {
        return refused(14);
    }
    let mut rest = output;
    for (n, &word) in words.iter().enumerate() {
        let word = u32::from_le_bytes(word);
        if let Some(form) = Form::read(word) {
            write_line(&mut rest, 4 * n, word, form).expect("the output holds the lines");
        }
    }
    ListAnswer { refusal: 0, length: length.0 as u64, offset: 0 }
}

fn write_line(to: &mut impl Write, offset: usize, word: u32, form: Form) -> Result<()> {
    writeln!(to, "{offset:08x} {word:08x} {}", Text(word, form))
}

/// How many bytes were written.
struct Length(usize);

impl Write for Length {
    fn write(&mut self, bytes: &[u8]) -> Result<usize> {
        self.0 += bytes.len();
        Ok(bytes.len())
    }

    fn flush(&mut self) -> Result<()> {
        Ok(())
    }
}

/// A form as its text is shaped, with its name where several share the shape.
#[derive(Clone, Copy)]
enum Form {
    /// Three registers, the third one shifted by 0.
    Shifted(&'static str),
    Registers(&'static str),
    /// A register made of one other.
    OneSource(&'static str),
    Multiply,
    Compare,
    Select,
    SignExtend,
    Move(&'static str),
    Stack(&'static str),
    Memory(&'static str),
    Call,
    Return,
}

use Form::*;

impl Form {
    fn read(word: u32) -> Option<Form> {
        Some(match word & 0xFFE0_FC00 {
            0x8B00_0000 => Shifted("add"),
            0xCB00_0000 => Shifted("sub"),
            0x8A00_0000 => Shifted("and"),
            0xAA00_0000 => Shifted("orr"),
            0xCA00_0000 => Shifted("eor"),
            0x8A20_0000 => Shifted("bic"),
            0xAA20_0000 => Shifted("orn"),
            0xCA20_0000 => Shifted("eon"),
            0x9AC0_2000 => Registers("lslv"),
            0x9AC0_2400 => Registers("lsrv"),
            0x9AC0_2800 => Registers("asrv"),
            0x9AC0_2C00 => Registers("rorv"),
            0x9AC0_0800 => Registers("udiv"),
            0x9AC0_0C00 => Registers("sdiv"),
            0x9B40_7C00 => Registers("smulh"),
            0x9BC0_7C00 => Registers("umulh"),
            0x9B00_7C00 => Multiply,
            0xEB00_0000 if word & 31 == 31 => Compare,
            _ if word & 0xFFE0_0C00 == 0x9A80_0000 => Select,
            _ if word & 0xFFFF_FC00 == 0x9340_7C00 => SignExtend,
            _ if word & 0xFFFF_FC00 == 0xDAC0_0C00 => OneSource("rev"),
            _ if word & 0xFFFF_FC00 == 0xDAC0_1000 => OneSource("clz"),
            _ if word & 0xFF80_0000 == 0xD280_0000 => Move("movz"),
            _ if word & 0xFF80_0000 == 0xF280_0000 => Move("movk"),
            _ if word & 0xFFC0_03FF == 0x9100_03FF => Stack("add"),
            _ if word & 0xFFC0_03FF == 0xD100_03FF => Stack("sub"),
            _ if word & 0xFFC0_0000 == 0xF940_0000 => Memory("ldr"),
            _ if word & 0xFFC0_0000 == 0xF900_0000 => Memory("str"),
            _ if word & 0xFFFF_FC1F == 0xD63F_0000 => Call,
            _ if word == 0xD65F_03C0 => Return,
            _ => return None,
        })
    }
}

/// A register, 31 being zero.
struct X(u32);

impl Display for X {
    fn fmt(&self, f: &mut Formatter) -> fmt::Result {
        match self.0 {
            31 => write!(f, "xzr"),
            n => write!(f, "x{n}"),
        }
    }
}

/// A register that is a base, 31 being SP.
struct Base(u32);

impl Display for Base {
    fn fmt(&self, f: &mut Formatter) -> fmt::Result {
        match self.0 {
            31 => write!(f, "sp"),
            n => write!(f, "x{n}"),
        }
    }
}

const CONDITIONS: [&str; 16] = [
    "eq", "ne", "cs", "cc", "mi", "pl", "vs", "vc", "hi", "ls", "ge", "lt", "gt", "le", "al", "nv",
];

/// The text of a word that has the form.
struct Text(u32, Form);

impl Display for Text {
    fn fmt(&self, f: &mut Formatter) -> fmt::Result {
        let Text(word, form) = *self;
        let (d, n, m) = (X(word & 31), X(word >> 5 & 31), X(word >> 16 & 31));
        let (base, imm12) = (Base(n.0), word >> 10 & 0xFFF);
        match form {
            Shifted(name) => write!(f, "{name} {d}, {n}, {m}, lsl #0"),
            Registers(name) => write!(f, "{name} {d}, {n}, {m}"),
            OneSource(name) => write!(f, "{name} {d}, {n}"),
            Multiply => write!(f, "madd {d}, {n}, {m}, xzr"),
            Compare => write!(f, "subs xzr, {n}, {m}, lsl #0"),
            Select => {
                let condition = CONDITIONS[(word >> 12 & 15) as usize];
                write!(f, "csel {d}, {n}, {m}, {condition}")
            }
            SignExtend => write!(f, "sbfm {d}, {n}, #0, #31"),
            Move(name) => {
                let (value, shift) = (word >> 5 & 0xFFFF, 16 * (word >> 21 & 3));
                write!(f, "{name} {d}, #{value}, lsl #{shift}")
            }
            Stack(name) => write!(f, "{name} sp, sp, #{imm12}, lsl #0"),
            Memory(name) => write!(f, "{name} {d}, [{base}, #{}]", 8 * imm12),
            Call => write!(f, "blr {n}"),
            Return => write!(f, "ret x30"),
        }
    }
}
