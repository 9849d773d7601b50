//! Document 01's program: standard input in, lines out.

use crate::expected;
use draw::{words, Case, LONGEST};

pub fn run(input: &[u8]) -> String {
    if input.len() < 13 {
        return "short input\n".to_string();
    }
    let pc = u64::from_le_bytes(input[..8].try_into().unwrap());
    let limit = u32::from_le_bytes(input[8..12].try_into().unwrap());
    let guest = &input[13..];
    let guest = &guest[..guest.len().min(256)];
    let case = Case { pc, ignore_ebreak: input[12] != 0, ..Case::new(guest, limit) };
    let mut output = [0; LONGEST];
    let answer = expected(&case, &mut output);
    if answer.refusal != 0 {
        return format!("refused {}\n", answer.refusal);
    }
    let mut text = String::new();
    for word in words(&output[..answer.length as usize]) {
        text.push_str(&format!("{word:08x}\n"));
    }
    text.push_str(&format!("{}\n", answer.count));
    text
}
