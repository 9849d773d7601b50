//! Document 01's "Marked blocks", asked of the Rust, and Zbb's, whose words are this crate's table.

use crate::{expected, program};
use draw::marked::{differs, rows, Row, PRINTED};
use draw::marked_zbb;

fn asked(row: &Row) -> Option<String> {
    differs(row, |output| {
        let a = expected(&row.case, output);
        [a.refusal, a.length, a.count, a.end]
    })
}

/// Row 5 as document 01's program prints it.
fn printed() -> Option<String> {
    let input =
        [&0x1000u64.to_le_bytes()[..], &2u32.to_le_bytes(), &[0], &[1, 0, 0x41, 0x9C]].concat();
    let text = program::run(&input);
    let refused = program::run(&[&input[..13], &[0x41, 0x9C]].concat());
    let short = program::run(&input[..12]);
    if text == PRINTED && refused == "refused 5\n" && short == "short input\n" {
        return None;
    }
    Some(format!("row 5 printed: found {text:?}, {refused:?}, {short:?}"))
}

/// The rows that differ, and how many were asked.
pub fn check() -> (usize, Vec<String>) {
    let rows: Vec<Row> = rows().into_iter().chain(marked_zbb::rows()).collect();
    let mut wrong: Vec<String> = rows.iter().filter_map(asked).collect();
    wrong.extend(printed());
    (rows.len() + 1, wrong)
}
