//! Document 01's "Marked blocks" and Zbb's, asked of the library.

use draw::marked::{self, Found, Row};
use draw::{marked_zbb, words, Case};
use hilofanur::{a64_run, a64_run_from, boundary, translate};
use hilofanur::{A64Run, A64State, End, Guest, Host, Memory, Refusal, Registers, Words};

fn question(row: &Row) -> (Guest<'_>, Host) {
    let Case { guest, pc, limit, slot_offset, helpers, .. } = &row.case;
    let [memory_helper, helper32, helper16] = *helpers;
    (
        Guest { bytes: guest, pc: *pc, limit: *limit, ignore_ebreak: false },
        Host { slot_offset: *slot_offset, memory_helper, helper32, helper16 },
    )
}

/// Document 01's, then Zbb's.
fn rows() -> Vec<Row> {
    marked::rows().into_iter().chain(marked_zbb::rows()).collect()
}

#[test]
fn rows_hold() {
    let ask = |row: &Row, output: &mut [u8]| {
        let (guest, host) = question(row);
        let a = boundary::translate(&guest, &host, output);
        [a.refusal, a.length, a.count, a.end]
    };
    let rows = rows();
    let wrong: Vec<String> =
        rows.iter().filter_map(|row| marked::differs(row, |output| ask(row, output))).collect();
    assert_eq!((rows.len(), wrong), (15 + 61, vec![]));
}

#[test]
fn refused_rows_by_name() {
    for row in rows() {
        let (guest, host) = question(&row);
        let answer = translate(&guest, &host, &mut vec![0; row.case.room]);
        match row.found {
            Found::Refused(number) => {
                assert_eq!(answer, Err(Refusal::from_number(number).unwrap()), "{}", row.name);
            }
            _ => assert!(answer.is_ok(), "{}", row.name),
        }
    }
}

/// The slots as a run's memory.
fn lend(bytes: &mut [u8; 256]) -> Memory<'_> {
    Memory { bytes, base: 0x8000 }
}

/// Each block run as a whole, and cut after one of its words and gone on with there; of long ones, after every 41st.
#[test]
fn rows_in_two_parts() {
    for row in rows() {
        let (guest, host) = question(&row);
        let mut output = vec![0; row.case.room];
        let Ok(block) = translate(&guest, &host, &mut output) else { continue };
        let words = Words { bytes: &output[..block.length], address: 0 };
        let number = block.length as u64 / 4;
        let slots = Registers { x: std::array::from_fn(|n| n as u64 * 3) }.to_bytes();
        let mut entry = A64State { x: std::array::from_fn(|n| !(n as u64)), sp: 5, nzcv: 6 };
        entry.x[0] = 0x8000 - host.slot_offset;
        let (mut whole, mut memory) = (entry, slots);
        let run = a64_run(words, &mut whole, number, lend(&mut memory));
        assert_eq!(run, Ok(A64Run { end: End::Returned, steps: number }), "{}", row.name);
        for first in (0..number).step_by(if number < 41 { 1 } else { 41 }) {
            let (mut state, mut lent) = (entry, slots);
            let cut = a64_run(words, &mut state, first, lend(&mut lent));
            assert_eq!(cut, Ok(A64Run { end: End::Spent, steps: first }), "{}", row.name);
            let left = number - first;
            let rest = a64_run_from(words, first, &mut state, left, lend(&mut lent));
            assert_eq!(rest, Ok(A64Run { end: End::Returned, steps: left }), "{}", row.name);
            assert_eq!((state, lent), (whole, memory), "{} {first}", row.name);
        }
    }
}

/// Row 5 printed as document 01 has it.
#[test]
fn row_5_printed() {
    let row = &marked::rows()[4];
    let (guest, host) = question(row);
    let mut output = [0; hilofanur::LONGEST_BLOCK];
    let block = translate(&guest, &host, &mut output).unwrap();
    let mut text = String::new();
    for word in words(&output[..block.length]) {
        text += &format!("{word:08x}\n");
    }
    assert_eq!(text + &format!("{}\n", block.count), marked::PRINTED);
}
