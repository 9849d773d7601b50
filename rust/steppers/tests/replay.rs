//! The recorded cases through the steppers: no difference.

use steppers::records::{a64_cases, rv64_cases, rv64_rules, A64Case, Rv64Case};
use steppers::{a64_run, a64_run_from, rv64_run, A64Answer, RETURNED};

const RV64: &[u8] = include_bytes!("../../../crates/rv64_replay/data/rv64.bin");
const RV64_RULES: &[u8] = include_bytes!("../../../crates/rv64_replay/data/rv64_rules.bin");
const A64: &[u8] = include_bytes!("../../../crates/a64_replay/data/a64.bin");
const A64_RULES: &[u8] = include_bytes!("../../../crates/a64_replay/data/a64_rules.bin");

fn replay_rv64(cases: &[Rv64Case]) {
    let mut differences = 0;
    for case in cases {
        let mut registers = case.before;
        let answer = rv64_run(&case.guest, case.pc, case.limit, case.ignore_ebreak, &mut registers);
        if (answer, registers) != (case.answer, case.after) {
            differences += 1;
            println!(
                "{:02x?} at {:x}: {answer:x?}, recorded {:x?}",
                case.guest, case.pc, case.answer
            );
        }
    }
    assert_eq!(differences, 0);
}

#[test]
fn rv64() {
    let cases = rv64_cases(RV64);
    assert!(cases.len() >= 20_000);
    replay_rv64(&cases);
}

#[test]
fn rv64_by_rules() {
    let cases = rv64_rules(RV64_RULES);
    assert!(cases.len() >= 100);
    replay_rv64(&cases);
}

fn replay_a64(cases: &[A64Case]) {
    let mut differences = 0;
    for case in cases {
        let mut state = case.before;
        let mut memory = case.memory_before.clone();
        let answer =
            a64_run(&case.block, case.address, &mut state, case.budget, &mut memory, case.base);
        if (answer, state) != (case.answer, case.after) || memory != case.memory_after {
            differences += 1;
            println!(
                "{:02x?} at {:x}: {answer:x?}, recorded {:x?}",
                case.block, case.address, case.answer
            );
        }
    }
    assert_eq!(differences, 0);
}

#[test]
fn a64() {
    let cases = a64_cases(A64);
    assert!(cases.len() >= 20_000);
    replay_a64(&cases);
}

#[test]
fn a64_rules() {
    let cases = a64_cases(A64_RULES);
    assert!(cases.len() >= 400);
    replay_a64(&cases);
}

/// Each run cut after one of its words, and gone on with there: it ends as recorded.
#[test]
fn a64_in_two_parts() {
    let cases = a64_cases(A64).into_iter().chain(a64_cases(A64_RULES));
    for (number, case) in cases.enumerate() {
        let A64Case { ref block, address, budget, base, mut before, .. } = case;
        let A64Answer { end, steps, .. } = case.answer;
        let cuts = if end < RETURNED { steps + 1 } else { steps };
        let first = number as u64 % cuts;
        let mut memory = case.memory_before.clone();
        let cut = a64_run(block, address, &mut before, first, &mut memory, base);
        assert_eq!(cut.steps, first);
        let rest =
            a64_run_from(block, address, first, &mut before, budget - first, &mut memory, base);
        assert_eq!(rest, A64Answer { steps: steps - first, ..case.answer }, "{block:02x?} {first}");
        assert_eq!((before, &memory), (case.after, &case.memory_after), "{block:02x?} {first}");
    }
}
