//! A64 run from, and A64 run where it begins at word 0, against the plain stepper: refusals, end, steps, state, memory.

use crate::Compared;
use draw::a64::{A64Case, A64Cases};
use draw::{Random, LONGEST};
use hilofanur::boundary::{self, A64RunAnswer};
use oracle::expected;
use steppers::{a64_run_from, A64Answer, A64State};

pub struct A64 {
    cases: A64Cases,
    /// A translation's output.
    output: Vec<u8>,
}

impl Default for A64 {
    fn default() -> A64 {
        A64 { cases: A64Cases::default(), output: vec![0; LONGEST] }
    }
}

/// The end by where the run began, at word 0 or inside; beyond the last word; the refusal.
fn outcome(answer: &A64Answer, case: &A64Case) -> usize {
    match answer.refusal {
        0 if case.first == 0 => answer.end as usize - 1,
        0 if case.first < case.block.len() as u64 / 4 => answer.end as usize + 5,
        0 => 12,
        refusal => refusal as usize + 3,
    }
}

/// The library's answer, with the state and the memory that it leaves.
type Ran = (A64RunAnswer, [u8; 264], Vec<u8>);

/// By A64 run from and, at word 0, by A64 run.
fn library(case: &A64Case, state: &A64State) -> Vec<Ran> {
    let &A64Case { ref block, address, first, budget, ref memory, base, .. } = case;
    let (mut state, mut lent) = (state.to_bytes(), memory.clone());
    let mut ran = Vec::new();
    if first == 0 {
        let (mut state, mut lent) = (state, lent.clone());
        let answer = boundary::a64_run(block, address, &mut state, budget, &mut lent, base);
        ran.push((answer, state, lent));
    }
    let answer = boundary::a64_run_from(block, address, first, &mut state, budget, &mut lent, base);
    ran.push((answer, state, lent));
    ran
}

impl Compared for A64 {
    const NAME: &'static str = "a64_run";
    const OUTCOMES: &'static [&'static str] = &[
        "off the end",
        "spent",
        "unreadable",
        "fault",
        "returned",
        "called",
        "from inside: off the end",
        "from inside: spent",
        "from inside: unreadable",
        "from inside: fault",
        "from inside: returned",
        "from inside: called",
        "from beyond the last",
        "refused 10",
        "refused 11",
    ];

    fn compare(&mut self, random: &mut Random) -> Result<usize, String> {
        let case = self.cases.case(random, |case| {
            let answer = expected(case, &mut self.output);
            self.output[..answer.length as usize].to_vec()
        });
        let A64Case { ref block, address, first, x, sp, nzcv, budget, base, .. } = case;
        let before = A64State { x, sp, nzcv };
        let (mut state, mut memory) = (before, case.memory.clone());
        let expected = a64_run_from(block, address, first, &mut state, budget, &mut memory, base);
        let A64Answer { refusal, end, steps } = expected;
        let numbers = A64RunAnswer { refusal, end, steps };
        for (answer, bytes, lent) in library(&case, &before) {
            let same_memory = lent == memory;
            if answer != numbers || bytes != state.to_bytes() || !same_memory {
                let after = hilofanur::A64State::from_bytes(&bytes);
                return Err(format!(
                    "{case:x?}: {answer:x?} {after:x?}, the stepper {expected:x?} {state:x?}, memory the same: {same_memory}"
                ));
            }
        }
        Ok(outcome(&expected, &case))
    }
}
