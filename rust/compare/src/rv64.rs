//! RV64 run against the plain stepper: refusals, count, next PC, registers.

use crate::{question, Compared, Zbb};
use draw::guest::Guests;
use draw::values::{registers, value};
use draw::Random;
use hilofanur::{boundary, Registers};
use steppers::rv64_run;

#[derive(Default)]
pub struct Rv64 {
    guests: Guests,
    zbb: Zbb,
}

const REFUSALS: [u32; 5] = [0, 2, 3, 4, 5];

impl Compared for Rv64 {
    const NAME: &'static str = "rv64_run";
    const OUTCOMES: &'static [&'static str] = &[
        "accepted",
        "refused 2",
        "refused 3",
        "refused 4",
        "refused 5",
        "accepted, register 0 not 0",
    ];

    fn compare(&mut self, random: &mut Random) -> Result<usize, String> {
        let case = self.guests.case(random);
        let (guest, _) = question(&case);
        let before = registers(|| value(random));
        let mut registers = before;
        let expected =
            rv64_run(guest.bytes, guest.pc, guest.limit, guest.ignore_ebreak, &mut registers);
        let mut lent = Registers { x: before }.to_bytes();
        let answer = boundary::rv64_run(&guest, &mut lent);
        let numbers = (expected.refusal, expected.count, expected.next_pc);
        if (answer.refusal, answer.count, answer.next_pc) != numbers
            || lent != (Registers { x: registers }).to_bytes()
        {
            let after = Registers::from_bytes(&lent).x;
            return Err(format!(
                "{case:x?} from {before:x?}: {answer:x?} {after:x?}, the stepper {expected:x?} {registers:x?}"
            ));
        }
        self.zbb.take(&case.guest, expected.count);
        if expected.refusal == 0 && before[0] != 0 {
            return Ok(5);
        }
        Ok(REFUSALS.iter().position(|&number| number == expected.refusal).unwrap())
    }

    fn zbb(&self) -> Option<&Zbb> {
        Some(&self.zbb)
    }
}
