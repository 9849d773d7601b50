//! What is expected of blocks that reach Zbb: their words run by the plain A64 stepper do what the plain RV64 stepper
//! does, and each instruction's words are as many as document 02 allows.

use draw::case::HELPER;
use draw::forms::encode;
use draw::guest::Guests;
use draw::values::value;
use draw::zbb::{kinds, FORMS};
use draw::{longest, Case, Random, LONGEST};
use oracle::expected;
use steppers::{a64_run, rv64_run, A64State, CALLED, RETURNED};

const SLOTS: u64 = 0x10_0000;

/// The block of a question, as bytes, its count and end kind; none where it is refused.
fn block(case: &Case) -> Option<(Vec<u8>, u32, u32)> {
    let mut output = vec![0; LONGEST];
    let answer = expected(case, &mut output);
    output.truncate(answer.length as usize);
    (answer.refusal == 0).then_some((output, answer.count, answer.end))
}

/// Runs the words with these registers in the slots, anything in slot 0: X0, X1 and slots 1 to 31 at the return or the
/// call.
fn run_words(
    words: &[u8],
    slot_offset: u64,
    registers: &[u64; 32],
    end: u32,
) -> (u64, u64, Vec<u64>) {
    let mut memory: Vec<u8> = registers.iter().flat_map(|x| x.to_le_bytes()).collect();
    memory.extend([0; 16]);
    let mut state = A64State { x: [7; 31], sp: SLOTS + 272, nzcv: 0 };
    state.x[0] = SLOTS - slot_offset;
    let ran = a64_run(words, 0x4000, &mut state, u64::MAX, &mut memory, SLOTS);
    assert_eq!(ran.end, if end == HELPER { CALLED } else { RETURNED }, "{words:02x?}");
    let slots = memory[8..256].as_chunks().0.iter().map(|&bytes| u64::from_le_bytes(bytes));
    (state.x[0], state.x[1], slots.collect())
}

/// A block's words beside the guest's instructions.
fn compare(random: &mut Random, case: &Case, (words, count, end): (&[u8], u32, u32)) {
    let before: [u64; 32] = std::array::from_fn(|_| value(random));
    let mut registers = before;
    let ran = rv64_run(&case.guest, case.pc, case.limit, case.ignore_ebreak, &mut registers);
    let (x0, x1, slots) = run_words(words, case.slot_offset, &before, end);
    assert_eq!(slots, registers[1..], "{case:x?}");
    assert_eq!(ran.count, if end == HELPER { count - 1 } else { count }, "{case:x?}");
    if end != HELPER {
        assert_eq!((x0, x1), (ran.next_pc, count.into()), "{case:x?}");
    }
}

#[test]
fn words_do_as_the_isa_says() {
    let (guests, mut random) = (Guests::default(), Random(1));
    let (mut met, mut blocks) = ([0; FORMS.len()], 0);
    while blocks < 20_000 {
        let case = guests.case(&mut random);
        let Some((words, count, end)) = block(&case) else { continue };
        assert!(words.len() <= longest(case.limit), "{case:x?}");
        let kinds = kinds(&case.guest, count);
        if kinds.is_empty() {
            continue;
        }
        compare(&mut random, &case, (&words, count, end));
        kinds.into_iter().for_each(|kind| met[kind] += 1);
        blocks += 1;
    }
    assert!(met.iter().all(|&number| number > 500), "{met:?}");
}

/// Each instruction alone, on many values.
#[test]
fn each_alone() {
    let mut random = Random(2);
    for (_, form) in FORMS {
        for _ in 0..2_000 {
            let case = Case::new(&encode(form, random.pattern()).to_le_bytes(), 1);
            let (words, count, end) = block(&case).unwrap();
            compare(&mut random, &case, (&words, count, end));
        }
    }
}

/// The words of each, with operands and rd that are not 0: 30 at the most.
#[test]
fn how_many_words() {
    let words = FORMS.map(|(name, form)| {
        let instr = encode(form, 5 << 7 | 6 << 15 | 7 << 20);
        let (block, ..) = block(&Case::new(&instr.to_le_bytes(), 1)).unwrap();
        (name, block.len() / 4 - 3)
    });
    let expected = [4, 4, 4, 3, 8, 8, 11, 28, 30, 5, 5, 5, 5, 5, 5, 4, 5, 14, 4, 4, 14, 14, 16, 3];
    assert_eq!(words.map(|(_, number)| number), expected, "{words:?}");
}
