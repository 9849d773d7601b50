//! Zbb in the RV64 stepper: each instruction beside the ISA's text read bit by bit, every encoding around it, and the
//! six A64 forms that its words take.

use draw::class::{class32, Class};
use draw::forms::encode;
use draw::values::value;
use draw::zbb::FORMS;
use draw::Random;
use steppers::{a64_run, rv64_run, A64State, Rv64Answer};

/// The number whose bit i is as `bit` says, for the low `width` of them.
fn number(width: u32, bit: impl Fn(u32) -> bool) -> u64 {
    (0..width).map(|i| u64::from(bit(i)) << i).sum()
}

/// The low `width` bits, extended by their sign.
fn extended(width: u32, x: u64) -> u64 {
    number(64, |i| x >> i.min(width - 1) & 1 == 1)
}

/// The low `width` bits with bit i taken from bit i + by, round and round.
fn rotated(width: u32, x: u64, by: u64) -> u64 {
    number(width, |i| x >> ((u64::from(i) + by) % u64::from(width)) & 1 == 1)
}

/// How many of the bits, in this order, are 0 before the first that is 1.
fn zeros(x: u64, bits: impl Iterator<Item = u32>) -> u64 {
    bits.take_while(|&i| x >> i & 1 == 0).count() as u64
}

/// What the ISA's text has of rs1 and rs2 or the number.
fn by_bits(name: &str, x: u64, y: u64) -> u64 {
    let bit = |number: u64, i: u32| number >> i & 1 == 1;
    // The greater one has the other sign's bit flipped first.
    let signed = |number: u64| number ^ 1 << 63;
    match name {
        "ANDN" => number(64, |i| bit(x, i) && !bit(y, i)),
        "ORN" => number(64, |i| bit(x, i) || !bit(y, i)),
        "XNOR" => number(64, |i| bit(x, i) == bit(y, i)),
        "CLZ" => zeros(x, (0..64).rev()),
        "CLZW" => zeros(x, (0..32).rev()),
        "CTZ" => zeros(x, 0..64),
        "CTZW" => zeros(x, 0..32),
        "CPOP" => (0..64).filter(|&i| bit(x, i)).count() as u64,
        "CPOPW" => (0..32).filter(|&i| bit(x, i)).count() as u64,
        "MAX" => [y, x][usize::from(signed(x) > signed(y))],
        "MAXU" => [y, x][usize::from(x > y)],
        "MIN" => [y, x][usize::from(signed(x) < signed(y))],
        "MINU" => [y, x][usize::from(x < y)],
        "SEXT.B" => extended(8, x),
        "SEXT.H" => extended(16, x),
        "ZEXT.H" => number(16, |i| bit(x, i)),
        "ROL" => rotated(64, x, 64 - y % 64),
        "ROLW" => extended(32, rotated(32, x, 32 - y % 32)),
        "ROR" | "RORI" => rotated(64, x, y % 64),
        "RORW" | "RORIW" => extended(32, rotated(32, x, y % 32)),
        "ORC.B" => number(64, |i| (i & !7..=i | 7).any(|i| bit(x, i))),
        "REV8" => number(64, |i| bit(x, i ^ 56)),
        _ => panic!("{name}"),
    }
}

/// Runs one instruction; the registers after it.
fn run(instr: u32, registers: [u64; 32]) -> (Rv64Answer, [u64; 32]) {
    let mut after = registers;
    let answer = rv64_run(&instr.to_le_bytes(), 0x1000, 1, false, &mut after);
    (answer, after)
}

#[test]
fn as_the_isa_has_them() {
    let (mut random, done) = (Random(7), Rv64Answer { refusal: 0, count: 1, next_pc: 0x1004 });
    for (name, form) in FORMS {
        for _ in 0..5_000 {
            let instr = encode(form, random.pattern());
            let before: [u64; 32] = std::array::from_fn(|_| value(&mut random));
            let field = |from: u32| (instr >> from & 31) as usize;
            let x = |r: usize| if r == 0 { 0 } else { before[r] };
            let y = match name {
                "RORI" => u64::from(instr >> 20 & 63),
                "RORIW" => field(20) as u64,
                _ => x(field(20)),
            };
            let mut expected = before;
            expected[field(7)] = by_bits(name, x(field(15)), y);
            expected[0] = 0;
            assert_eq!(run(instr, before), (done, expected), "{name} {instr:08x} {before:x?}");
        }
    }
}

/// Every number of funct3 and of the upper 12 bits, in all 32 opcodes of 32 bits.
#[test]
fn encodings() {
    let mut random = Random(8);
    for opcode in (3..128).step_by(4) {
        for high in 0..1 << 15 {
            let fields = random.next() as u32 & 0x000F_8F80;
            let instr = (high >> 3) << 20 | fields | (high & 7) << 12 | opcode;
            let covered = !matches!(class32(instr), Class::Uncovered | Class::Helper);
            let (answer, _) = run(instr, [7; 32]);
            assert_eq!(answer.refusal, if covered { 0 } else { 5 }, "{instr:08x}");
        }
    }
}

/// X11 after one word, with these in X9 and X10.
fn word(word: u32, x: u64, y: u64) -> u64 {
    let mut state = A64State { x: [7; 31], sp: 0, nzcv: 9 };
    (state.x[9], state.x[10]) = (x, y);
    let before = state;
    let answer = a64_run(&word.to_le_bytes(), 0, &mut state, 1, &mut [], 0);
    assert_eq!((answer.refusal, answer.steps), (0, 1));
    let value = std::mem::replace(&mut state.x[11], 7);
    assert_eq!(state, before, "{word:08x}");
    value
}

/// X11 from X9 and X10, by the rows of Zbb that have the same value.
#[test]
fn added_forms() {
    let words = [
        (0x8A2A_012B, "ANDN"),
        (0xAA2A_012B, "ORN"),
        (0xCA2A_012B, "XNOR"),
        (0x9ACA_2D2B, "ROR"),
        (0xDAC0_0D2B, "REV8"),
        (0xDAC0_112B, "CLZ"),
    ];
    let mut random = Random(9);
    for (bits, name) in words {
        for _ in 0..5_000 {
            let (x, y) = (value(&mut random), value(&mut random));
            assert_eq!(word(bits, x, y), by_bits(name, x, y), "{name} {x:x} {y:x}");
        }
    }
}
