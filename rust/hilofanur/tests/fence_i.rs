//! Document 02, No. 3: FENCE.I ends a block, FENCE does not. Words, counts and next PCs worked out by hand.

use draw::words;
use hilofanur::boundary::{self, Rv64RunAnswer, TranslateAnswer};
use hilofanur::EndKind::{self, Drop, Helper, Plain};
use hilofanur::{a64_run, rv64_run, A64State, End, Guest, Host, Memory, Refusal, Registers, Words};

const HOST: Host =
    Host { slot_offset: 0, memory_helper: 0x10000, helper32: 0x20000, helper16: 0x30000 };
const FENCE_I: &[u8] = &[0x0F, 0x10, 0x00, 0x00];
const FENCE: &[u8] = &[0x0F, 0x00, 0xF0, 0x0F];
const NOP: &[u8] = &[0x01, 0x00];
/// c.li a0, -1; its words store into slot 10.
const LI: &[u8] = &[0x7D, 0x55];
const LI_WORDS: [u32; 5] = [0xD29F_FFEB, 0xF2BF_FFEB, 0xF2DF_FFEB, 0xF2FF_FFEB, 0xF900_280B];
/// c.lw x8, 0(x8): a helper instruction.
const LW: &[u8] = &[0x00, 0x40];
/// Uncovered after the first, with two words left over: document 01's row 5.
const LEAVES: &[u8] = &[0x41, 0x9C];
const LEFT: [u32; 2] = [0xF940_2009, 0xF940_200A];
/// Count 1 and 2 into X1, RET.
const ONE: [u32; 2] = [0xD280_0021, 0xD65F_03C0];
const TWO: [u32; 2] = [0xD280_0041, 0xD65F_03C0];
const FILL: u8 = 0xA5;

fn guest(bytes: &[u8], pc: u64, limit: u32) -> Guest<'_> {
    Guest { bytes, pc, limit, ignore_ebreak: false }
}

/// A block without a helper: what it starts at, its limit, what is found.
struct Row {
    bytes: Vec<u8>,
    pc: u64,
    limit: u32,
    end: EndKind,
    count: u32,
    next_pc: u64,
    words: Vec<u32>,
}

/// At 0x1000; `words` are parts of the block.
fn row(
    bytes: &[&[u8]],
    limit: u32,
    (end, count, next_pc): (EndKind, u32, u64),
    words: &[&[u32]],
) -> Row {
    Row { bytes: bytes.concat(), pc: 0x1000, limit, end, count, next_pc, words: words.concat() }
}

impl Row {
    /// Translated in ample room and in just enough, refused in a byte less.
    fn translated(&self) {
        let guest = guest(&self.bytes, self.pc, self.limit);
        let length = 4 * self.words.len();
        let numbers = (length as u32, self.count, self.end.number());
        for room in [length, length + 1, 4_096] {
            let mut output = vec![FILL; room];
            let a = boundary::translate(&guest, &HOST, &mut output);
            assert_eq!((a.refusal, (a.length, a.count, a.end)), (0, numbers), "{guest:x?} {room}");
            assert_eq!(words(&output[..length]), self.words, "{guest:x?}");
            assert!(output[length..].iter().all(|&byte| byte == FILL), "{guest:x?}");
        }
        let mut output = vec![FILL; length - 1];
        let refused = TranslateAnswer { refusal: 6, ..TranslateAnswer::default() };
        assert_eq!(boundary::translate(&guest, &HOST, &mut output), refused, "{guest:x?}");
        assert_eq!(output, vec![FILL; length - 1]);
    }

    /// The RV64 run of the bytes and the A64 run of the words come to the same count, next PC and registers.
    fn run(&self) {
        let guest = guest(&self.bytes, self.pc, self.limit);
        let mut registers = Registers { x: std::array::from_fn(|n| n as u64) };
        let mut slots = registers.to_bytes();
        let ran = rv64_run(&guest, &mut registers).unwrap();
        assert_eq!((ran.count, ran.next_pc), (self.count, self.next_pc), "{guest:x?}");
        let a0 = if self.words.starts_with(&LI_WORDS) { u64::MAX } else { 10 };
        assert_eq!(registers.x, std::array::from_fn(|n| if n == 10 { a0 } else { n as u64 }));

        let block: Vec<u8> = self.words.iter().flat_map(|word| word.to_le_bytes()).collect();
        let (mut state, budget) = (A64State::default(), self.words.len() as u64);
        let words = Words { bytes: &block, address: 0x4000 };
        let memory = Memory { bytes: &mut slots, base: 0 };
        let run = a64_run(words, &mut state, budget, memory).unwrap();
        assert_eq!((run.end, run.steps), (End::Returned, budget), "{guest:x?}");
        assert_eq!((state.x[0], state.x[1]), (self.next_pc, self.count.into()), "{guest:x?}");
        assert_eq!(slots, registers.to_bytes(), "{guest:x?}");
    }

    fn hold(&self) {
        self.translated();
        self.run();
    }
}

/// First, in the middle, with code after it that would have more words; a second one is not reached.
#[test]
fn ends_a_block() {
    for limit in [1, 2, 63, 64, 65, u32::MAX] {
        for after in [&[][..], LI, LW, LEAVES, FENCE_I, &[0x0F], &[0x73, 0, 0, 0]] {
            row(&[FENCE_I, after], limit, (Drop, 1, 0x1004), &[&[0xD282_0080], &ONE]).hold();
        }
    }
    for limit in [3, 64] {
        for after in [&[][..], LI, LW, LEAVES, FENCE_I] {
            let guest = [LI, FENCE_I, after];
            row(&guest, limit, (Drop, 2, 0x1006), &[&LI_WORDS, &[0xD282_00C0], &TWO]).hold();
        }
    }
}

/// As the limit's last it is a drop too; one instruction beyond the limit it is not reached.
#[test]
fn at_the_limit() {
    let li = [LI, FENCE_I, LI];
    row(&li, 2, (Drop, 2, 0x1006), &[&LI_WORDS, &[0xD282_00C0], &TWO]).hold();
    row(&li, 1, (Plain, 1, 0x1002), &[&LI_WORDS, &[0xD282_0040], &ONE]).hold();
    for limit in [64, 65, u32::MAX] {
        // 62, 63 and 64 C.NOP before it.
        let counted = |nops: usize| [&NOP.repeat(nops)[..], FENCE_I, LI].concat();
        let (pc, count) = (0xD282_1000, 0xD280_07E1);
        row(&[&counted(62)], limit, (Drop, 63, 0x1080), &[&[pc, count, ONE[1]]]).hold();
        let (pc, count) = (0xD282_1040, 0xD280_0801);
        row(&[&counted(63)], limit, (Drop, 64, 0x1082), &[&[pc, count, ONE[1]]]).hold();
        let (pc, count) = (0xD282_1000, 0xD280_0801);
        row(&[&counted(64)], limit, (Plain, 64, 0x1080), &[&[pc, count, ONE[1]]]).hold();
    }
}

/// Opcode and funct3 alone make FENCE.I and FENCE; with another funct3 MISC-MEM is not covered.
#[test]
fn fields() {
    let others = (7..12).chain(15..32).map(|bit| 1 << bit);
    for fields in others.chain([0, 0xFFFF_8F80_u32, 0x0FF0_0000]) {
        let fence = (0x0000_000F | fields).to_le_bytes();
        let fence_i = (0x0000_100F | fields).to_le_bytes();
        row(&[&fence_i, LI], 64, (Drop, 1, 0x1004), &[&[0xD282_0080], &ONE]).hold();
        row(&[&fence, NOP], 64, (Plain, 2, 0x1006), &[&[0xD282_00C0], &TWO]).hold();
        row(&[&fence, &fence_i, LI], 64, (Drop, 2, 0x1008), &[&[0xD282_0100], &TWO]).hold();
        for funct3 in 2..8 {
            let uncovered = (0x0000_000F | funct3 << 12 | fields).to_le_bytes();
            row(&[NOP, &uncovered], 64, (Plain, 1, 0x1002), &[&[0xD282_0040], &ONE]).hold();
        }
    }
}

/// What ends a block before FENCE.I: a jump, an uncovered instruction with its words left over, its own missing
/// bytes.
#[test]
fn not_reached() {
    // c.j 2
    let jump: &[u8] = &[0x09, 0xA0];
    row(&[jump, FENCE_I], 64, (Plain, 1, 0x1002), &[&[0xD282_0040], &ONE]).hold();
    let left = [NOP, LEAVES, FENCE_I];
    row(&left, 64, (Plain, 1, 0x1002), &[&LEFT, &[0xD282_0040], &ONE]).hold();
    for length in 0..4 {
        let cut = [NOP, &FENCE_I[..length]];
        row(&cut, 64, (Plain, 1, 0x1002), &[&[0xD282_0040], &ONE]).hold();
        let guest = guest(&FENCE_I[..length], 0x1000, 64);
        let a = boundary::translate(&guest, &HOST, &mut [0; 64]);
        assert_eq!(a, TranslateAnswer { refusal: 4, ..TranslateAnswer::default() });
        let mut registers = [0; 256];
        let ran = boundary::rv64_run(&guest, &mut registers);
        assert_eq!(ran, Rv64RunAnswer { refusal: 4, ..Rv64RunAnswer::default() });
    }
}

/// The next PC passes from the top of 64 bits to zero.
#[test]
fn at_the_top() {
    let top = row(&[FENCE_I, LI], 64, (Drop, 1, 0), &[&[0xD280_0000], &ONE]);
    Row { pc: u64::MAX - 3, ..top }.hold();
    let top = row(&[NOP, FENCE_I], 64, (Drop, 2, 2), &[&[0xD280_0040], &TWO]);
    Row { pc: u64::MAX - 3, ..top }.hold();
}

/// After a helper instruction it is not reached: the block is that of the bytes before it. FENCE and C.NOP before a
/// helper instruction are.
#[test]
fn after_a_helper() {
    // ld x8, 0(x8), and the C.LW
    for helper in [&[0x03, 0x34, 0x04, 0x00], LW] {
        for (before, prefix) in [(&[][..], 0), (NOP, 1), (FENCE, 1)] {
            let bytes = [before, helper, FENCE_I].concat();
            let [mut whole, mut cut] = [[FILL; 128]; 2];
            let a = boundary::translate(&guest(&bytes, 0x1000, 64), &HOST, &mut whole);
            assert_eq!((a.refusal, a.count, a.end), (0, prefix + 1, Helper.number()));
            let bytes_before = &bytes[..bytes.len() - FENCE_I.len()];
            let other = boundary::translate(&guest(bytes_before, 0x1000, 64), &HOST, &mut cut);
            assert_eq!((a, whole), (other, cut));
            let ran = rv64_run(&guest(&bytes, 0x1000, 64), &mut Registers::default());
            match prefix {
                0 => assert_eq!(ran, Err(Refusal::NotCovered)),
                _ => assert_eq!(ran.unwrap().next_pc, 0x1000 + before.len() as u64),
            }
        }
    }
}
