//! Guest code: instructions of the forms, and streams of them.

use crate::class::{first, Class};
use crate::forms::{self, encode, Form, FENCE, FENCE_I, LEFTOVER};
use crate::{zbb, Random};

const DIV: Form = (0x0200_4033, 0xFE00_707F);
const REM: Form = (0x0200_6033, 0xFE00_707F);
const CPOPW: Form = (0x6020_101B, 0xFFF0_707F);

/// The instruction's bytes.
fn bytes(instr: u32) -> Vec<u8> {
    let size = if instr & 3 == 3 { 4 } else { 2 };
    instr.to_le_bytes()[..size].to_vec()
}

/// An instruction of the form, its free fields at the edges or anywhere.
pub fn instruction(random: &mut Random, form: Form) -> Vec<u8> {
    let mut free = random.pattern();
    if random.below(5) == 0 {
        free &= !0xf80;
    }
    if random.below(5) == 0 {
        free |= random.pick(&[1, 2, 31]) << 7;
    }
    bytes(encode(form, free))
}

/// A helper's instruction of the form; of 32 bits now and then with an immediate at an edge, rs1 or rs2 0.
fn helper_instruction(random: &mut Random, form: Form) -> Vec<u8> {
    let mut instr = instruction(random, form);
    let edge: u32 = random.pick(&[0, 1, 0x7ff, 0x800, 0xfff]);
    let (fields, values) = match random.below(8) {
        0 => (0xfff << 20, edge << 20),
        1 => (0x7f << 25 | 31 << 7, edge >> 5 << 25 | (edge & 31) << 7),
        2 => (31 << 15, 0),
        3 => (31 << 20, 0),
        _ => (0, 0),
    };
    if let Some(word) = instr.first_chunk_mut() {
        *word = (u32::from_le_bytes(*word) & !fields | values).to_le_bytes();
    }
    instr
}

/// Draws until an instruction is of one of the classes.
fn of_class(classes: &[Class], ignore_ebreak: bool, mut draw: impl FnMut() -> Vec<u8>) -> Vec<u8> {
    loop {
        let instr = draw();
        if first(&instr, ignore_ebreak).is_some_and(|(found, _)| classes.contains(&found)) {
            return instr;
        }
    }
}

/// An instruction after which a block goes on, or FENCE.I, after which the Rust's does.
pub fn next_instruction(random: &mut Random, forms: &[Form]) -> Vec<u8> {
    of_class(&[Class::Next, Class::FenceI], false, || {
        let form = random.pick(forms);
        instruction(random, form)
    })
}

/// `many` instructions after which a block goes on, or the Rust's, then one of any kind.
pub fn stream(random: &mut Random, many: usize, forms: &[Form], last: &[Form]) -> Vec<u8> {
    let mut guest = Vec::with_capacity(4 * many + 4);
    for _ in 0..many {
        guest.extend(next_instruction(random, forms));
    }
    let form = random.pick(last);
    guest.extend(instruction(random, form));
    guest
}

/// Draws guest code of every form.
pub struct Guests {
    /// Document 01's inline forms, and these with Zbb's.
    base: Vec<Form>,
    pub(crate) inline: Vec<Form>,
    pub(crate) all: Vec<Form>,
}

impl Default for Guests {
    fn default() -> Guests {
        let (base, zbb) = (forms::inline(), zbb::forms());
        let inline = [&base[..], &zbb].concat();
        Guests { base, inline, all: [&forms::all()[..], &zbb, &zbb::NEAR].concat() }
    }
}

impl Guests {
    /// An instruction after which a block goes on, or the Rust's; half the time one of those with the most words.
    fn repeated(&self, random: &mut Random) -> Vec<u8> {
        let forms = if random.below(2) == 0 { &[DIV, REM, CPOPW] } else { &self.inline[..] };
        next_instruction(random, forms)
    }

    /// Code around FENCE.I, which is one of the first instructions or about the 64th. Now and then another one, FENCE
    /// or leftover words are beside it, or a helper's instruction ends the block before it.
    fn fenced(&self, random: &mut Random) -> Vec<u8> {
        let before = if random.below(6) == 0 { 61 + random.below(5) } else { random.below(4) };
        let mut guest = Vec::new();
        for _ in 0..before {
            guest.extend(next_instruction(random, &self.inline));
        }
        let forms = match random.below(16) {
            0 | 1 => vec![FENCE, FENCE_I],
            2 | 3 => vec![FENCE_I, FENCE],
            4 | 5 => vec![FENCE_I, FENCE_I],
            6 | 7 => vec![FENCE_I, random.pick(&LEFTOVER)],
            8 => vec![random.pick(&LEFTOVER), FENCE_I],
            9 => vec![random.pick(&forms::helper()), FENCE_I],
            _ => vec![FENCE_I],
        };
        for form in forms {
            guest.extend(instruction(random, form));
        }
        let after = random.below(3);
        guest.extend(stream(random, after, &self.inline, &self.all));
        guest
    }

    /// Random bytes, or a stream, now and then cut or with a bit changed.
    pub fn guest(&self, random: &mut Random) -> Vec<u8> {
        let many = match random.below(32) {
            0 => 58 + random.below(10),
            1..=9 => random.below(12),
            _ => random.below(4),
        };
        let mut guest = match random.below(16) {
            0 => random.bytes_below(33),
            1 => random.bytes_below(300),
            2 => self.repeated(random).repeat(58 + many),
            3 | 4 => self.fenced(random),
            5 | 6 => self.around_zbb(random),
            7..=11 => stream(random, many, &self.base, &self.all),
            _ => stream(random, many, &self.inline, &self.all),
        };
        match random.below(8) {
            0 => guest.truncate(random.below(guest.len() + 1)),
            1 => random.change_bit(&mut guest),
            _ => {}
        }
        guest
    }

    /// An inline instruction after which a block goes on.
    fn next(&self, random: &mut Random, ignore_ebreak: bool) -> Vec<u8> {
        of_class(&[Class::Next], ignore_ebreak, || {
            let form = random.pick(&self.inline);
            instruction(random, form)
        })
    }

    /// `many` inline instructions after which a block goes on, at times one `many` times; then a helper's of the
    /// form, and at times any bytes. Where the helper's begins.
    pub fn helped(
        &self,
        random: &mut Random,
        many: usize,
        form: Form,
        ignore_ebreak: bool,
    ) -> (Vec<u8>, usize) {
        let mut guest = match random.below(8) {
            0 => self.next(random, ignore_ebreak).repeat(many),
            _ => (0..many).flat_map(|_| self.next(random, ignore_ebreak)).collect(),
        };
        let at = guest.len();
        guest.extend(helper_instruction(random, form));
        if random.below(2) == 0 {
            guest.extend(random.bytes_below(9));
        }
        (guest, at)
    }

    /// An inline instruction of document 01's forms, of the class, its fields anywhere.
    fn plain(&self, random: &mut Random, class: Class) -> Vec<u8> {
        of_class(&[class], false, || {
            let form = random.pick(&self.base);
            bytes(encode(form, random.next() as u32))
        })
    }

    /// `many` inline instructions of all kinds after which a block goes on; their fields are anywhere.
    fn plain_straight(&self, random: &mut Random, many: usize) -> Vec<u8> {
        (0..many).flat_map(|_| self.plain(random, Class::Next)).collect()
    }

    /// A block of `length` inline instructions of all kinds, of which the last, a jump or a branch, ends it.
    pub fn plain_block(&self, random: &mut Random, length: usize) -> Vec<u8> {
        let mut guest = self.plain_straight(random, length - 1);
        guest.extend(self.plain(random, Class::Ends));
        guest
    }

    /// A block of `length` inline instructions of all kinds, of which the last is FENCE.I, with as many after it.
    pub fn plain_fenced(&self, random: &mut Random, length: usize) -> Vec<u8> {
        let mut guest = self.plain_straight(random, length - 1);
        guest.extend(bytes(encode(FENCE_I, random.next() as u32)));
        guest.extend(self.plain_block(random, length));
        guest
    }

    /// One inline instruction of any kind but FENCE.I, its fields anywhere; one in eight ends a block.
    pub fn plain_single(&self, random: &mut Random) -> Vec<u8> {
        let class = if random.below(8) == 0 { Class::Ends } else { Class::Next };
        self.plain(random, class)
    }
}

#[cfg(test)]
mod tests {
    use super::*;
    use crate::class;
    use crate::forms::HELPER_KINDS;

    /// The classes of the whole guest's instructions.
    fn classes(guest: &[u8]) -> Vec<Class> {
        let (mut at, mut classes) = (0, Vec::new());
        while let Some((class, size)) = first(&guest[at..], false) {
            classes.push(class);
            at += size;
        }
        assert_eq!(at, guest.len());
        classes
    }

    #[test]
    fn plain_blocks_end_with_their_last() {
        let (guests, mut random) = (Guests::default(), Random(1));
        for length in [1, 2, 8, 64] {
            let until = |last| [vec![Class::Next; length - 1], vec![last]].concat();
            let block = guests.plain_block(&mut random, length);
            assert_eq!(classes(&block), until(Class::Ends));
            let fenced = guests.plain_fenced(&mut random, length);
            assert_eq!(classes(&fenced), [until(Class::FenceI), until(Class::Ends)].concat());
        }
    }

    /// Each kind is its own, and all of them together are rule 4's forms.
    #[test]
    fn helpers_of_every_kind() {
        let mut random = Random(1);
        let kind = |instr: &[u8]| {
            let size = if instr[0] & 3 == 3 { 4 } else { 2 };
            let number = class::instruction(instr).unwrap();
            let is = |&(_, (value, fixed)): &(_, Form)| number & fixed == value;
            let found: Vec<usize> =
                (0..HELPER_KINDS.len()).filter(|&kind| is(&HELPER_KINDS[kind])).collect();
            assert_eq!((found.len(), instr.len()), (1, size), "{instr:x?}");
            found[0]
        };
        let mut met = [false; HELPER_KINDS.len()];
        for form in forms::helper() {
            (0..100).for_each(|_| met[kind(&instruction(&mut random, form))] = true);
        }
        assert_eq!(met, [true; HELPER_KINDS.len()]);
        for (number, (_, form)) in HELPER_KINDS.into_iter().enumerate() {
            for _ in 0..1_000 {
                let instr = helper_instruction(&mut random, form);
                assert_eq!(kind(&instr), number);
                assert_eq!(classes(&instr), [Class::Helper]);
            }
        }
    }
}
