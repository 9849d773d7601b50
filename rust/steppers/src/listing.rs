//! The listing: a line for each word of a block, its text by the Arm Architecture Reference Manual.
//! Plain, exact pushes: each text is copied at its own length, each number written by its digits.

#[derive(Clone, Copy, Debug, Default, PartialEq, Eq)]
pub struct ListAnswer {
    pub refusal: u64,
    /// The bytes of the lines.
    pub length: u64,
    /// Beside refusal 13 the byte offset of a word outside the forms.
    pub offset: u64,
}

pub(crate) const fn refused(refusal: u64) -> ListAnswer {
    ListAnswer { refusal, length: 0, offset: 0 }
}

/// The words of a block, unless refusal 12 applies.
pub(crate) fn words(block: &[u8]) -> Option<&[[u8; 4]]> {
    let (words, rest) = block.as_chunks();
    (rest.is_empty() && block.len() as u64 <= 1 << 32).then_some(words)
}

/// Writes a line for each word at the front of `output`; two passes, as a refusal leaves the output as it was.
pub fn list(block: &[u8], output: &mut [u8]) -> ListAnswer {
    let Some(words) = words(block) else { return refused(12) };
    let mut length = Length(0);
    for (n, &word) in words.iter().enumerate() {
        if !line(4 * n as u32, u32::from_le_bytes(word), &mut length) {
            return ListAnswer { offset: 4 * n as u64, ..refused(13) };
        }
    }
    let Some(output) = output.get_mut(..length.0) else { return refused(14) };
    let mut rest = Output(output);
    for (n, &word) in words.iter().enumerate() {
        line(4 * n as u32, u32::from_le_bytes(word), &mut rest);
    }
    ListAnswer { refusal: 0, length: length.0 as u64, offset: 0 }
}

/// Takes the texts of a line, one after the other.
trait Sink {
    fn push(&mut self, text: &[u8]) -> &mut Self;

    #[inline(always)]
    fn hexadecimal(&mut self, n: u32) -> &mut Self {
        for shift in [28, 24, 20, 16, 12, 8, 4, 0] {
            self.push(&[b"0123456789abcdef"[(n >> shift & 15) as usize]]);
        }
        self
    }

    /// A number below 100,000.
    #[inline(always)]
    fn decimal(&mut self, n: u32) -> &mut Self {
        for unit in [10_000, 1_000, 100, 10, 1] {
            if n >= unit || unit == 1 {
                self.push(&[b'0' + (n / unit % 10) as u8]);
            }
        }
        self
    }

    #[inline(always)]
    fn x(&mut self, r: u32) -> &mut Self {
        match r {
            31 => self.push(b"xzr"),
            _ => self.push(b"x").decimal(r),
        }
    }

    /// The registers of a three-register word.
    #[inline(always)]
    fn three(&mut self, word: u32) -> &mut Self {
        self.x(word & 31).push(b", ").x(word >> 5 & 31).push(b", ").x(word >> 16 & 31)
    }
}

struct Length(usize);

impl Sink for Length {
    #[inline(always)]
    fn push(&mut self, text: &[u8]) -> &mut Self {
        self.0 += text.len();
        self
    }
}

/// The output after what is written.
struct Output<'a>(&'a mut [u8]);

impl Sink for Output<'_> {
    #[inline(always)]
    fn push(&mut self, text: &[u8]) -> &mut Self {
        let (front, rest) = std::mem::take(&mut self.0).split_at_mut(text.len());
        front.copy_from_slice(text);
        self.0 = rest;
        self
    }
}

/// Pushes a word's line; false if the word is outside the forms.
#[inline(always)]
fn line(offset: u32, word: u32, sink: &mut impl Sink) -> bool {
    let (rd, rn, cond) = (word & 31, word >> 5 & 31, word >> 12 & 15);
    let (imm12, imm16, shift) = (word >> 10 & 0xFFF, word >> 5 & 0xFFFF, word >> 17 & 0x30);
    let low = word & 0x00E0_FC00; // all but the registers of a three-register word

    sink.hexadecimal(offset).push(b" ").hexadecimal(word).push(b" ");
    let text = match word >> 24 {
        0x8B if low == 0 => sink.push(b"add ").three(word).push(b", lsl #0"),
        0xCB if low == 0 => sink.push(b"sub ").three(word).push(b", lsl #0"),
        0x8A if low == 0 => sink.push(b"and ").three(word).push(b", lsl #0"),
        0xAA if low == 0 => sink.push(b"orr ").three(word).push(b", lsl #0"),
        0xCA if low == 0 => sink.push(b"eor ").three(word).push(b", lsl #0"),
        0x8A if low == 0x20_0000 => sink.push(b"bic ").three(word).push(b", lsl #0"),
        0xAA if low == 0x20_0000 => sink.push(b"orn ").three(word).push(b", lsl #0"),
        0xCA if low == 0x20_0000 => sink.push(b"eon ").three(word).push(b", lsl #0"),
        0xEB if low == 0 && rd == 31 => sink.push(b"subs ").three(word).push(b", lsl #0"),
        0x9A => match low {
            0xC0_2000 => sink.push(b"lslv ").three(word),
            0xC0_2400 => sink.push(b"lsrv ").three(word),
            0xC0_2800 => sink.push(b"asrv ").three(word),
            0xC0_2C00 => sink.push(b"rorv ").three(word),
            0xC0_0800 => sink.push(b"udiv ").three(word),
            0xC0_0C00 => sink.push(b"sdiv ").three(word),
            _ if low & 0xE0_0C00 == 0x80_0000 => {
                let (conditions, _) = b"eqnecsccmiplvsvchilsgeltgtlealnv".as_chunks::<2>();
                sink.push(b"csel ").three(word).push(b", ").push(&conditions[cond as usize])
            }
            _ => return false,
        },
        0x9B => match low {
            0x00_7C00 => sink.push(b"madd ").three(word).push(b", xzr"),
            0x40_7C00 => sink.push(b"smulh ").three(word),
            0xC0_7C00 => sink.push(b"umulh ").three(word),
            _ => return false,
        },
        0xDA if word & 0xFF_FC00 == 0xC0_0C00 => sink.push(b"rev ").x(rd).push(b", ").x(rn),
        0xDA if word & 0xFF_FC00 == 0xC0_1000 => sink.push(b"clz ").x(rd).push(b", ").x(rn),
        0x93 if word & 0xFF_FC00 == 0x40_7C00 => {
            sink.push(b"sbfm ").x(rd).push(b", ").x(rn).push(b", #0, #31")
        }
        0xD2 if word & 0x80_0000 != 0 => {
            sink.push(b"movz ").x(rd).push(b", #").decimal(imm16).push(b", lsl #").decimal(shift)
        }
        0xF2 if word & 0x80_0000 != 0 => {
            sink.push(b"movk ").x(rd).push(b", #").decimal(imm16).push(b", lsl #").decimal(shift)
        }
        0x91 if word & 0xC0_03FF == 0x03FF => {
            sink.push(b"add sp, sp, #").decimal(imm12).push(b", lsl #0")
        }
        0xD1 if word & 0xC0_03FF == 0x03FF => {
            sink.push(b"sub sp, sp, #").decimal(imm12).push(b", lsl #0")
        }
        0xF9 if word & 0x80_0000 == 0 => {
            sink.push(if word & 0x40_0000 == 0 { b"str " } else { b"ldr " }).x(rd).push(b", [");
            let base = if rn == 31 { sink.push(b"sp") } else { sink.x(rn) };
            base.push(b", #").decimal(8 * imm12).push(b"]")
        }
        0xD6 if word == 0xD65F_03C0 => sink.push(b"ret x30"),
        0xD6 if word & 0xFF_FC1F == 0x3F_0000 => sink.push(b"blr ").x(rn),
        _ => return false,
    };
    text.push(b"\n");
    true
}
