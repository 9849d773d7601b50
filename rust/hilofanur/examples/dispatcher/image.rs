//! The guest program: an ELF64 file's segments, or a raw binary, in a flat memory.

use super::memory::Memory;

/// Room after the program, for the guest's stack.
const STACK: u64 = 0x1_0000;
/// The most memory that a program may ask for.
const MOST: u64 = 1 << 28;
const RISC_V: u64 = 243;
const LOAD: u64 = 1;

/// A program in memory, and where it starts.
pub struct Image {
    pub memory: Memory,
    pub entry: u64,
}

/// Bytes of the file and the address where they go; after them zeros, `size` bytes in all.
struct Segment<'a> {
    bytes: &'a [u8],
    address: u64,
    size: u64,
}

/// The little-endian number of `size` bytes at `at`.
fn number(file: &[u8], at: u64, size: u64) -> Result<u64, String> {
    let bytes = slice(file, at, size)?;
    Ok(bytes.iter().rev().fold(0, |number, &byte| number << 8 | u64::from(byte)))
}

fn slice(file: &[u8], at: u64, size: u64) -> Result<&[u8], String> {
    let end = at.checked_add(size).filter(|&end| end <= file.len() as u64);
    let end = end.ok_or(format!("the file ends before byte {at} + {size}"))?;
    Ok(&file[at as usize..end as usize])
}

/// The entry and the loaded segments of an ELF64 file for RISC-V.
fn elf(file: &[u8]) -> Result<(u64, Vec<Segment<'_>>), String> {
    let class = (number(file, 4, 1)?, number(file, 5, 1)?, number(file, 18, 2)?);
    if class != (2, 1, RISC_V) {
        return Err("not a little-endian ELF64 file for RISC-V".into());
    }
    let (entry, headers) = (number(file, 24, 8)?, number(file, 32, 8)?);
    let (size, many) = (number(file, 54, 2)?, number(file, 56, 2)?);
    let mut segments = Vec::new();
    for n in 0..many {
        let at = headers.saturating_add(n * size);
        let field = |offset, size| number(file, at.saturating_add(offset), size);
        if field(0, 4)? == LOAD {
            let bytes = slice(file, field(8, 8)?, field(32, 8)?)?;
            segments.push(Segment { bytes, address: field(16, 8)?, size: field(40, 8)? });
        }
    }
    Ok((entry, segments))
}

impl Image {
    /// Loads a file. A raw binary goes to `base` and starts there; an ELF file says where. `entry` overrides.
    pub fn load(file: &[u8], entry: Option<u64>, base: u64) -> Result<Image, String> {
        let (start, segments) = if file.starts_with(b"\x7fELF") {
            elf(file)?
        } else {
            (base, vec![Segment { bytes: file, address: base, size: file.len() as u64 }])
        };
        let first = segments.iter().map(|segment| segment.address).min();
        let first = first.ok_or("nothing to load")? & !0xFFF;
        let ends = segments.iter().map(|s| s.address.checked_add(s.size.max(s.bytes.len() as u64)));
        let end = ends.map(|end| end.unwrap_or(u64::MAX)).max().unwrap_or(first);
        let size = (end - first).saturating_add(STACK);
        if size > MOST || first.checked_add(size).is_none() {
            return Err(format!("a program of {size} bytes at {first:x}"));
        }
        let mut memory = Memory { base: first, bytes: vec![0; size as usize] };
        for segment in segments {
            let at = (segment.address - first) as usize;
            memory.bytes[at..at + segment.bytes.len()].copy_from_slice(segment.bytes);
        }
        Ok(Image { memory, entry: entry.unwrap_or(start) })
    }
}

#[cfg(test)]
mod tests {
    use super::*;

    const CENTROID: &[u8] = include_bytes!("../centroid/centroid");

    #[test]
    fn loads() {
        let image = Image::load(CENTROID, None, 0).unwrap();
        assert_eq!((image.entry, image.memory.base), (0x100E8, 0x10000));
        // The only segment is the front of the file.
        assert_eq!(image.memory.bytes[..0x4F8], CENTROID[..0x4F8]);
        let image = Image::load(&[1, 0], Some(0x2002), 0x2000).unwrap();
        assert_eq!((image.entry, image.memory.from(0x2000, 4)), (0x2002, &[1, 0, 0, 0][..]));
    }

    /// A file that is cut or changed anywhere is loaded or refused.
    #[test]
    fn damaged_files() {
        for length in 4..CENTROID.len() {
            let loaded = Image::load(&CENTROID[..length], None, 0);
            assert_eq!(loaded.is_ok(), length >= 0x4F8, "{length}");
        }
        for at in 4..64 + 3 * 56 {
            for byte in [0, 1, 0x7F, 0x80, 0xFF] {
                let mut file = CENTROID.to_vec();
                file[at] = byte;
                let loaded = Image::load(&file, None, 0);
                let refused = matches!(at, 4 | 5 | 18 | 19) && byte != CENTROID[at];
                assert!(!(refused && loaded.is_ok()), "{at} {byte}");
            }
        }
    }
}
