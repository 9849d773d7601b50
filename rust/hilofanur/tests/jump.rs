//! Blocks that the processor runs, from an executable store and from an index over one: on AArch64 alone.
#![cfg(all(target_arch = "aarch64", target_os = "linux"))]

use draw::guest::Guests;
use draw::values::{registers, value};
use draw::Random;
use hilofanur::{rv64_run, translate, EndKind, ExecutableStore, Guest, Host, Index, Key};
use hilofanur::{Next, PlaceError, Refusal, Registers, LONGEST_BLOCK};
use std::ffi::{c_int, c_void};
use std::fs::File;
use std::io::ErrorKind;
use std::os::fd::AsRawFd;

/// Slot 0 is 64 bytes after what X0 points to.
const SLOT_OFFSET: u64 = 64;

#[repr(C, align(16))]
struct Hart {
    other: [u64; 8],
    x: [u64; 32],
    asked: [u64; 8],
}

fn hart(x: [u64; 32]) -> Hart {
    Hart { other: [0x55; 8], x, asked: [0; 8] }
}

fn at(address: u64) -> &'static mut Hart {
    // SAFETY: the tests give a hart's own address as the first number, and have no other borrow of it during a call.
    unsafe { &mut *(address as *mut Hart) }
}

/// Notes what it is called with; a load puts 99 into its register.
extern "C" fn memory(a: u64, b: u64, c: u64, op: u64, rd: u64, val: u64, to: u64, pc: u64) -> Next {
    let hart = at(a);
    hart.asked = [b, c, op, rd, val, to, pc, 1];
    if op < 16 {
        hart.x[rd as usize] = 99;
    }
    Next { pc: pc + 4, count: 1 }
}

extern "C" fn helper32(a: u64, b: u64, c: u64, d: u64, e: u64, instr: u64, pc: u64) -> Next {
    at(a).asked = [b, c, d, e, instr, pc, 0, 2];
    Next { pc: pc + 4, count: 1 }
}

extern "C" fn helper16(a: u64, b: u64, c: u64, d: u64, e: u64, instr: u64, pc: u64) -> Next {
    at(a).asked = [b, c, d, e, instr, pc, 0, 3];
    Next { pc: pc + 2, count: 1 }
}

fn host() -> Host {
    Host::calling(SLOT_OFFSET, memory, helper32, helper16)
}

fn guest(bytes: &[u8], pc: u64) -> Guest<'_> {
    Guest { bytes, pc, limit: 64, ignore_ebreak: false }
}

/// Translates, places at `start` and jumps.
fn jump(
    store: &mut ExecutableStore,
    start: usize,
    guest: &Guest,
    hart: &mut Hart,
) -> (Next, EndKind) {
    let mut output = [0; LONGEST_BLOCK];
    let block = translate(guest, &host(), &mut output).unwrap();
    let mut open = store.open().unwrap();
    open[start..][..block.length].copy_from_slice(&output[..block.length]);
    open.close(start..start + block.length).unwrap();
    let hart = &raw mut *hart;
    // SAFETY: a whole block, placed and closed; X0 leads to the hart, as the first number does for the helpers.
    let next = unsafe { store.call(start, hart.cast(), [hart as u64, 21, 22, 23, 24]) };
    (next, block.end_kind)
}

/// Drawn blocks that no helper ends, each over the one before it: next PC, count and registers as the ISA says.
#[test]
fn as_the_isa_says() {
    let (guests, mut random) = (Guests::default(), Random(28));
    let mut store = ExecutableStore::new(LONGEST_BLOCK).unwrap();
    let mut done = 0;
    while done < 3_000 {
        let bytes = guests.guest(&mut random);
        let guest = guest(&bytes, value(&mut random) & !1);
        let mut expected = Registers { x: registers(|| value(&mut random)) };
        let mut hart = hart(expected.x);
        hart.x[0] = random.next();
        let Ok(run) = rv64_run(&guest, &mut expected) else { continue };
        if translate(&guest, &host(), &mut [0; LONGEST_BLOCK]).unwrap().end_kind == EndKind::Helper
        {
            continue;
        }
        let slot_0 = hart.x[0];
        let (next, _) = jump(&mut store, 0, &guest, &mut hart);
        assert_eq!(next, Next { pc: run.next_pc, count: run.count.into() }, "{bytes:02x?}");
        assert_eq!(hart.x[1..], expected.x[1..], "{bytes:02x?}");
        assert_eq!((hart.x[0], hart.other, hart.asked), (slot_0, [0x55; 8], [0; 8]));
        done += 1;
    }
}

/// Each helper by one instruction after C.NOP: c.nop, then ld x10, -8(x11); sd x11, 8(x10); amoadd.w x10, x11, (x10);
/// c.lw.
#[test]
fn helpers() {
    let mut store = ExecutableStore::new(1 << 16).unwrap();
    let rows: [(&[u8], [u64; 8], Next); 4] = [
        (
            &[0x03, 0xB5, 0x85, 0xFF],
            [21, 22, 3, 10, 0, 0x1FF8, 0x1002, 1],
            Next { pc: 0x1006, count: 2 },
        ),
        (
            &[0x23, 0x34, 0xB5, 0x00],
            [21, 22, 19, 8, 0x2000, 0x3008, 0x1002, 1],
            Next { pc: 0x1006, count: 2 },
        ),
        (
            &[0x2F, 0x25, 0xB5, 0x00],
            [21, 22, 23, 24, 0xB5_252F, 0x1002, 0, 2],
            Next { pc: 0x1006, count: 2 },
        ),
        (&[0xC8, 0x41], [21, 22, 23, 24, 0x41C8, 0x1002, 0, 3], Next { pc: 0x1004, count: 2 }),
    ];
    for (instr, asked, next) in rows {
        let bytes = [&[1, 0], instr].concat();
        let mut hart = hart([0; 32]);
        (hart.x[10], hart.x[11]) = (0x3000, 0x2000);
        assert_eq!(jump(&mut store, 4, &guest(&bytes, 0x1000), &mut hart), (next, EndKind::Helper));
        assert_eq!(hart.asked, asked, "{instr:02x?}");
        assert_eq!(hart.x[10], if asked[2] == 3 { 99 } else { 0x3000 });
    }
}

/// Words that take the place of others are the ones that run: c.li a0, n, again and again at one place.
#[test]
fn caches() {
    let mut store = ExecutableStore::new(4_096).unwrap();
    for n in (0..31).cycle().take(2_000) {
        let c_li = (0x4501 | (n & 31) << 2) as u16;
        let mut hart = hart([0; 32]);
        jump(&mut store, 8, &guest(&c_li.to_le_bytes(), 0x1000), &mut hart);
        assert_eq!(hart.x[10], n as u64);
    }
}

/// What may be done in the mapping that has this address; nothing where there is none.
fn allowed(address: usize) -> Option<String> {
    let maps = std::fs::read_to_string("/proc/self/maps").unwrap();
    maps.lines().find_map(|line| {
        let (range, rest) = line.split_once(' ')?;
        let (from, to) = range.split_once('-')?;
        let number = |text| usize::from_str_radix(text, 16).unwrap();
        (number(from)..number(to)).contains(&address).then(|| rest[..3].to_string())
    })
}

#[test]
fn never_both() {
    let mut store = ExecutableStore::new(10_000).unwrap();
    let address = store.as_ptr() as usize;
    assert_eq!((store.len(), allowed(address).as_deref()), (10_000, Some("r-x")));
    let open = store.open().unwrap();
    assert_eq!(allowed(address).as_deref(), Some("rw-"));
    open.close(0..0).unwrap();
    assert_eq!(allowed(address).as_deref(), Some("r-x"));
    drop(store.open().unwrap());
    assert_eq!(allowed(address + 9_999).as_deref(), Some("r-x"));
    drop(store);
    assert_eq!(allowed(address), None);
    assert!(ExecutableStore::new(0).is_err());
}

/// The words of c.li a0, n at a PC, five of them: MOVZ, STR, MOVZ X0, MOVZ X1, RET.
fn c_li(n: u64, pc: u64) -> Vec<u8> {
    let bytes = (0x4501 | (n as u16 & 31) << 2).to_le_bytes();
    let mut output = vec![0; LONGEST_BLOCK];
    let block = translate(&guest(&bytes, pc), &host(), &mut output).unwrap();
    assert_eq!(block.length, 20);
    output.truncate(20);
    output
}

fn key(pc: u64) -> Key {
    Key { space: 7, pc }
}

/// Runs the block at a PC, if the index has one: its a0. Next PC and count are as they must be.
fn run(index: &Index<ExecutableStore>, pc: u64) -> Option<u64> {
    let (found, mut hart) = (index.get(key(pc))?, hart([0; 32]));
    // SAFETY: a whole block of Translate's, which calls no helper; X0 leads to the hart.
    let next = unsafe { index.call(&found, (&raw mut hart).cast(), [0; 5]) };
    assert_eq!((next, found.count, found.code.len()), (Next { pc: pc + 2, count: 1 }, 1, 20));
    Some(hart.x[10])
}

/// In a store with room for one block each takes the place of the one before, which is found no more; placed again,
/// it is found again.
#[test]
fn one_block() {
    let mut index = Index::executable(20).unwrap();
    for (pc, n) in [(0x1000, 1), (0x2000, 2), (0x1000, 1), (0x1000, 3), (0x2000, 4)] {
        assert_eq!(index.place(key(pc), 1, &c_li(n, pc)).unwrap(), 0);
        assert_eq!((run(&index, pc), run(&index, 0x3000 - pc)), (Some(n), None));
        assert_eq!(index.get(key(pc)).unwrap().code, c_li(n, pc));
    }
    index.empty();
    assert_eq!([0x1000, 0x2000].map(|pc| run(&index, pc)), [None; 2]);
}

/// In a store with room for three the fourth drops the first and no other; the others run on where they stand.
#[test]
fn three_blocks() {
    let mut index = Index::executable(64).unwrap();
    let pcs = [0x1000, 0x2000, 0x3000, 0x4000];
    for n in 0..30 {
        let pc = pcs[n as usize % 4];
        assert_eq!(run(&index, pc), None);
        assert_eq!(index.place(key(pc), 1, &c_li(n, pc)).unwrap(), n as usize % 3 * 20);
        let last = n.saturating_sub(2)..=n;
        for n in last {
            assert_eq!(run(&index, pcs[n as usize % 4]), Some(n));
        }
    }
}

/// A block that a helper ends, by the index: c.nop, then c.lw.
#[test]
fn a_helper_by_the_index() {
    let (mut index, mut output) = (Index::executable(1 << 16).unwrap(), [0; LONGEST_BLOCK]);
    let block = translate(&guest(&[1, 0, 0xC8, 0x41], 0x1000), &host(), &mut output).unwrap();
    index.place(key(0x1000), 2, &output[..block.length]).unwrap();
    let (found, mut hart) = (index.get(key(0x1000)).unwrap(), hart([0; 32]));
    let x0 = &raw mut hart;
    // SAFETY: as in `jump`.
    let next = unsafe { index.call(&found, x0.cast(), [x0 as u64, 21, 22, 23, 24]) };
    assert_eq!((next, found.count), (Next { pc: 0x1004, count: 2 }, 2));
    assert_eq!(hart.asked, [21, 22, 23, 24, 0x41C8, 0x1002, 0, 3]);
}

/// A refusal leaves index and store, which is executable after it as after a placing.
#[test]
fn refused_by_the_index() {
    let mut index = Index::executable(20).unwrap();
    let address = index.store().as_ptr() as usize;
    index.place(key(0x1000), 1, &c_li(5, 0x1000)).unwrap();
    let (bytes, store) = (*index.saved(), index.store().to_vec());
    for length in [0, 3, 24] {
        let refused = index.place(key(0x1000), 1, &vec![0; length]).unwrap_err();
        assert_eq!(refused.to_string(), Refusal::CodeLength.to_string());
        assert!(matches!(refused, PlaceError::Refused(Refusal::CodeLength)));
        assert!((index.saved(), &index.store()[..]) == (&bytes, &store[..]));
        assert_eq!(allowed(address).as_deref(), Some("r-x"));
        assert_eq!(run(&index, 0x1000), Some(5));
    }
    drop(index);
    assert_eq!(allowed(address), None);
    assert!(Index::executable(0).is_err());
}

extern "C" {
    fn mmap(
        at: *mut c_void,
        length: usize,
        may: c_int,
        how: c_int,
        file: c_int,
        from: i64,
    ) -> *mut c_void;
}

/// Where the store cannot be made writable, nothing is found any more: a shared mapping of a file that is open to be
/// read stands in its place.
#[test]
fn a_store_that_stays_shut() {
    let mut index = Index::executable(20).unwrap();
    index.place(key(0x1000), 1, &c_li(5, 0x1000)).unwrap();
    let file = File::open("/proc/self/exe").unwrap();
    let (at, read, shared_fixed) = (index.store().as_ptr().cast_mut().cast(), 1, 0x11);
    // SAFETY: the page is the store's own, of which no borrow is left; it stays readable.
    let mapped = unsafe { mmap(at, 20, read, shared_fixed, file.as_raw_fd(), 0) };
    assert_eq!(mapped, at);
    let Err(PlaceError::Store(error)) = index.place(key(0x2000), 1, &c_li(6, 0x2000)) else {
        panic!("placed");
    };
    assert_eq!(error.kind(), ErrorKind::PermissionDenied);
    assert!(PlaceError::from(error).to_string().starts_with("the executable store: "));
    assert_eq!([0x1000, 0x2000].map(|pc| index.get(key(pc))), [None; 2]);
}
