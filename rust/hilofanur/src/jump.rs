//! On AArch64: a store whose words the processor runs, an index over it, and the jump.

#![allow(unsafe_code)]

use crate::{accepted, boundary, Found, Host, Index, Key, Refusal};
use std::arch::asm;
use std::error::Error;
use std::ffi::{c_int, c_void};
use std::ops::{Deref, DerefMut, Range};
use std::ptr::{self, NonNull};
use std::{fmt, io, mem, slice};

/// What a block and a helper return, in X0 and X1.
#[repr(C)]
#[derive(Clone, Copy, Debug, PartialEq, Eq)]
pub struct Next {
    /// The next guest PC.
    pub pc: u64,
    /// The guest instructions done.
    pub count: u64,
}

/// The helper for loads and stores of 32 bits: three numbers of the caller's, the operation (0 to 6: LB, LH, LW, LD,
/// LBU, LHU, LWU; 16 to 19: SB, SH, SW, SD), rd, the value to store or 0, the address, the instruction's PC.
pub type MemoryHelper = extern "C" fn(u64, u64, u64, u64, u64, u64, u64, u64) -> Next;

/// The helper for other instructions: five numbers of the caller's, the instruction, its PC.
pub type Helper = extern "C" fn(u64, u64, u64, u64, u64, u64, u64) -> Next;

/// A placed block: X0, then the numbers that a helper gets.
type Block = unsafe extern "C" fn(*mut u8, u64, u64, u64, u64, u64) -> Next;

impl Host {
    /// With functions of this process as helpers: for loads and stores of 32 bits, for other instructions of 32 bits,
    /// for those of 16 bits.
    pub fn calling(
        slot_offset: u64,
        memory: MemoryHelper,
        helper32: Helper,
        helper16: Helper,
    ) -> Host {
        Host {
            slot_offset,
            memory_helper: memory as usize as u64,
            helper32: helper32 as usize as u64,
            helper16: helper16 as usize as u64,
        }
    }
}

/// A store of words that is writable or executable, never both. It owns its mapping. [`Index::executable`] has one;
/// by itself it is for blocks that no index has, such as one that FENCE.I ends.
#[derive(Debug)]
pub struct ExecutableStore {
    first: NonNull<u8>,
    length: usize,
}

// SAFETY: the mapping is this value's alone, and is written by a mutable borrow.
unsafe impl Send for ExecutableStore {}
// SAFETY: as above; what runs in it is the caller's affair (`call`).
unsafe impl Sync for ExecutableStore {}

const READ: c_int = 1;
const WRITE: c_int = 2;
const EXECUTE: c_int = 4;
const PRIVATE_ANONYMOUS: c_int = 0x22;

extern "C" {
    fn mmap(
        at: *mut c_void,
        length: usize,
        may: c_int,
        flags: c_int,
        file: c_int,
        from: i64,
    ) -> *mut c_void;
    fn mprotect(at: *mut c_void, length: usize, may: c_int) -> c_int;
    fn munmap(at: *mut c_void, length: usize) -> c_int;
}

impl ExecutableStore {
    /// A store of so many bytes, executable, without a word.
    ///
    /// # Errors
    /// Those of `mmap`, for a length of 0 too.
    pub fn new(length: usize) -> io::Result<ExecutableStore> {
        // SAFETY: a new mapping, which overlaps no other.
        let at = unsafe { mmap(ptr::null_mut(), length, READ | EXECUTE, PRIVATE_ANONYMOUS, -1, 0) };
        match NonNull::new(at.cast()) {
            Some(first) if at as isize != -1 => Ok(ExecutableStore { first, length }),
            _ => Err(io::Error::last_os_error()),
        }
    }

    /// Makes the store writable, and not executable, until the answer is closed or dropped.
    ///
    /// # Errors
    /// Those of `mprotect`.
    pub fn open(&mut self) -> io::Result<OpenStore<'_>> {
        self.protect(READ | WRITE)?;
        Ok(OpenStore { store: self })
    }

    /// Jumps to the block at `start`, with X0 and the numbers that a helper gets; what it returns.
    ///
    /// # Safety
    /// - The bytes from `start` on are a whole block that [`crate::translate`] wrote. They were placed while the
    ///   store was open, in the range that [`OpenStore::close`] was given, and not changed since. A thread that did
    ///   not close the store itself has executed an ISB since.
    /// - With the block's slot offset, `x0` leads to 32 slots of eight bytes, aligned to 8, which no other thread
    ///   accesses during the call and no borrow covers.
    /// - If the block ends by a helper, its address is one of such a function's ([`Host::calling`]), which may be
    ///   called with `arguments`. No panic passes through the block.
    ///
    /// # Panics
    /// Where `start` is no multiple of 4 or not in the store.
    pub unsafe fn call(&self, start: usize, x0: *mut u8, arguments: [u64; 5]) -> Next {
        assert!(start.is_multiple_of(4) && start < self.length, "no word of the store at {start}");
        let [a, b, c, d, e] = arguments;
        // SAFETY: a block is a function of this type (AAPCS64), by the caller's promise.
        unsafe {
            let block: Block = mem::transmute(self.first.as_ptr().add(start));
            block(x0, a, b, c, d, e)
        }
    }

    fn protect(&self, may: c_int) -> io::Result<()> {
        // SAFETY: the mapping is this value's own.
        let done = unsafe { mprotect(self.first.as_ptr().cast(), self.length, may) };
        if done == 0 {
            Ok(())
        } else {
            Err(io::Error::last_os_error())
        }
    }
}

impl Deref for ExecutableStore {
    type Target = [u8];

    fn deref(&self) -> &[u8] {
        // SAFETY: the mapping has so many bytes, which are readable at all times.
        unsafe { slice::from_raw_parts(self.first.as_ptr(), self.length) }
    }
}

impl Drop for ExecutableStore {
    fn drop(&mut self) {
        // SAFETY: the mapping is this value's own, and nobody has it after this.
        unsafe { munmap(self.first.as_ptr().cast(), self.length) };
    }
}

/// A store that is writable, and not executable. Where it is dropped and not closed, it becomes executable too, but
/// the words that were written must not be run.
#[derive(Debug)]
pub struct OpenStore<'a> {
    store: &'a mut ExecutableStore,
}

impl OpenStore<'_> {
    /// Makes the store executable again, and the words in the range that were written ones that can be run.
    ///
    /// # Errors
    /// Those of `mprotect`.
    ///
    /// # Panics
    /// Where the range is not in the store.
    pub fn close(self, written: Range<usize>) -> io::Result<()> {
        let words = self.store[written].as_ptr_range();
        self.store.protect(READ | EXECUTE)?;
        clear_cache(words.start as usize, words.end as usize);
        mem::forget(self);
        Ok(())
    }
}

impl Deref for OpenStore<'_> {
    type Target = [u8];

    fn deref(&self) -> &[u8] {
        self.store
    }
}

impl DerefMut for OpenStore<'_> {
    fn deref_mut(&mut self) -> &mut [u8] {
        // SAFETY: as in `ExecutableStore::deref`; writable while this value lives, and borrowed by it alone.
        unsafe { slice::from_raw_parts_mut(self.store.first.as_ptr(), self.store.length) }
    }
}

impl Drop for OpenStore<'_> {
    fn drop(&mut self) {
        // Where this fails, a jump into the store faults.
        let _ = self.store.protect(READ | EXECUTE);
    }
}

impl Index<ExecutableStore> {
    /// An empty index with an executable store of so many bytes.
    ///
    /// ```
    /// use hilofanur::{translate, Guest, Host, Index, Key, Next, Registers};
    ///
    /// extern "C" fn memory(_: u64, _: u64, _: u64, _: u64, _: u64, _: u64, _: u64, pc: u64) -> Next {
    ///     Next { pc, count: 0 }
    /// }
    /// extern "C" fn other(_: u64, _: u64, _: u64, _: u64, _: u64, _: u64, pc: u64) -> Next {
    ///     Next { pc, count: 0 }
    /// }
    ///
    /// // c.li x10, -1 at 0x1000
    /// let guest = Guest { bytes: &[0x7d, 0x55], pc: 0x1000, limit: 64, ignore_ebreak: false };
    /// let host = Host::calling(0, memory, other, other);
    /// let mut output = [0; hilofanur::LONGEST_BLOCK];
    /// let block = translate(&guest, &host, &mut output)?;
    ///
    /// let (mut index, key) = (Index::executable(1 << 20)?, Key { space: 0, pc: 0x1000 });
    /// index.place(key, 1, &output[..block.length])?;
    /// let found = index.get(key).expect("it was placed");
    ///
    /// let mut registers = Registers::default();
    /// // SAFETY: a whole block of Translate's, which calls no helper; X0 leads to the slots.
    /// let next = unsafe { index.call(&found, registers.x.as_mut_ptr().cast(), [0; 5]) };
    /// assert_eq!((next, registers.x[10]), (Next { pc: 0x1002, count: 1 }, u64::MAX));
    /// # Ok::<(), Box<dyn std::error::Error>>(())
    /// ```
    ///
    /// Nobody else opens the store:
    ///
    /// ```compile_fail,E0596
    /// let index = hilofanur::Index::executable(1 << 20).unwrap();
    /// let open = index.store().open();
    /// ```
    ///
    /// # Errors
    /// Those of `mmap`, for a length of 0 too.
    pub fn executable(length: usize) -> io::Result<Index<ExecutableStore>> {
        Ok(Index::over(ExecutableStore::new(length)?))
    }

    /// Places `code` in the store, under a key, so that it can be run; where it starts. Where it goes and what is
    /// dropped is as with plain bytes.
    ///
    /// # Errors
    /// Refusal 15. Those of `mprotect`, after which the index is empty.
    pub fn place(&mut self, key: Key, count: u8, code: &[u8]) -> Result<usize, PlaceError> {
        let placed = self.place_and_close(key, count, code);
        // The store may not be executable, or the new words not ones that can be run.
        if let Err(PlaceError::Store(_)) = placed {
            self.empty();
        }
        placed
    }

    fn place_and_close(&mut self, key: Key, count: u8, code: &[u8]) -> Result<usize, PlaceError> {
        let mut open = self.store.open()?;
        let answer = boundary::index_place(&mut self.bytes, &mut open, key, count, code);
        let (start, refused) = (answer.start as usize, accepted(answer.refusal as u32));
        open.close(if refused.is_ok() { start..start + code.len() } else { 0..0 })?;
        refused?;
        Ok(start)
    }

    /// Jumps to a block, with X0 and the numbers that a helper gets; what it returns.
    ///
    /// # Safety
    /// - [`Index::get`] of this index answered `block`, and what was placed is a whole block that
    ///   [`crate::translate`] wrote. A thread that did not place it itself has executed an ISB since.
    /// - With the block's slot offset, `x0` leads to 32 slots of eight bytes, aligned to 8, which no other thread
    ///   accesses during the call and no borrow covers.
    /// - If the block ends by a helper, its address is one of such a function's ([`Host::calling`]), which may be
    ///   called with `arguments`. No panic passes through the block.
    pub unsafe fn call(&self, block: &Found, x0: *mut u8, arguments: [u64; 5]) -> Next {
        // SAFETY: the caller's promises; the block was closed over as it was placed, and stands while it is borrowed.
        unsafe { self.store.call(block.start, x0, arguments) }
    }
}

/// Why a block was not placed in an executable store.
#[derive(Debug)]
pub enum PlaceError {
    /// The index refused it; index and store are as they were.
    Refused(Refusal),
    /// The store could not be made writable or executable; the index is empty.
    Store(io::Error),
}

impl From<Refusal> for PlaceError {
    fn from(refusal: Refusal) -> PlaceError {
        PlaceError::Refused(refusal)
    }
}

impl From<io::Error> for PlaceError {
    fn from(error: io::Error) -> PlaceError {
        PlaceError::Store(error)
    }
}

impl fmt::Display for PlaceError {
    fn fmt(&self, f: &mut fmt::Formatter) -> fmt::Result {
        match self {
            PlaceError::Refused(refusal) => write!(f, "{refusal}"),
            PlaceError::Store(error) => write!(f, "the executable store: {error}"),
        }
    }
}

impl Error for PlaceError {}

/// Cleans the data cache and invalidates the instruction cache over these addresses (the Arm manual, 'Synchronization
/// and coherency issues between data and instruction accesses'). CTR_EL0 has the line sizes, as powers of two of
/// words.
fn clear_cache(start: usize, end: usize) {
    let ctr: usize;
    // SAFETY: reads a register that Linux lets programs read.
    unsafe { asm!("mrs {}, ctr_el0", out(reg) ctr, options(nomem, nostack, preserves_flags)) };
    let lines = |shift: usize| {
        let size = 4 << (ctr >> shift & 15);
        (start & !(size - 1)..end).step_by(size)
    };
    for line in lines(16) {
        // SAFETY: the line has bytes of a mapping of this process; its contents do not change.
        unsafe { asm!("dc cvau, {}", in(reg) line, options(nostack, preserves_flags)) };
    }
    // SAFETY: barriers.
    unsafe { asm!("dsb ish", options(nostack, preserves_flags)) };
    for line in lines(0) {
        // SAFETY: as above.
        unsafe { asm!("ic ivau, {}", in(reg) line, options(nostack, preserves_flags)) };
    }
    // SAFETY: barriers.
    unsafe { asm!("dsb ish", "isb", options(nostack, preserves_flags)) };
}
