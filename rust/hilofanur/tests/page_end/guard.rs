//! Bytes with an inaccessible page before and after them, at the very start or the very end of their pages.

use std::ffi::{c_int, c_void};
use std::ops::{Deref, DerefMut};
use std::ptr::null_mut;
use std::slice::{from_raw_parts, from_raw_parts_mut};

const PAGE: usize = 4096;
// Linux on x86-64.
const PROT_NONE: c_int = 0;
const PROT_READ: c_int = 1;
const PROT_WRITE: c_int = 2;
const MAP_PRIVATE_ANONYMOUS: c_int = 0x22;

extern "C" {
    fn mmap(
        at: *mut c_void,
        size: usize,
        access: c_int,
        flags: c_int,
        file: c_int,
        offset: i64,
    ) -> *mut c_void;
    fn mprotect(at: *mut c_void, size: usize, access: c_int) -> c_int;
    fn munmap(at: *mut c_void, size: usize) -> c_int;
}

#[derive(Clone, Copy, Debug, PartialEq, Eq)]
pub enum Edge {
    Start,
    End,
}

pub struct Guarded {
    map: *mut u8,
    /// The accessible bytes between the two pages.
    inside: usize,
    first: *mut u8,
    length: usize,
}

impl Guarded {
    fn inaccessible(length: usize, edge: Edge) -> Guarded {
        let inside = length.div_ceil(PAGE).max(1) * PAGE;
        let size = inside + 2 * PAGE;
        // SAFETY: a mapping of its own, not yet shared with anyone.
        let map = unsafe { mmap(null_mut(), size, PROT_NONE, MAP_PRIVATE_ANONYMOUS, -1, 0) };
        assert_ne!(map as isize, -1, "mmap");
        let map: *mut u8 = map.cast();
        let first = PAGE + if edge == Edge::End { inside - length } else { 0 };
        // SAFETY: `first` and the bytes after it are inside the mapping.
        Guarded { map, inside, first: unsafe { map.add(first) }, length }
    }

    /// Zeros that can only be read, and take no memory.
    pub fn zeros(length: usize) -> Guarded {
        let mut guarded = Guarded::inaccessible(length, Edge::End);
        guarded.protect(PROT_READ);
        guarded
    }

    pub fn new(bytes: &[u8], edge: Edge) -> Guarded {
        let mut guarded = Guarded::inaccessible(bytes.len(), edge);
        guarded.protect(PROT_READ | PROT_WRITE);
        guarded.copy_from_slice(bytes);
        guarded
    }

    /// The same, and a write to them faults.
    pub fn read_only(bytes: &[u8], edge: Edge) -> Guarded {
        let mut guarded = Guarded::new(bytes, edge);
        guarded.protect(PROT_READ);
        guarded
    }

    fn protect(&mut self, access: c_int) {
        // SAFETY: the pages between the first and the last of the mapping.
        let done = unsafe { mprotect(self.map.add(PAGE).cast(), self.inside, access) };
        assert_eq!(done, 0, "mprotect");
    }

    /// Has to fault at the end of the pages.
    pub fn read_after(&self) -> u8 {
        // SAFETY: none; it is for a process that has to end by it.
        unsafe { self.first.add(self.length).read_volatile() }
    }

    /// Has to fault at the start of the pages.
    pub fn read_before(&self) -> u8 {
        // SAFETY: none, as above.
        unsafe { self.first.sub(1).read_volatile() }
    }

    /// Has to fault where they are read-only.
    pub fn write_first(&self) {
        // SAFETY: none, as above.
        unsafe { self.first.write_volatile(0) }
    }
}

impl Deref for Guarded {
    type Target = [u8];

    fn deref(&self) -> &[u8] {
        // SAFETY: `length` bytes from `first` are readable as long as the mapping stands.
        unsafe { from_raw_parts(self.first, self.length) }
    }
}

impl DerefMut for Guarded {
    fn deref_mut(&mut self) -> &mut [u8] {
        // SAFETY: as above; a write to read-only ones faults.
        unsafe { from_raw_parts_mut(self.first, self.length) }
    }
}

impl Drop for Guarded {
    fn drop(&mut self) {
        // SAFETY: the mapping is this value's own.
        let done = unsafe { munmap(self.map.cast(), self.inside + 2 * PAGE) };
        assert_eq!(done, 0, "munmap");
    }
}
