//! The functions as the library has them: numbers and byte slices in, an answer of numbers out.
//!
//! The crate's own functions stand on these. They are public for comparisons, which read every number of an answer.

#![allow(unsafe_code)]

use crate::{Guest, Host, Key, INDEX_BYTES};

/// What `hilofanur_translate` answers.
#[repr(C)]
#[derive(Clone, Copy, Debug, Default, PartialEq, Eq)]
pub struct TranslateAnswer {
    /// Document 01's number, 0 where accepted.
    pub refusal: u32,
    /// The block's bytes.
    pub length: u32,
    /// The guest instructions in it.
    pub count: u32,
    /// What ended it: [`crate::EndKind::number`], 0 where refused.
    pub end: u32,
}

/// What `hilofanur_place` answers.
#[repr(C)]
#[derive(Clone, Copy, Debug, Default, PartialEq, Eq)]
pub struct PlaceAnswer {
    /// Document 01's number, 0 where accepted.
    pub refusal: u64,
    /// Where the code starts in the store.
    pub start: u64,
    /// How much of the store is then used.
    pub used: u64,
}

/// What `hilofanur_rv64_run` answers.
#[repr(C)]
#[derive(Clone, Copy, Debug, Default, PartialEq, Eq)]
pub struct Rv64RunAnswer {
    /// Document 01's number, 0 where accepted.
    pub refusal: u32,
    /// The instructions done.
    pub count: u32,
    /// The PC after them.
    pub next_pc: u64,
}

/// What `hilofanur_a64_run` and `hilofanur_a64_run_from` answer.
#[repr(C)]
#[derive(Clone, Copy, Debug, Default, PartialEq, Eq)]
pub struct A64RunAnswer {
    /// Document 01's number, 0 where accepted.
    pub refusal: u32,
    /// How the run ended: [`crate::End::number`], 0 where refused.
    pub end: u32,
    /// The words done.
    pub steps: u64,
}

/// What `hilofanur_list` answers.
#[repr(C)]
#[derive(Clone, Copy, Debug, Default, PartialEq, Eq)]
pub struct ListAnswer {
    /// Document 02's number, 0 where accepted.
    pub refusal: u64,
    /// The listing's bytes.
    pub length: u64,
    /// Beside refusal 13 the byte offset of some word outside the forms, else 0.
    pub offset: u64,
}

/// What `hilofanur_index_place` answers.
#[repr(C)]
#[derive(Clone, Copy, Debug, Default, PartialEq, Eq)]
pub struct IndexPlaceAnswer {
    /// Document 02's number, 0 where accepted.
    pub refusal: u64,
    /// Where the code starts in the store.
    pub start: u64,
}

/// What `hilofanur_index_lookup` answers.
#[repr(C)]
#[derive(Clone, Copy, Debug, Default, PartialEq, Eq)]
pub struct IndexLookupAnswer {
    /// Document 02's number, 0 where accepted.
    pub refusal: u64,
    /// Where the block's code starts in the store.
    pub start: u64,
    /// The code's bytes.
    pub length: u64,
    /// The count it was placed with, below 256.
    pub count: u64,
}

// include/hilofanur.h has the same in C.
extern "C" {
    fn hilofanur_translate(
        guest: *const u8,
        guest_length: usize,
        pc: u64,
        limit: u32,
        ignore_ebreak: bool,
        slot_offset: u64,
        memory_helper: u64,
        helper32: u64,
        helper16: u64,
        output: *mut u8,
        output_length: usize,
    ) -> TranslateAnswer;
    fn hilofanur_place(
        store: *mut u8,
        store_length: usize,
        used: u64,
        code: *const u8,
        code_length: usize,
    ) -> PlaceAnswer;
    fn hilofanur_rv64_run(
        guest: *const u8,
        guest_length: usize,
        pc: u64,
        limit: u32,
        ignore_ebreak: bool,
        registers: *mut [u8; 256],
    ) -> Rv64RunAnswer;
    fn hilofanur_a64_run(
        block: *const u8,
        block_length: usize,
        address: u64,
        state: *mut [u8; 264],
        budget: u64,
        memory: *mut u8,
        memory_length: usize,
        base: u64,
    ) -> A64RunAnswer;
    fn hilofanur_a64_run_from(
        block: *const u8,
        block_length: usize,
        address: u64,
        first: u64,
        state: *mut [u8; 264],
        budget: u64,
        memory: *mut u8,
        memory_length: usize,
        base: u64,
    ) -> A64RunAnswer;
    fn hilofanur_list(
        block: *const u8,
        block_length: usize,
        output: *mut u8,
        output_length: usize,
    ) -> ListAnswer;
    fn hilofanur_index_empty(index: *mut [u8; INDEX_BYTES]);
    fn hilofanur_index_place(
        index: *mut [u8; INDEX_BYTES],
        store: *mut u8,
        store_length: usize,
        space: u64,
        pc: u64,
        count: u8,
        code: *const u8,
        code_length: usize,
    ) -> IndexPlaceAnswer;
    fn hilofanur_index_lookup(
        index: *const [u8; INDEX_BYTES],
        space: u64,
        pc: u64,
    ) -> IndexLookupAnswer;
}

/// Translate; `output` takes the block at its front.
pub fn translate(guest: &Guest, host: &Host, output: &mut [u8]) -> TranslateAnswer {
    // SAFETY: both slices are valid for their lengths during the call and lie apart, as Rust lends them;
    // the function is proved for every input and keeps neither pointer.
    unsafe {
        hilofanur_translate(
            guest.bytes.as_ptr(),
            guest.bytes.len(),
            guest.pc,
            guest.limit,
            guest.ignore_ebreak,
            host.slot_offset,
            host.memory_helper,
            host.helper32,
            host.helper16,
            output.as_mut_ptr(),
            output.len(),
        )
    }
}

/// Place; `store` takes the code.
pub fn place(store: &mut [u8], used: u64, code: &[u8]) -> PlaceAnswer {
    // SAFETY: as in `translate`.
    unsafe { hilofanur_place(store.as_mut_ptr(), store.len(), used, code.as_ptr(), code.len()) }
}

/// RV64 run; `registers` are the 32 of them, eight little-endian bytes each.
pub fn rv64_run(guest: &Guest, registers: &mut [u8; 256]) -> Rv64RunAnswer {
    // SAFETY: as in `translate`; the registers are lent for 256 bytes, of any alignment.
    unsafe {
        hilofanur_rv64_run(
            guest.bytes.as_ptr(),
            guest.bytes.len(),
            guest.pc,
            guest.limit,
            guest.ignore_ebreak,
            registers,
        )
    }
}

/// A64 run; `state` is X0 to X30, SP and NZCV, eight little-endian bytes each.
pub fn a64_run(
    block: &[u8],
    address: u64,
    state: &mut [u8; 264],
    budget: u64,
    memory: &mut [u8],
    base: u64,
) -> A64RunAnswer {
    // SAFETY: as in `translate`; the state is lent for 264 bytes, of any alignment.
    unsafe {
        hilofanur_a64_run(
            block.as_ptr(),
            block.len(),
            address,
            state,
            budget,
            memory.as_mut_ptr(),
            memory.len(),
            base,
        )
    }
}

/// A64 run from; as `a64_run`, at the word numbered `first`.
pub fn a64_run_from(
    block: &[u8],
    address: u64,
    first: u64,
    state: &mut [u8; 264],
    budget: u64,
    memory: &mut [u8],
    base: u64,
) -> A64RunAnswer {
    // SAFETY: as in `a64_run`.
    unsafe {
        hilofanur_a64_run_from(
            block.as_ptr(),
            block.len(),
            address,
            first,
            state,
            budget,
            memory.as_mut_ptr(),
            memory.len(),
            base,
        )
    }
}

/// List; `output` takes the lines at its front.
pub fn list(block: &[u8], output: &mut [u8]) -> ListAnswer {
    // SAFETY: as in `translate`.
    unsafe { hilofanur_list(block.as_ptr(), block.len(), output.as_mut_ptr(), output.len()) }
}

/// Index empty; `index` may hold anything before.
pub fn index_empty(index: &mut [u8; INDEX_BYTES]) {
    // SAFETY: as in `translate`; the index is lent for its bytes, of any alignment.
    unsafe { hilofanur_index_empty(index) }
}

/// Index place; `store` takes the code.
pub fn index_place(
    index: &mut [u8; INDEX_BYTES],
    store: &mut [u8],
    key: Key,
    count: u8,
    code: &[u8],
) -> IndexPlaceAnswer {
    // SAFETY: as in `index_empty`; whatever the index holds.
    unsafe {
        hilofanur_index_place(
            index,
            store.as_mut_ptr(),
            store.len(),
            key.space,
            key.pc,
            count,
            code.as_ptr(),
            code.len(),
        )
    }
}

/// Index lookup.
pub fn index_lookup(index: &[u8; INDEX_BYTES], key: Key) -> IndexLookupAnswer {
    // SAFETY: as in `index_place`.
    unsafe { hilofanur_index_lookup(index, key.space, key.pc) }
}
