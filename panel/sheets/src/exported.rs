//! The exported functions, each behind a safe function: the only unsafe code.
//!
//! Every call below is safe for the same reasons. A slice is passed as its pointer and its length, for which it is
//! valid; what is written is borrowed as exclusive, so nothing overlaps it. The functions ask nothing else of
//! their caller: they take whatever bytes and numbers, stay within what they are lent, keep no pointer, do not
//! unwind and hold no state, so that threads may call them side by side.
#![allow(unsafe_code)]

extern "C" {
    fn dengwizo_check(
        table: *const u8,
        table_length: usize,
        scratch: *mut u8,
        scratch_length: usize,
    ) -> u64;

    fn dengwizo_evaluate(
        table: *const u8,
        table_length: usize,
        list: *const u8,
        list_length: usize,
        scratch: *mut u8,
        scratch_length: usize,
        result: *mut u8,
        result_length: usize,
    ) -> u64;

    fn dengwizo_first(
        table: *const u8,
        table_length: usize,
        entries: *mut u8,
        entries_length: usize,
        length: *mut usize,
        scratch: *mut u8,
        scratch_length: usize,
    ) -> u64;

    fn dengwizo_step(
        table: *const u8,
        table_length: usize,
        entries: *mut u8,
        entries_length: usize,
        length: *mut usize,
        scratch: *mut u8,
        scratch_length: usize,
    ) -> u64;
}

pub fn check(table: &[u8], scratch: &mut [u8]) -> u64 {
    // SAFETY: each pointer is valid for the length beside it, and the scratch is borrowed as exclusive.
    unsafe {
        dengwizo_check(
            table.as_ptr(),
            table.len(),
            scratch.as_mut_ptr(),
            scratch.len(),
        )
    }
}

pub fn evaluate(table: &[u8], list: &[u8], scratch: &mut [u8], result: &mut [u8]) -> u64 {
    // SAFETY: each pointer is valid for the length beside it; scratch and result are borrowed as exclusive.
    unsafe {
        dengwizo_evaluate(
            table.as_ptr(),
            table.len(),
            list.as_ptr(),
            list.len(),
            scratch.as_mut_ptr(),
            scratch.len(),
            result.as_mut_ptr(),
            result.len(),
        )
    }
}

pub fn first(table: &[u8], entries: &mut [u8], length: &mut usize, scratch: &mut [u8]) -> u64 {
    // SAFETY: each pointer is valid for the length beside it, that of the length for one number; entries, length
    // and scratch are borrowed as exclusive.
    unsafe {
        dengwizo_first(
            table.as_ptr(),
            table.len(),
            entries.as_mut_ptr(),
            entries.len(),
            length,
            scratch.as_mut_ptr(),
            scratch.len(),
        )
    }
}

pub fn step(table: &[u8], entries: &mut [u8], length: &mut usize, scratch: &mut [u8]) -> u64 {
    // SAFETY: as for the first list.
    unsafe {
        dengwizo_step(
            table.as_ptr(),
            table.len(),
            entries.as_mut_ptr(),
            entries.len(),
            length,
            scratch.as_mut_ptr(),
            scratch.len(),
        )
    }
}
