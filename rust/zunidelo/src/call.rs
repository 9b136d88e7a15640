//! The three functions of the library as they are linked, and the calls of
//! them. This is the only unsafe code: everything above is safe.

#![allow(unsafe_code)]

/// What the functions return beside their report. A lookup that is answered
/// returns `CONSISTENT`, and clauses that are written `CONFLICT`; what is
/// neither is a refusal, with its number in the report.
pub const CONSISTENT: u32 = 0;
pub const CONFLICT: u32 = 1;

unsafe extern "C" {
    fn zunidelo_check(
        query: *const u8,
        query_length: usize,
        answer: *mut u8,
        answer_length: usize,
        report: *mut [u64; 4],
    ) -> u32;

    fn zunidelo_lookup(
        query: *const u8,
        query_length: usize,
        array: u64,
        index: u64,
        report: *mut [u64; 4],
    ) -> u32;

    fn zunidelo_clauses(
        query: *const u8,
        query_length: usize,
        numbers: *mut i32,
        numbers_length: usize,
        report: *mut [u64; 5],
    ) -> u32;
}

/// The report: number and offset of a refusal, pairs, length of the lemma.
pub fn check(query: &[u8], answer: &mut [u8]) -> (u32, [u64; 4]) {
    let mut report = [0; 4];
    // SAFETY: each pointer is of a slice or array that is borrowed for the
    // whole call, with its own length, and the two that are written through
    // are borrowed alone. The function keeps no pointer, and takes any bytes
    // and any length; the pointer of an empty slice is not null.
    let returned = unsafe {
        zunidelo_check(query.as_ptr(), query.len(), answer.as_mut_ptr(), answer.len(), &mut report)
    };
    (returned, report)
}

/// The report: number and offset of a refusal, the value, 0.
pub fn lookup(query: &[u8], array: u64, index: u64) -> (u32, [u64; 4]) {
    let mut report = [0; 4];
    // SAFETY: the pointers are of a slice, with its own length, and of an
    // array of four numbers, both borrowed for the whole call. The function
    // keeps no pointer, and takes any bytes, any length and any two numbers.
    let returned =
        unsafe { zunidelo_lookup(query.as_ptr(), query.len(), array, index, &mut report) };
    (returned, report)
}

/// The report: number and offset of a refusal, variables, clauses, how many
/// numbers were written.
pub fn clauses(query: &[u8], numbers: &mut [i32]) -> (u32, [u64; 5]) {
    let mut report = [0; 5];
    // SAFETY: as for `check`; `numbers` is aligned for `i32` and its length
    // counts numbers, not bytes, as the function takes it.
    let returned = unsafe {
        zunidelo_clauses(
            query.as_ptr(),
            query.len(),
            numbers.as_mut_ptr(),
            numbers.len(),
            &mut report,
        )
    };
    (returned, report)
}
