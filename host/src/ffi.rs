//! The seven functions that the proved library exports, and nothing else.
//!
//! This is the only file with `unsafe` code. A slice crosses the border as a
//! pointer and a length, two arguments of their own; a number that a call gives
//! back crosses as a pointer to it. Each function returns the refusal number, 0
//! for none.

use crate::outcome::{
    Address, Algebra, Ceiling, Check, Convert, Find, Implementation, Replace, TypedDate,
};

extern "C" {
    fn sundewfrill_find(
        item: *const u8,
        item_length: usize,
        a: u64,
        v: u64,
        s: u64,
        found: *mut u64,
        start: *mut u64,
        length: *mut u64,
    ) -> u64;

    fn sundewfrill_replace(
        item: *const u8,
        item_length: usize,
        new: *const u8,
        new_length: usize,
        output: *mut u8,
        output_length: usize,
        a: u64,
        v: u64,
        s: u64,
        length: *mut u64,
    ) -> u64;

    fn sundewfrill_check(
        code: *const u8,
        code_length: usize,
        code_number: *mut u64,
        loads: *mut u64,
        others: *mut u64,
        patterns: *mut u64,
        tests: *mut u64,
    ) -> u64;

    fn sundewfrill_convert(
        item: *const u8,
        item_length: usize,
        code: *const u8,
        code_length: usize,
        output: *mut u8,
        output_length: usize,
        scratch: *mut u8,
        scratch_length: usize,
        a: u64,
        v: u64,
        s: u64,
        budget: u64,
        steps: *mut u64,
        length: *mut u64,
    ) -> u64;

    fn sundewfrill_ceiling(
        item: *const u8,
        item_length: usize,
        code: *const u8,
        code_length: usize,
        a: u64,
        v: u64,
        s: u64,
        ceiling: *mut u64,
    ) -> u64;

    fn sundewfrill_typed_date(
        code: *const u8,
        code_length: usize,
        text: *const u8,
        text_length: usize,
        negative: *mut u64,
        size: *mut u64,
    ) -> u64;

    fn sundewfrill_algebra(
        code: *const u8,
        code_length: usize,
        output: *mut u8,
        output_length: usize,
        length: *mut u64,
    ) -> u64;
}

/// What a number holds before the call. No call gives it, so a number that the
/// library leaves unwritten cannot pass for one that it gave.
const UNWRITTEN: u64 = u64::MAX;

/// The seven calls, to be held against another implementation's.
pub const IMPLEMENTATION: Implementation = Implementation {
    name: "the proved library",
    find,
    replace,
    check,
    convert,
    ceiling,
    typed_date,
    algebra,
};

/// Finds the place `at` in `record`.
pub fn find(record: &[u8], at: Address) -> Find {
    let (mut found, mut start, mut length) = (UNWRITTEN, UNWRITTEN, UNWRITTEN);
    // SAFETY: the pair is a live slice that is only read; the three numbers are
    // live, distinct and ours alone during the call.
    let refusal = unsafe {
        sundewfrill_find(
            record.as_ptr(),
            record.len(),
            at.a,
            at.v,
            at.s,
            &mut found,
            &mut start,
            &mut length,
        )
    };
    Find {
        refusal,
        found,
        start,
        length,
    }
}

/// Writes `record` with `new` at the place `at` to `output`.
pub fn replace(record: &[u8], new: &[u8], at: Address, output: &mut [u8]) -> Replace {
    let mut length = UNWRITTEN;
    // SAFETY: the first two pairs are live slices that are only read; the third
    // is a live slice borrowed for writing, so it overlaps neither of them; the
    // number is live and ours alone during the call.
    let refusal = unsafe {
        sundewfrill_replace(
            record.as_ptr(),
            record.len(),
            new.as_ptr(),
            new.len(),
            output.as_mut_ptr(),
            output.len(),
            at.a,
            at.v,
            at.s,
            &mut length,
        )
    };
    Replace { refusal, length }
}

/// Checks the code string `code`.
pub fn check(code: &[u8]) -> Check {
    let mut code_number = UNWRITTEN;
    let (mut loads, mut others) = (UNWRITTEN, UNWRITTEN);
    let (mut patterns, mut tests) = (UNWRITTEN, UNWRITTEN);
    // SAFETY: the pair is a live slice that is only read; the five numbers are
    // live, distinct and ours alone during the call.
    let refusal = unsafe {
        sundewfrill_check(
            code.as_ptr(),
            code.len(),
            &mut code_number,
            &mut loads,
            &mut others,
            &mut patterns,
            &mut tests,
        )
    };
    Check {
        refusal,
        code_number,
        loads,
        others,
        patterns,
        tests,
    }
}

/// Converts the elements of `record` at the place `at` by `code`.
pub fn convert(
    record: &[u8],
    code: &[u8],
    at: Address,
    budget: u64,
    output: &mut [u8],
    scratch: &mut [u8],
) -> Convert {
    let (mut steps, mut length) = (UNWRITTEN, UNWRITTEN);
    // SAFETY: the first two pairs are live slices that are only read; the other
    // two are live slices borrowed for writing, so they overlap nothing; the
    // two numbers are live, distinct and ours alone during the call.
    let refusal = unsafe {
        sundewfrill_convert(
            record.as_ptr(),
            record.len(),
            code.as_ptr(),
            code.len(),
            output.as_mut_ptr(),
            output.len(),
            scratch.as_mut_ptr(),
            scratch.len(),
            at.a,
            at.v,
            at.s,
            budget,
            &mut steps,
            &mut length,
        )
    };
    Convert {
        refusal,
        steps,
        length,
    }
}

/// The most that converting the elements of `record` at the place `at` by `code`
/// can cost.
pub fn ceiling(record: &[u8], code: &[u8], at: Address) -> Ceiling {
    let mut ceiling = UNWRITTEN;
    // SAFETY: both pairs are live slices that are only read; the number is live
    // and ours alone during the call.
    let refusal = unsafe {
        sundewfrill_ceiling(
            record.as_ptr(),
            record.len(),
            code.as_ptr(),
            code.len(),
            at.a,
            at.v,
            at.s,
            &mut ceiling,
        )
    };
    Ceiling { refusal, ceiling }
}

/// Reads `text` as a date typed in the form of the D code `code`.
pub fn typed_date(code: &[u8], text: &[u8]) -> TypedDate {
    let (mut negative, mut size) = (UNWRITTEN, UNWRITTEN);
    // SAFETY: both pairs are live slices that are only read; the two numbers
    // are live, distinct and ours alone during the call.
    let refusal = unsafe {
        sundewfrill_typed_date(
            code.as_ptr(),
            code.len(),
            text.as_ptr(),
            text.len(),
            &mut negative,
            &mut size,
        )
    };
    TypedDate {
        refusal,
        negative,
        size,
    }
}

/// Writes the F text of the A code `code` to `output`.
pub fn algebra(code: &[u8], output: &mut [u8]) -> Algebra {
    let mut length = UNWRITTEN;
    // SAFETY: the first pair is a live slice that is only read; the second is a
    // live slice borrowed for writing, so it does not overlap it; the number is
    // live and ours alone during the call.
    let refusal = unsafe {
        sundewfrill_algebra(
            code.as_ptr(),
            code.len(),
            output.as_mut_ptr(),
            output.len(),
            &mut length,
        )
    };
    Algebra { refusal, length }
}
