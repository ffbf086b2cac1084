//! The safe calls over the proved library.

use std::error::Error;
use std::fmt;
use std::ops::Range;

use crate::ffi;
use crate::outcome::Address;
use crate::refusal::Refusal;

/// A part of a record that was found.
#[derive(Clone, Debug, PartialEq, Eq)]
pub struct Part<'r> {
    /// The bytes of the part, marks inside it included; lent from the record.
    pub bytes: &'r [u8],
    /// Where in the record they stand.
    pub range: Range<usize>,
}

/// How many steps a code string has, and how many tests: what its ceiling is
/// made of.
#[derive(Clone, Copy, Debug, PartialEq, Eq)]
pub struct StepCounts {
    /// A: the attribute loads.
    pub loads: u64,
    /// B: the steps that are neither loads nor P codes.
    pub others: u64,
    /// P: the P codes, alone or in an F code's parentheses.
    pub patterns: u64,
    /// T: the tests of all P codes.
    pub tests: u64,
}

/// A code string was refused.
#[derive(Clone, Copy, Debug, PartialEq, Eq)]
pub struct BadCode {
    /// Why.
    pub refusal: Refusal,
    /// Which code, counted from 1; 0 when the whole string is too long.
    pub code_number: u64,
}

/// A conversion that went through.
#[derive(Clone, Copy, Debug, PartialEq, Eq)]
pub struct Converted<'o> {
    /// The answer; lent from the output.
    pub answer: &'o [u8],
    /// What all the steps cost.
    pub steps: u64,
}

/// A conversion that was refused or stopped on its way.
#[derive(Clone, Copy, Debug, PartialEq, Eq)]
pub struct Stopped {
    /// Why.
    pub refusal: Refusal,
    /// What the completed steps cost; 0 when the run never began.
    pub steps: u64,
}

/// Finds the place `at` in `record`: the part, or `None` if it is missing.
///
/// A part that is found and empty is not missing.
///
/// # Errors
///
/// Refusals 1 to 4, tried in this order.
pub fn find(record: &[u8], at: Address) -> Result<Option<Part<'_>>, Refusal> {
    let outcome = ffi::find(record, at);
    accepted(outcome.refusal)?;
    if outcome.found == 0 {
        return Ok(None);
    }
    let start = size(outcome.start);
    let range = start..start + size(outcome.length);
    let bytes = &record[range.clone()];
    Ok(Some(Part { bytes, range }))
}

/// Writes `record` with `new` in the place `at` to `output`, and hands back the
/// new record. A missing place is made by adding marks, as few as will do.
///
/// Behind the new record `output` is cleared; on a refusal all of it is.
///
/// # Errors
///
/// Refusals 1, 2, 3, 4, 9, 17, then 3 and 1 for what would result, then 16.
pub fn replace<'o>(
    record: &[u8],
    new: &[u8],
    at: Address,
    output: &'o mut [u8],
) -> Result<&'o [u8], Refusal> {
    let outcome = ffi::replace(record, new, at, output);
    accepted(outcome.refusal)?;
    Ok(&output[..size(outcome.length)])
}

/// Checks the code string `code` and counts its steps.
///
/// ```
/// use sundewfrill_host::{check, Refusal};
///
/// let counts = check(b"F;1;(P(1N);(2A));(L)").unwrap();
/// assert_eq!((counts.loads, counts.others), (1, 1));
/// assert_eq!((counts.patterns, counts.tests), (1, 2));
/// assert_eq!(check(b"P(1N;2A)").unwrap_err().refusal, Refusal::NotInGrammar);
/// assert_eq!(check(b"F;1;2;3;+").unwrap_err().refusal, Refusal::EntriesLeftOver);
/// ```
///
/// # Errors
///
/// Refusal 5, or the first bad code with 6, 7 or 18, tried on it in this order.
pub fn check(code: &[u8]) -> Result<StepCounts, BadCode> {
    let outcome = ffi::check(code);
    match accepted(outcome.refusal) {
        Ok(()) => Ok(StepCounts {
            loads: outcome.loads,
            others: outcome.others,
            patterns: outcome.patterns,
            tests: outcome.tests,
        }),
        Err(refusal) => Err(BadCode {
            refusal,
            code_number: outcome.code_number,
        }),
    }
}

/// Takes each subvalue of `record` inside the place `at` through the codes of
/// `code` and hands back the results with the marks kept between them.
///
/// The run may cost `budget` steps in all. `scratch` needs
/// [`SCRATCH_LENGTH`](crate::SCRATCH_LENGTH) bytes and is cleared. Behind the
/// answer `output` is cleared; on a refusal all of it is.
///
/// # Errors
///
/// Refusals 1 to 5, then 6, 7 or 18 of the first bad code, 8, then those of the
/// run, then 16; with the steps that were completed.
pub fn convert<'o>(
    record: &[u8],
    code: &[u8],
    at: Address,
    budget: u64,
    output: &'o mut [u8],
    scratch: &mut [u8],
) -> Result<Converted<'o>, Stopped> {
    let outcome = ffi::convert(record, code, at, budget, output, scratch);
    let steps = outcome.steps;
    match accepted(outcome.refusal) {
        Ok(()) => Ok(Converted {
            answer: &output[..size(outcome.length)],
            steps,
        }),
        Err(refusal) => Err(Stopped { refusal, steps }),
    }
}

/// The most steps that [`convert`] can take on these: a budget as great as this
/// is never used up.
///
/// It is worked out from the length of `record`, the number of elements inside
/// the place `at` and the steps of `code`; nothing is converted.
///
/// ```
/// use sundewfrill_host::{ceiling, Address, Refusal};
///
/// let record = b"K1\xfe10\xfd20\xfe3";
/// let all_of_one = Address::new(1, 0, 0);
/// assert_eq!(ceiling(record, b"F;1;2R;*", all_of_one), Ok(12_334));
/// assert_eq!(ceiling(record, b"F;1;+", all_of_one), Err(Refusal::StackMisused));
/// ```
///
/// # Errors
///
/// Refusals 1 to 7 and 18, as [`convert`] gives them before its run.
pub fn ceiling(record: &[u8], code: &[u8], at: Address) -> Result<u64, Refusal> {
    let outcome = ffi::ceiling(record, code, at);
    accepted(outcome.refusal)?;
    Ok(outcome.ceiling)
}

/// Reads `text` as a date typed in the form of the D code `code`, and gives its
/// day; day 0 is 31 December 1967.
///
/// # Errors
///
/// Refusal 5, then 6 if `code` is not exactly one D code, then 12.
pub fn typed_date(code: &[u8], text: &[u8]) -> Result<i64, Refusal> {
    let outcome = ffi::typed_date(code, text);
    accepted(outcome.refusal)?;
    Ok(outcome.day())
}

/// Writes the A code `code` as an F code to `output`, and hands back the F text:
/// operands as they are written, each operator straight after its own.
///
/// Behind the F text `output` is cleared; on a refusal all of it is.
///
/// ```
/// use sundewfrill_host::{algebra, Refusal};
///
/// let mut output = [0; 512];
/// assert_eq!(algebra(b"A1+2*3", &mut output), Ok(b"F;1;2;+;3;*".as_slice()));
/// assert_eq!(algebra(b"A1+(2*3)", &mut output), Ok(b"F;1;2;3;*;+".as_slice()));
/// assert_eq!(algebra(b"A1+", &mut output), Err(Refusal::NotInGrammar));
/// ```
///
/// # Errors
///
/// Refusals 5 for the A code, 6, 5 for the F text, 7, then 16.
pub fn algebra<'o>(code: &[u8], output: &'o mut [u8]) -> Result<&'o [u8], Refusal> {
    let outcome = ffi::algebra(code, output);
    accepted(outcome.refusal)?;
    Ok(&output[..size(outcome.length)])
}

/// A refusal number as a result.
fn accepted(number: u64) -> Result<(), Refusal> {
    match Refusal::from_number(number) {
        Some(refusal) => Err(refusal),
        None if number == 0 => Ok(()),
        None => {
            panic!("the library gave the refusal number {number}, which the paper does not have")
        }
    }
}

/// A place in a lent slice, or a length of one, as a size of this machine.
fn size(number: u64) -> usize {
    usize::try_from(number).expect("places in memory fit in a size")
}

impl fmt::Display for BadCode {
    fn fmt(&self, f: &mut fmt::Formatter<'_>) -> fmt::Result {
        match self.code_number {
            0 => write!(f, "{}", self.refusal),
            number => write!(f, "code {number}: {}", self.refusal),
        }
    }
}

impl Error for BadCode {}

impl fmt::Display for Stopped {
    fn fmt(&self, f: &mut fmt::Formatter<'_>) -> fmt::Result {
        write!(f, "after {} steps: {}", self.steps, self.refusal)
    }
}

impl Error for Stopped {}
