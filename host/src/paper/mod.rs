//! Document 01 with requests L1 to L6 of document 02, the P code, the rounding of
//! halves, blanks round numbers, the A code and the one entry that an F code ends
//! with, written down once more, from these two, the two standards and the readings
//! of `docs/DECISIONS.md` alone. L6, the days before a month by formula, changes no
//! answer: here they are added up from the lengths of the months.
//!
//! Nothing here comes from the proved library or knows how it works: the two
//! are compared on all they give, every byte of output and scratch included.
//! The rules are the paper's; the comments say only how they are carried out.
//!
//! The seven calls and the programs are in this file. Below it:
//!
//! - `record`: marks, addresses, finding and replacing;
//! - [`grammar`]: from a code string to its codes;
//! - `number`, `calendar`, `mask`, `text`, `pattern`: what single codes do;
//! - `stack`: the entries of an F code;
//! - `run`: elements through codes, with the steps counted;
//! - [`mod@algebra`]: expressions, their F text, and their value without a stack;
//! - `program`, `words`: from standard input to standard output.

pub mod algebra;
mod calendar;
pub mod grammar;
mod mask;
mod number;
mod pattern;
mod pen;
mod program;
mod record;
mod run;
mod stack;
mod text;
mod words;

use crate::outcome::{
    Address, Algebra, Ceiling, Check, Convert, Find, Implementation, Replace, TypedDate,
};
use crate::refusal::Refusal;

pub use program::{formula, program, program_with};
pub use words::words;

/// The most bytes that a record has.
pub const RECORD_LENGTH: usize = 32_768;
/// The most bytes that an item-id has.
pub const ID_LENGTH: usize = 48;
/// The most bytes that a code string has.
pub const CODE_LENGTH: usize = 512;
/// The most bytes that an element, a stack entry or a result has.
pub const ENTRY_LENGTH: usize = 1_024;
/// The most entries that an F code's stack has.
pub const STACK_DEPTH: usize = 16;
/// The greatest attribute number.
pub const LAST_ATTRIBUTE: u64 = 999;
/// The greatest value and subvalue number.
pub const LAST_VALUE: u64 = 32_768;

/// The byte that ends a segment; it never stands in a record.
pub const SEGMENT_MARK: u8 = 255;
/// The byte between attributes.
pub const ATTRIBUTE_MARK: u8 = 254;
/// The byte between values.
pub const VALUE_MARK: u8 = 253;
/// The byte between subvalues.
pub const SUBVALUE_MARK: u8 = 252;
/// The byte around special strings; it never stands in a record.
pub const BUFFER_MARK: u8 = 251;
/// The least of the five marks; all bytes from here on are marks.
pub const LEAST_MARK: u8 = BUFFER_MARK;

/// The seven calls, to be held against another implementation's.
pub const IMPLEMENTATION: Implementation = Implementation {
    name: "the independent implementation",
    find,
    replace,
    check,
    convert,
    ceiling,
    typed_date,
    algebra,
};

/// Finds the place `at` in `record`.
pub fn find(record: &[u8], at: Address) -> Find {
    match record::find(record, at) {
        Ok(Some(part)) => Find {
            refusal: 0,
            found: 1,
            start: part.start as u64,
            length: part.len() as u64,
        },
        Ok(None) => Find::default(),
        Err(refusal) => Find {
            refusal: refusal.number(),
            ..Find::default()
        },
    }
}

/// Writes `record` with `new` at the place `at` to `output`.
pub fn replace(record: &[u8], new: &[u8], at: Address, output: &mut [u8]) -> Replace {
    let result = record::replace(record, new, at, output);
    let (refusal, length) = settle(result, output);
    Replace { refusal, length }
}

/// Checks the code string `code`.
pub fn check(code: &[u8]) -> Check {
    match grammar::check(code) {
        Ok(counts) => Check {
            refusal: 0,
            code_number: 0,
            loads: counts.loads,
            others: counts.others,
            patterns: counts.patterns,
            tests: counts.tests,
        },
        Err(bad) => Check {
            refusal: bad.refusal.number(),
            code_number: bad.number,
            ..Check::default()
        },
    }
}

/// Converts the elements of `record` at the place `at` by `code`.
pub fn convert(
    record: &[u8],
    code: &[u8],
    at: Address,
    budget: u64,
    output: &mut [u8],
    scratch: &mut [u8],
) -> Convert {
    let mut steps = 0;
    let result = run::convert(record, code, at, budget, output, scratch, &mut steps);
    scratch.fill(0);
    let (refusal, length) = settle(result, output);
    Convert {
        refusal,
        steps,
        length,
    }
}

/// The most that converting the elements of `record` at the place `at` by `code`
/// can cost.
pub fn ceiling(record: &[u8], code: &[u8], at: Address) -> Ceiling {
    match run::ceiling(record, code, at) {
        Ok(ceiling) => Ceiling {
            refusal: 0,
            ceiling,
        },
        Err(refusal) => Ceiling {
            refusal: refusal.number(),
            ..Ceiling::default()
        },
    }
}

/// Reads `text` as a date typed in the form of the D code `code`.
pub fn typed_date(code: &[u8], text: &[u8]) -> TypedDate {
    match grammar::date_code(code).and_then(|form| calendar::read(form, text)) {
        Ok(day) => TypedDate::of_day(day),
        Err(refusal) => TypedDate {
            refusal: refusal.number(),
            ..TypedDate::default()
        },
    }
}

/// Writes the F text of the A code `code` to `output`.
pub fn algebra(code: &[u8], output: &mut [u8]) -> Algebra {
    let result = algebra::show(code, output);
    let (refusal, length) = settle(result, output);
    Algebra { refusal, length }
}

/// Leaves `output` as every call must: the answer and then zeros, or zeros
/// throughout. Gives the refusal number and the length of the answer.
fn settle(result: Result<usize, Refusal>, output: &mut [u8]) -> (u64, u64) {
    match result {
        Ok(length) => {
            output[length..].fill(0);
            (0, length as u64)
        }
        Err(refusal) => {
            output.fill(0);
            (refusal.number(), 0)
        }
    }
}
