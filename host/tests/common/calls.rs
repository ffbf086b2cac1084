//! The seven calls with their arguments, and the implementations that take them.

use std::fmt;

use sundewfrill_host::outcome::{
    Address, Algebra, Ceiling, Check, Convert, Find, Implementation, Replace, TypedDate,
};
use sundewfrill_host::{fields, paper, SCRATCH_LENGTH};

use super::buffers::Buffers;

/// The independent implementation.
pub const PAPER: Implementation = paper::IMPLEMENTATION;

/// The proved library.
#[cfg(feature = "proved")]
pub const PROVED: Implementation = sundewfrill_host::ffi::IMPLEMENTATION;

/// A call of finding.
#[derive(Clone, Debug, Default)]
pub struct FindCall {
    pub record: Vec<u8>,
    pub at: Address,
}

impl FindCall {
    pub fn run(&self, implementation: &Implementation) -> Find {
        (implementation.find)(&self.record, self.at)
    }
}

/// A call of replacing.
#[derive(Clone, Debug, Default)]
pub struct ReplaceCall {
    pub record: Vec<u8>,
    pub at: Address,
    pub new: Vec<u8>,
    pub output_length: usize,
}

impl ReplaceCall {
    /// Carries out the call on dirty buffers; the output stays in them.
    pub fn run(&self, implementation: &Implementation, buffers: &mut Buffers) -> Replace {
        let output = buffers.output.lend(self.output_length);
        (implementation.replace)(&self.record, &self.new, self.at, output)
    }
}

/// A call of checking.
#[derive(Clone, Debug, Default)]
pub struct CheckCall {
    pub code: Vec<u8>,
}

impl CheckCall {
    pub fn run(&self, implementation: &Implementation) -> Check {
        (implementation.check)(&self.code)
    }
}

/// A call of converting.
#[derive(Clone, Debug, Default)]
pub struct ConvertCall {
    pub record: Vec<u8>,
    pub code: Vec<u8>,
    pub at: Address,
    pub budget: u64,
    pub output_length: usize,
    pub scratch_length: usize,
}

impl ConvertCall {
    /// Carries out the call on dirty buffers; output and scratch stay in them.
    pub fn run(&self, implementation: &Implementation, buffers: &mut Buffers) -> Convert {
        let output = buffers.output.lend(self.output_length);
        let scratch = buffers.scratch.lend(self.scratch_length);
        let (record, code) = (&self.record, &self.code);
        (implementation.convert)(record, code, self.at, self.budget, output, scratch)
    }

    /// One element converted by itself, with budget and room enough for any code.
    pub fn of_element(code: &[u8], element: &[u8]) -> Self {
        ConvertCall {
            record: [b"K1\xfe", element].concat(),
            code: code.to_vec(),
            at: Address::new(1, 1, 1),
            budget: u64::MAX,
            output_length: paper::ENTRY_LENGTH,
            scratch_length: SCRATCH_LENGTH,
        }
    }

    /// This call with budget enough, and room for one element converted or for all of
    /// them as they are.
    pub fn with_enough(&self) -> Self {
        ConvertCall {
            budget: u64::MAX,
            output_length: self.record.len().max(paper::ENTRY_LENGTH),
            scratch_length: SCRATCH_LENGTH,
            ..self.clone()
        }
    }

    /// The call for the ceiling of this one.
    pub fn ceiling(&self) -> CeilingCall {
        CeilingCall {
            record: self.record.clone(),
            code: self.code.clone(),
            at: self.at,
        }
    }
}

/// A call for the ceiling of converting.
#[derive(Clone, Debug, Default)]
pub struct CeilingCall {
    pub record: Vec<u8>,
    pub code: Vec<u8>,
    pub at: Address,
}

impl CeilingCall {
    pub fn run(&self, implementation: &Implementation) -> Ceiling {
        (implementation.ceiling)(&self.record, &self.code, self.at)
    }
}

/// A call of reading a typed date.
#[derive(Clone, Debug, Default)]
pub struct DateCall {
    pub code: Vec<u8>,
    pub text: Vec<u8>,
}

impl DateCall {
    pub fn run(&self, implementation: &Implementation) -> TypedDate {
        (implementation.typed_date)(&self.code, &self.text)
    }
}

/// A call of showing an A code as F.
#[derive(Clone, Debug, Default)]
pub struct AlgebraCall {
    pub code: Vec<u8>,
    pub output_length: usize,
}

impl AlgebraCall {
    /// Carries out the call on dirty buffers; the output stays in them.
    pub fn run(&self, implementation: &Implementation, buffers: &mut Buffers) -> Algebra {
        let output = buffers.output.lend(self.output_length);
        (implementation.algebra)(&self.code, output)
    }
}

// Each call is shown as the batch program reads it.

impl fmt::Display for FindCall {
    fn fmt(&self, f: &mut fmt::Formatter<'_>) -> fmt::Result {
        let Address { a, v, s } = self.at;
        write!(f, "find\t{}\t{a}\t{v}\t{s}", fields::write(&self.record))
    }
}

impl fmt::Display for ReplaceCall {
    fn fmt(&self, f: &mut fmt::Formatter<'_>) -> fmt::Result {
        let Address { a, v, s } = self.at;
        let (record, new) = (fields::write(&self.record), fields::write(&self.new));
        write!(
            f,
            "replace\t{record}\t{a}\t{v}\t{s}\t{new}\t{}",
            self.output_length
        )
    }
}

impl fmt::Display for CheckCall {
    fn fmt(&self, f: &mut fmt::Formatter<'_>) -> fmt::Result {
        write!(f, "check\t{}", fields::write(&self.code))
    }
}

impl fmt::Display for ConvertCall {
    fn fmt(&self, f: &mut fmt::Formatter<'_>) -> fmt::Result {
        let Address { a, v, s } = self.at;
        let (record, code) = (fields::write(&self.record), fields::write(&self.code));
        write!(
            f,
            "convert\t{record}\t{code}\t{a}\t{v}\t{s}\t{}\t{}\t{}",
            self.budget, self.output_length, self.scratch_length
        )
    }
}

impl fmt::Display for CeilingCall {
    fn fmt(&self, f: &mut fmt::Formatter<'_>) -> fmt::Result {
        let Address { a, v, s } = self.at;
        let (record, code) = (fields::write(&self.record), fields::write(&self.code));
        write!(f, "ceilingof\t{record}\t{code}\t{a}\t{v}\t{s}")
    }
}

impl fmt::Display for DateCall {
    fn fmt(&self, f: &mut fmt::Formatter<'_>) -> fmt::Result {
        write!(
            f,
            "date\t{}\t{}",
            fields::write(&self.code),
            fields::write(&self.text)
        )
    }
}

impl fmt::Display for AlgebraCall {
    fn fmt(&self, f: &mut fmt::Formatter<'_>) -> fmt::Result {
        let code = fields::write(&self.code);
        write!(f, "acode\t{code}\t{}", self.output_length)
    }
}
