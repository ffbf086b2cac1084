//! Sundewfrill for Rust programs: the dictionary codes of multivalue (Pick)
//! systems, from a library whose every promise is proved.
//!
//! # The safe calls
//!
//! [`find`], [`replace`], [`check`], [`convert`], [`ceiling`], [`typed_date`] and
//! [`algebra`] call the proved library. They take byte slices, hand back structs,
//! slices or numbers, and refuse with a [`Refusal`], which has the paper's number,
//! and says when it is given and what a learner should do.
//!
//! ```no_run
//! # #[cfg(feature = "proved")]
//! # fn example() -> Result<(), sundewfrill_host::Stopped> {
//! use sundewfrill_host::{convert, Address, SCRATCH_LENGTH};
//!
//! let record = b"K1\xfe10\xfd20\xfe3";
//! let mut output = [0; 32_768];
//! let mut scratch = [0; SCRATCH_LENGTH];
//! let all_of_one = Address::new(1, 0, 0);
//! let converted = convert(record, b"F;1;2R;*", all_of_one, 1_000_000, &mut output, &mut scratch)?;
//! assert_eq!(converted.answer, b"30\xfd60");
//! assert_eq!(converted.steps, 62);
//! # Ok(())
//! # }
//! ```
//!
//! # The second implementation
//!
//! [`paper`] is document 01 with requests L1 to L6 of document 02 written down
//! once more in Rust, from these, the two standards and the readings alone. The
//! tests hold the proved library against it, and the benchmark takes it as its
//! measure. It builds anywhere; the proved library is for x86-64 and comes in with
//! the feature `proved`, which is on by default.

#![deny(unsafe_code)]
#![warn(missing_docs)]

#[cfg(feature = "proved")]
#[allow(unsafe_code)]
pub mod ffi;
pub mod fields;
pub mod outcome;
pub mod paper;
#[cfg(feature = "proved")]
mod proved;
mod refusal;

pub use outcome::Address;
#[cfg(feature = "proved")]
pub use proved::{
    algebra, ceiling, check, convert, find, replace, typed_date, BadCode, Converted, Part,
    StepCounts, Stopped,
};
pub use refusal::Refusal;

/// The least length of the scratch lent to [`paper::convert`] and to the proved
/// library's converting: room for 20 entries.
pub const SCRATCH_LENGTH: usize = 20 * paper::ENTRY_LENGTH;
