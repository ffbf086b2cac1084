//! The calls as plain numbers: what goes in beside the bytes, and what comes out.
//!
//! Both implementations speak these types, so that one can be held against the
//! other field by field. A number that a call does not give is 0.

/// Where in a record: attribute `a`, value `v`, subvalue `s`.
///
/// Attribute 0 is the item-id. `v` = 0 means the whole attribute, `s` = 0 the
/// whole value.
#[derive(Clone, Copy, Debug, Default, PartialEq, Eq)]
pub struct Address {
    /// The attribute, 0 to 999.
    pub a: u64,
    /// The value, 0 to 32,768.
    pub v: u64,
    /// The subvalue, 0 to 32,768.
    pub s: u64,
}

impl Address {
    /// The address (a, v, s).
    pub const fn new(a: u64, v: u64, s: u64) -> Self {
        Address { a, v, s }
    }
}

/// The outcome of finding.
#[derive(Clone, Copy, Debug, Default, PartialEq, Eq)]
pub struct Find {
    /// The refusal number, 0 for none.
    pub refusal: u64,
    /// 1 if the place is there, 0 if it is missing or the call refused.
    pub found: u64,
    /// Where in the record the part starts, counted from 0.
    pub start: u64,
    /// How many bytes the part has.
    pub length: u64,
}

/// The outcome of replacing; the new record is in the output.
#[derive(Clone, Copy, Debug, Default, PartialEq, Eq)]
pub struct Replace {
    /// The refusal number, 0 for none.
    pub refusal: u64,
    /// How many bytes the new record has.
    pub length: u64,
}

/// The outcome of checking a code string.
#[derive(Clone, Copy, Debug, Default, PartialEq, Eq)]
pub struct Check {
    /// The refusal number, 0 for none.
    pub refusal: u64,
    /// The number, from 1, of the first bad code.
    pub code_number: u64,
    /// A: how many attribute loads the string has.
    pub loads: u64,
    /// B: how many other steps the string has, its P codes left out.
    pub others: u64,
    /// P: how many P codes the string has, alone or in an F code's parentheses.
    pub patterns: u64,
    /// T: how many tests all its P codes have.
    pub tests: u64,
}

/// The outcome of converting; the answer is in the output.
#[derive(Clone, Copy, Debug, Default, PartialEq, Eq)]
pub struct Convert {
    /// The refusal number, 0 for none.
    pub refusal: u64,
    /// The cost of the completed steps.
    pub steps: u64,
    /// How many bytes the answer has.
    pub length: u64,
}

/// The outcome of asking for the ceiling.
#[derive(Clone, Copy, Debug, Default, PartialEq, Eq)]
pub struct Ceiling {
    /// The refusal number, 0 for none.
    pub refusal: u64,
    /// The most that all the steps of converting can cost.
    pub ceiling: u64,
}

/// The outcome of reading a typed date.
#[derive(Clone, Copy, Debug, Default, PartialEq, Eq)]
pub struct TypedDate {
    /// The refusal number, 0 for none.
    pub refusal: u64,
    /// 1 for a day before day 0, else 0.
    pub negative: u64,
    /// How far the day is from day 0, which is 31 December 1967.
    pub size: u64,
}

impl TypedDate {
    /// The outcome that gives this day.
    pub const fn of_day(day: i64) -> Self {
        TypedDate {
            refusal: 0,
            negative: (day < 0) as u64,
            size: day.unsigned_abs(),
        }
    }

    /// The day that sign and size stand for; 0 on a refusal.
    ///
    /// # Panics
    ///
    /// If they stand for no day at all, which no call gives.
    pub fn day(&self) -> i64 {
        let size = i64::try_from(self.size).expect("a day has a small size");
        match self.negative {
            0 => size,
            1 => -size,
            sign => panic!("the sign of a day is 0 or 1, not {sign}"),
        }
    }
}

/// The outcome of showing an A code as F; the F text is in the output.
#[derive(Clone, Copy, Debug, Default, PartialEq, Eq)]
pub struct Algebra {
    /// The refusal number, 0 for none.
    pub refusal: u64,
    /// How many bytes the F text has.
    pub length: u64,
}

/// How converting is called: record, code, place, budget, output, scratch.
pub type Converting = fn(&[u8], &[u8], Address, u64, &mut [u8], &mut [u8]) -> Convert;

/// One that carries out document 01's five calls, its ceiling, and the showing of A
/// codes.
#[derive(Clone, Copy)]
pub struct Implementation {
    /// What it is called in messages.
    pub name: &'static str,
    /// Finding: record, place.
    pub find: fn(&[u8], Address) -> Find,
    /// Replacing: record, new element, place, output.
    pub replace: fn(&[u8], &[u8], Address, &mut [u8]) -> Replace,
    /// Checking: code string.
    pub check: fn(&[u8]) -> Check,
    /// Converting.
    pub convert: Converting,
    /// The ceiling of converting: record, code, place.
    pub ceiling: fn(&[u8], &[u8], Address) -> Ceiling,
    /// Reading a typed date: code, text.
    pub typed_date: fn(&[u8], &[u8]) -> TypedDate,
    /// Showing an A code as F: code, output.
    pub algebra: fn(&[u8], &mut [u8]) -> Algebra,
}
