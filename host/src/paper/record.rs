//! Records and addresses: finding, replacing, and walking over elements.
//!
//! A record that was let in holds neither 251 nor 255, so the marks that it may
//! hold are ordered like the structure: a subvalue ends at the next byte of 252
//! or more, a value at the next of 253 or more, an attribute at the next 254.

use std::ops::Range;

use super::{
    ATTRIBUTE_MARK, BUFFER_MARK, ENTRY_LENGTH, ID_LENGTH, LAST_ATTRIBUTE, LAST_VALUE, LEAST_MARK,
    RECORD_LENGTH, SEGMENT_MARK, SUBVALUE_MARK, VALUE_MARK,
};
use crate::outcome::Address;
use crate::refusal::Refusal;

/// Lets in a record and an address: refusals 1, 2, 3, 4.
pub fn admit(record: &[u8], at: Address) -> Result<(), Refusal> {
    if record.len() > RECORD_LENGTH {
        return Err(Refusal::RecordTooLong);
    }
    if holds_forbidden(record) {
        return Err(Refusal::ByteNotForRecords);
    }
    admit_id(item_id(record))?;
    admit_address(at)
}

/// Whether 251 or 255 stands in the record. Looks at all bytes, without an
/// early way out, which lets the compiler take many at a time.
fn holds_forbidden(record: &[u8]) -> bool {
    record.iter().fold(false, |found, &byte| {
        found | (byte == BUFFER_MARK) | (byte == SEGMENT_MARK)
    })
}

fn admit_id(id: &[u8]) -> Result<(), Refusal> {
    let good = id.len() <= ID_LENGTH && !id.iter().any(|&byte| byte >= SUBVALUE_MARK);
    good.then_some(()).ok_or(Refusal::BadItemId)
}

fn admit_address(at: Address) -> Result<(), Refusal> {
    let in_size = at.a <= LAST_ATTRIBUTE && at.v <= LAST_VALUE && at.s <= LAST_VALUE;
    let no_gap = (at.v > 0 || at.s == 0) && (at.a > 0 || at.v == 0);
    (in_size && no_gap).then_some(()).ok_or(Refusal::BadAddress)
}

/// The item-id: everything before the first attribute mark.
pub fn item_id(record: &[u8]) -> &[u8] {
    &record[..end_of(record, 0, ATTRIBUTE_MARK)]
}

/// The part of `record` at the place `at`, or `None` if it is missing.
pub fn find(record: &[u8], at: Address) -> Result<Option<Range<usize>>, Refusal> {
    admit(record, at)?;
    Ok(locate(record, at).found())
}

/// The bytes of attribute `a` at (v, s), for a load; empty when missing.
pub fn load(record: &[u8], a: u64, v: u64, s: u64) -> &[u8] {
    match a {
        0 => item_id(record),
        _ => match locate(record, Address { a, v, s }).found() {
            Some(part) => &record[part],
            None => &[],
        },
    }
}

/// Writes the record with `new` at the place `at` to the front of `output` and
/// gives its length.
pub fn replace(
    record: &[u8],
    new: &[u8],
    at: Address,
    output: &mut [u8],
) -> Result<usize, Refusal> {
    admit(record, at)?;
    admit_new(new)?;
    let place = locate(record, at);
    if at.a == 0 && new.len() > ID_LENGTH {
        return Err(Refusal::BadItemId);
    }
    let made = place.lacking.iter().sum::<usize>();
    let length = record.len() - place.part.len() + made + new.len();
    if length > RECORD_LENGTH {
        return Err(Refusal::RecordTooLong);
    }
    if length > output.len() {
        return Err(Refusal::OutputTooShort);
    }
    let rest = append(output, &record[..place.part.start]);
    let rest = append_marks(rest, place.lacking);
    let rest = append(rest, new);
    append(rest, &record[place.part.end..]);
    Ok(length)
}

fn admit_new(new: &[u8]) -> Result<(), Refusal> {
    if new.len() > ENTRY_LENGTH {
        return Err(Refusal::ElementTooLong);
    }
    if new.iter().any(|&byte| byte >= LEAST_MARK) {
        return Err(Refusal::MarkInNewElement);
    }
    Ok(())
}

/// Copies `bytes` to the front of `output` and gives what is behind them.
fn append<'o>(output: &'o mut [u8], bytes: &[u8]) -> &'o mut [u8] {
    let (front, rest) = output.split_at_mut(bytes.len());
    front.copy_from_slice(bytes);
    rest
}

/// Writes the marks that make a place to the front of `output` and gives what
/// is behind them.
fn append_marks(mut output: &mut [u8], lacking: [usize; 3]) -> &mut [u8] {
    for (mark, count) in [ATTRIBUTE_MARK, VALUE_MARK, SUBVALUE_MARK]
        .into_iter()
        .zip(lacking)
    {
        let (front, rest) = output.split_at_mut(count);
        front.fill(mark);
        output = rest;
    }
    output
}

/// Where a place is, or where it would have to be made.
struct Place {
    /// The bytes of the place; when it is missing, the empty part before which
    /// marks have to be added.
    part: Range<usize>,
    /// How many attribute, value and subvalue marks are lacking before it.
    lacking: [usize; 3],
}

impl Place {
    fn found(self) -> Option<Range<usize>> {
        (self.lacking == [0; 3]).then_some(self.part)
    }
}

/// Goes to the place `at`, first the attribute, in it the value, in it the
/// subvalue, as far as the address names them.
fn locate(record: &[u8], at: Address) -> Place {
    let levels = [
        (ATTRIBUTE_MARK, at.a + 1),
        (VALUE_MARK, at.v),
        (SUBVALUE_MARK, at.s),
    ];
    let mut start = 0;
    let mut lacking = [0; 3];
    let mut last_mark = ATTRIBUTE_MARK;
    for (level, (mark, number)) in levels.into_iter().enumerate() {
        let Some(before) = number.checked_sub(1) else {
            break;
        };
        let before = before as usize;
        last_mark = mark;
        if lacking == [0; 3] {
            (start, lacking[level]) = skip(record, start, mark, before);
        } else {
            lacking[level] = before;
        }
    }
    let end = match lacking {
        [0, 0, 0] => end_of(record, start, last_mark),
        _ => start,
    };
    Place {
        part: start..end,
        lacking,
    }
}

/// Goes from `start` over `count` pieces that end in `mark`. Gives the start of
/// the next piece and 0; or, when the pieces come to an end before, the end of
/// the last one and how many marks are lacking.
fn skip(record: &[u8], start: usize, mark: u8, count: usize) -> (usize, usize) {
    if count == 0 {
        return (start, 0);
    }
    let mut lacking = count;
    for (place, &byte) in record.iter().enumerate().skip(start) {
        if byte > mark {
            return (place, lacking);
        }
        if byte == mark {
            lacking -= 1;
            if lacking == 0 {
                return (place + 1, 0);
            }
        }
    }
    (record.len(), lacking)
}

/// Where the piece that starts at `start` ends: at the next mark of this level
/// or of one above it, or with the record.
fn end_of(record: &[u8], start: usize, mark: u8) -> usize {
    let rest = &record[start..];
    let length = rest.iter().position(|&byte| byte >= mark);
    start + length.unwrap_or(rest.len())
}

/// An element on its way into a conversion.
pub struct Element<'r> {
    /// Its bytes, without marks.
    pub bytes: &'r [u8],
    /// The number of its value.
    pub v: u64,
    /// The number of its subvalue.
    pub s: u64,
    /// The mark that stands behind it, if another element follows.
    pub mark: Option<u8>,
}

/// The elements inside the place `at`, from left to right.
pub fn elements(record: &[u8], at: Address) -> Elements<'_> {
    let part = locate(record, at).found().unwrap_or(0..0);
    Elements {
        rest: Some(&record[part]),
        v: at.v.max(1),
        s: at.s.max(1),
    }
}

/// The walk over the elements of a part.
pub struct Elements<'r> {
    /// What is still to come; `None` when the last element was given.
    rest: Option<&'r [u8]>,
    v: u64,
    s: u64,
}

impl<'r> Iterator for Elements<'r> {
    type Item = Element<'r>;

    fn next(&mut self) -> Option<Element<'r>> {
        let rest = self.rest?;
        let end = end_of(rest, 0, SUBVALUE_MARK);
        let element = Element {
            bytes: &rest[..end],
            v: self.v,
            s: self.s,
            mark: rest.get(end).copied(),
        };
        self.rest = rest.get(end + 1..);
        if element.mark == Some(VALUE_MARK) {
            self.v += 1;
            self.s = 1;
        } else {
            self.s += 1;
        }
        Some(element)
    }
}
