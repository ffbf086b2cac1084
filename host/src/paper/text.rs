//! The codes on text: G, T, L, MC, MX and MY.
//!
//! Each works in place: the element is `room[..length]`, the result takes its
//! place, and its length is given back. `room` has at least 1,024 bytes.

use std::ops::Range;

use super::number;
use super::{ENTRY_LENGTH, LEAST_MARK};
use crate::refusal::Refusal;

/// What a G code says.
#[derive(Clone, Copy, Debug, PartialEq, Eq)]
pub struct Group {
    /// How many fields to skip; absent means none.
    pub skip: Option<u16>,
    /// The byte between fields.
    pub separator: u8,
    /// How many fields to take, at least 1.
    pub take: u16,
}

/// What a T code says.
#[derive(Clone, Copy, Debug, PartialEq, Eq)]
pub struct Cut {
    /// The first byte to take, from 1; absent means 1.
    pub start: Option<u16>,
    /// How many bytes to take.
    pub length: u16,
}

/// What an L code says.
#[derive(Clone, Copy, Debug, PartialEq, Eq)]
pub enum LengthCode {
    /// `L`: the length itself.
    Give,
    /// `Ln`: the element if it is not longer.
    AtMost(u16),
    /// `Ln,m`: the element if its length is from n to m.
    Between(u16, u16),
}

/// What an MC code says.
#[derive(Clone, Copy, Debug, PartialEq, Eq)]
pub enum CharacterCode {
    /// `MCA`
    Letters,
    /// `MC/A`
    NoLetters,
    /// `MCN`
    Digits,
    /// `MC/N`
    NoDigits,
    /// `MCU`
    Upper,
    /// `MCL`
    Lower,
    /// `MCT`
    Title,
}

/// G: some of the fields.
pub fn group(code: Group, room: &mut [u8], length: usize) -> usize {
    let taken = fields(code, &room[..length]);
    to_front(room, taken)
}

/// Where the fields stand that a G code takes.
fn fields(code: Group, text: &[u8]) -> Range<usize> {
    let next = |from: usize| {
        let place = text[from..].iter().position(|&byte| byte == code.separator);
        place.map(|place| from + place)
    };
    let mut start = 0;
    for _ in 0..code.skip.unwrap_or(0) {
        match next(start) {
            Some(separator) => start = separator + 1,
            None => return text.len()..text.len(),
        }
    }
    let mut field = start;
    for _ in 1..code.take {
        match next(field) {
            Some(separator) => field = separator + 1,
            None => return start..text.len(),
        }
    }
    start..next(field).unwrap_or(text.len())
}

/// T: some of the bytes.
pub fn cut(code: Cut, room: &mut [u8], length: usize) -> usize {
    let start = code.start.map_or(0, |start| usize::from(start) - 1);
    let start = start.min(length);
    let end = (start + usize::from(code.length)).min(length);
    to_front(room, start..end)
}

/// L: the length, or the element if its length is right.
pub fn length_code(code: LengthCode, room: &mut [u8], length: usize) -> usize {
    let right = match code {
        LengthCode::Give => return number::write(length as i64, room),
        LengthCode::AtMost(most) => length <= usize::from(most),
        LengthCode::Between(least, most) => {
            (usize::from(least)..=usize::from(most)).contains(&length)
        }
    };
    if right {
        length
    } else {
        0
    }
}

/// MC: bytes of one class, or another case.
pub fn character_code(code: CharacterCode, room: &mut [u8], length: usize) -> usize {
    let text = &mut room[..length];
    match code {
        CharacterCode::Letters => return keep(text, |byte| byte.is_ascii_alphabetic()),
        CharacterCode::NoLetters => return keep(text, |byte| !byte.is_ascii_alphabetic()),
        CharacterCode::Digits => return keep(text, |byte| byte.is_ascii_digit()),
        CharacterCode::NoDigits => return keep(text, |byte| !byte.is_ascii_digit()),
        CharacterCode::Upper => text.make_ascii_uppercase(),
        CharacterCode::Lower => text.make_ascii_lowercase(),
        CharacterCode::Title => title(text),
    }
    length
}

/// Keeps the bytes for which `wanted` holds and gives their number.
fn keep(text: &mut [u8], wanted: impl Fn(u8) -> bool) -> usize {
    let mut kept = 0;
    for place in 0..text.len() {
        let byte = text[place];
        // Writing always and counting only what is wanted needs no branch.
        text[kept] = byte;
        kept += usize::from(wanted(byte));
    }
    kept
}

/// Raises each letter that follows a non-letter and lowers the others.
fn title(text: &mut [u8]) {
    let mut after_letter = false;
    for byte in text {
        *byte = if after_letter {
            byte.to_ascii_lowercase()
        } else {
            byte.to_ascii_uppercase()
        };
        after_letter = byte.is_ascii_alphabetic();
    }
}

/// MX: two hex digits for each byte. Works from the back, where the digits do
/// not meet the bytes still to be read.
pub fn to_hex(room: &mut [u8], length: usize) -> Result<usize, Refusal> {
    const DIGITS: &[u8; 16] = b"0123456789ABCDEF";
    if length * 2 > ENTRY_LENGTH {
        return Err(Refusal::ElementTooLong);
    }
    for place in (0..length).rev() {
        let byte = usize::from(room[place]);
        room[place * 2] = DIGITS[byte / 16];
        room[place * 2 + 1] = DIGITS[byte % 16];
    }
    Ok(length * 2)
}

/// MY: a byte for each two hex digits.
pub fn from_hex(room: &mut [u8], length: usize) -> Result<usize, Refusal> {
    if length % 2 != 0 {
        return Err(Refusal::NotConvertible);
    }
    let mut has_mark = false;
    for place in 0..length / 2 {
        let high = hex_value(room[place * 2])?;
        let low = hex_value(room[place * 2 + 1])?;
        let byte = high * 16 + low;
        has_mark |= byte >= LEAST_MARK;
        room[place] = byte;
    }
    if has_mark {
        return Err(Refusal::MarkProduced);
    }
    Ok(length / 2)
}

fn hex_value(digit: u8) -> Result<u8, Refusal> {
    match digit {
        b'0'..=b'9' => Ok(digit - b'0'),
        b'A'..=b'F' => Ok(digit - b'A' + 10),
        b'a'..=b'f' => Ok(digit - b'a' + 10),
        _ => Err(Refusal::NotConvertible),
    }
}

/// Moves a part of the room to its front and gives the part's length.
fn to_front(room: &mut [u8], part: Range<usize>) -> usize {
    let length = part.len();
    room.copy_within(part, 0);
    length
}
