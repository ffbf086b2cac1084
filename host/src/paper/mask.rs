//! The ML and MR codes: numbers with decimals, commas, signs and fill.

use super::number::{self, POWERS_OF_TEN};
use super::pen::Pen;
use crate::refusal::Refusal;

/// What an ML or MR code says.
#[derive(Clone, Copy, Debug, PartialEq, Eq)]
pub struct Mask {
    /// ML or MR.
    pub side: Side,
    /// n: the digits behind the point; absent means 0.
    pub decimals: Option<u8>,
    /// m: the power of ten that the element is divided by; absent means n.
    pub scale: Option<u8>,
    /// Z: an element of 0 gives empty text.
    pub zero_as_empty: bool,
    /// A comma at every three integer digits.
    pub commas: bool,
    /// How a sign is shown.
    pub credit: Option<Credit>,
    /// A `$` in front.
    pub dollar: bool,
    /// The field that the text is put in.
    pub field: Option<Field>,
}

/// The side of the field at which the text stands.
#[derive(Clone, Copy, Debug, PartialEq, Eq)]
pub enum Side {
    /// ML: text on the left, fill on the right.
    Left,
    /// MR: text on the right, fill on the left.
    Right,
}

/// A credit indicator.
#[derive(Clone, Copy, Debug, PartialEq, Eq)]
pub enum Credit {
    /// C: `CR` behind negative values.
    Cr,
    /// D: `DB` behind positive values.
    Db,
    /// E: negative values in angle brackets.
    Brackets,
    /// M: a minus sign behind negative values.
    Minus,
    /// N: no minus sign.
    Nothing,
}

/// A field of so many bytes, filled up with one of three.
#[derive(Clone, Copy, Debug, PartialEq, Eq)]
pub struct Field {
    /// What the field is filled with.
    pub fill: Fill,
    /// How wide it is, 1 to 99.
    pub width: u8,
}

/// What a field is filled with.
#[derive(Clone, Copy, Debug, PartialEq, Eq)]
pub enum Fill {
    /// `#`
    Blanks,
    /// `*`
    Asterisks,
    /// `%`
    Zeros,
}

impl Fill {
    fn byte(self) -> u8 {
        match self {
            Fill::Blanks => b' ',
            Fill::Asterisks => b'*',
            Fill::Zeros => b'0',
        }
    }
}

/// Room for the longest text: fifteen digits with commas, point, sign, brackets
/// and suffix.
const TEXT_ROOM: usize = 32;

/// Puts the masked number in `room[..length]` in its place and gives the new
/// length: refusals 12, 10, 14.
pub fn write(mask: Mask, room: &mut [u8], length: usize) -> Result<usize, Refusal> {
    if length == 0 {
        return Ok(0);
    }
    let value = number::read(&room[..length])?.ok_or(Refusal::NotConvertible)?;
    if mask.zero_as_empty && value == 0 {
        let width = mask.field.map_or(0, |field| usize::from(field.width));
        room[..width].fill(b' ');
        return Ok(width);
    }
    let shown = scaled(value, mask)?;
    let mut text = [0; TEXT_ROOM];
    let text_length = write_text(mask, shown, &mut text);
    place(mask, &text[..text_length], room)
}

/// The value to show, in units of its last decimal: rounded to nearest or
/// multiplied. Document 02, L2: "Halves are to round away from zero, so -25 gives
/// -3, and a number and its negative show the same digits before fill whenever
/// both are converted. The sign is still that of the rounded value."
fn scaled(value: i64, mask: Mask) -> Result<i64, Refusal> {
    let decimals = usize::from(mask.decimals.unwrap_or(0));
    let scale = mask.scale.map_or(decimals, usize::from);
    if decimals >= scale {
        let product = value.checked_mul(POWERS_OF_TEN[decimals - scale]);
        return number::in_range(product.ok_or(Refusal::OutOfRange)?);
    }
    // Only the size is rounded: the sign has no say in it, and a size of 0 has none.
    let (unit, size) = (POWERS_OF_TEN[scale - decimals], value.abs());
    let rounded = size / unit + i64::from(2 * (size % unit) >= unit);
    Ok(value.signum() * rounded)
}

/// Writes sign, digits, suffix and `$` into `text` and gives their length.
fn write_text(mask: Mask, shown: i64, text: &mut [u8]) -> usize {
    let mut pen = Pen::new(text);
    if mask.dollar {
        pen.put(b'$');
    }
    if shown < 0 {
        match mask.credit {
            None | Some(Credit::Db) => pen.put(b'-'),
            Some(Credit::Brackets) => pen.put(b'<'),
            Some(Credit::Cr | Credit::Minus | Credit::Nothing) => {}
        }
    }
    write_digits(mask, shown.unsigned_abs(), &mut pen);
    pen.put_all(suffix(mask.credit, shown));
    pen.length()
}

/// Writes the digits with their commas and their point.
fn write_digits(mask: Mask, size: u64, pen: &mut Pen) {
    let decimals = mask.decimals.unwrap_or(0);
    let unit = POWERS_OF_TEN[usize::from(decimals)] as u64;
    let mut integer = [0; 16];
    let count = number::write((size / unit) as i64, &mut integer);
    for (place, &digit) in integer[..count].iter().enumerate() {
        let to_come = count - place;
        if mask.commas && place > 0 && to_come % 3 == 0 {
            pen.put(b',');
        }
        pen.put(digit);
    }
    if decimals > 0 {
        pen.put(b'.');
        pen.put_digits(size % unit, usize::from(decimals));
    }
}

/// What stands behind the digits.
fn suffix(credit: Option<Credit>, shown: i64) -> &'static [u8] {
    match credit {
        None | Some(Credit::Nothing) => b"",
        Some(Credit::Cr) if shown < 0 => b"CR",
        Some(Credit::Db) if shown > 0 => b"DB",
        Some(Credit::Cr | Credit::Db) => b"  ",
        Some(Credit::Brackets) if shown < 0 => b">",
        Some(Credit::Minus) if shown < 0 => b"-",
        Some(Credit::Brackets | Credit::Minus) => b" ",
    }
}

/// Puts the text into its field, if there is one, and gives the length.
fn place(mask: Mask, text: &[u8], room: &mut [u8]) -> Result<usize, Refusal> {
    let Some(field) = mask.field else {
        room[..text.len()].copy_from_slice(text);
        return Ok(text.len());
    };
    let width = usize::from(field.width);
    let space = width
        .checked_sub(text.len())
        .ok_or(Refusal::WiderThanMask)?;
    let start = match mask.side {
        Side::Left => 0,
        Side::Right => space,
    };
    room[..width].fill(field.fill.byte());
    room[start..start + text.len()].copy_from_slice(text);
    Ok(width)
}
