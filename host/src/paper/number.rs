//! Numbers in decimal.

use crate::refusal::Refusal;

/// The greatest number; the least is its negative.
pub const LIMIT: i64 = 999_999_999_999_999;

/// Ten to the powers 0 to 9.
pub const POWERS_OF_TEN: [i64; 10] = [
    1, 10, 100, 1_000, 10_000, 100_000, 1_000_000, 10_000_000, 100_000_000, 1_000_000_000,
];

/// Reads a number: `None` if `text` has no numeric form, refusal 10 if it has
/// one and its value is out of range.
pub fn read(text: &[u8]) -> Result<Option<i64>, Refusal> {
    let (negative, digits) = match within_blanks(text) {
        [b'-', digits @ ..] => (true, digits),
        [b'+', digits @ ..] => (false, digits),
        digits => (false, digits),
    };
    if digits.is_empty() {
        return Ok(None);
    }
    let mut size = 0;
    for &byte in digits {
        if !byte.is_ascii_digit() {
            return Ok(None);
        }
        // Once over the limit it stays there: more digits make it no smaller.
        if size <= LIMIT {
            size = size * 10 + i64::from(byte - b'0');
        }
    }
    in_range(if negative { -size } else { size }).map(Some)
}

/// What stands within the blanks of a text. Document 02, L3: "Numeric form should
/// ignore blanks (byte 32) before and after, not between. An element of blanks alone
/// is still not numeric."
fn within_blanks(mut text: &[u8]) -> &[u8] {
    while let [b' ', behind @ ..] = text {
        text = behind;
    }
    while let [before @ .., b' '] = text {
        text = before;
    }
    text
}

/// Reads a number, taking text without numeric form as 0.
pub fn read_or_zero(text: &[u8]) -> Result<i64, Refusal> {
    Ok(read(text)?.unwrap_or(0))
}

/// The number itself if it is in range, else refusal 10.
pub fn in_range(value: i64) -> Result<i64, Refusal> {
    if (-LIMIT..=LIMIT).contains(&value) {
        Ok(value)
    } else {
        Err(Refusal::OutOfRange)
    }
}

/// Writes a number to the front of `room` and gives its length.
pub fn write(value: i64, room: &mut [u8]) -> usize {
    let mut text = [0; 20];
    let mut at = text.len();
    let mut rest = value.unsigned_abs();
    loop {
        at -= 1;
        text[at] = b'0' + (rest % 10) as u8;
        rest /= 10;
        if rest == 0 {
            break;
        }
    }
    if value < 0 {
        at -= 1;
        text[at] = b'-';
    }
    let text = &text[at..];
    room[..text.len()].copy_from_slice(text);
    text.len()
}

#[cfg(test)]
mod tests {
    use super::*;

    #[test]
    fn numeric_form() {
        for text in ["", "+", "-", "1.5", "--1", "1-", "9999999999999999x"] {
            assert_eq!(read(text.as_bytes()), Ok(None), "{text:?}");
        }
        for (text, value) in [("-0", 0), ("+007", 7), ("-999999999999999", -LIMIT)] {
            assert_eq!(read(text.as_bytes()), Ok(Some(value)), "{text:?}");
        }
        for text in [
            "1000000000000000",
            "-1000000000000000",
            "99999999999999999999999999",
        ] {
            assert_eq!(read(text.as_bytes()), Err(Refusal::OutOfRange), "{text:?}");
        }
        let mut zeros = vec![b'0'; 1_000];
        zeros.push(b'7');
        assert_eq!(read(&zeros), Ok(Some(7)));
    }

    #[test]
    fn blanks_round_a_number() {
        for (text, value) in [(" 42", 42), ("42   ", 42), (" +5 ", 5), ("  -0 ", 0)] {
            assert_eq!(read(text.as_bytes()), Ok(Some(value)), "{text:?}");
        }
        for text in [" ", "   ", " + ", "- 5", "4 2", " 4 2 ", " \t5 "] {
            assert_eq!(read(text.as_bytes()), Ok(None), "{text:?}");
        }
        let is_other = |byte: &u8| !byte.is_ascii_digit() && *byte != b' ';
        for byte in (0..=255).filter(is_other) {
            let before = (byte != b'+' && byte != b'-').then_some([byte, b'5']);
            for text in before.into_iter().chain([[b'5', byte]]) {
                assert_eq!(read(&text), Ok(None), "{text:?}");
            }
        }
        let past = " 1000000000000000 ";
        assert_eq!(read(past.as_bytes()), Err(Refusal::OutOfRange));
        let mut many = vec![b' '; 1_024];
        assert_eq!(read(&many), Ok(None));
        many[700] = b'7';
        assert_eq!(read(&many), Ok(Some(7)));
    }

    #[test]
    fn written_form() {
        for (value, text) in [(0, "0"), (-1, "-1"), (-LIMIT, "-999999999999999")] {
            let mut room = [0; 16];
            let length = write(value, &mut room);
            assert_eq!(&room[..length], text.as_bytes());
        }
    }
}
