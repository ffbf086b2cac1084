//! Byte strings as the vectors and the batch program write them: lower-case
//! hex, `-` for the empty string.

use std::fmt::Write;

/// Reads a byte string; `None` if the field is not one.
pub fn read(field: &str) -> Option<Vec<u8>> {
    if field == "-" {
        return Some(Vec::new());
    }
    let digits = field.as_bytes();
    if digits.is_empty() || digits.len() % 2 != 0 {
        return None;
    }
    digits
        .chunks_exact(2)
        .map(|pair| Some(digit(pair[0])? * 16 + digit(pair[1])?))
        .collect()
}

fn digit(byte: u8) -> Option<u8> {
    match byte {
        b'0'..=b'9' => Some(byte - b'0'),
        b'a'..=b'f' => Some(byte - b'a' + 10),
        b'A'..=b'F' => Some(byte - b'A' + 10),
        _ => None,
    }
}

/// Writes a byte string.
pub fn write(bytes: &[u8]) -> String {
    if bytes.is_empty() {
        return "-".to_owned();
    }
    let mut field = String::with_capacity(bytes.len() * 2);
    for byte in bytes {
        write!(field, "{byte:02x}").expect("a string takes all that is written to it");
    }
    field
}

#[cfg(test)]
mod tests {
    use super::*;

    #[test]
    fn there_and_back() {
        let all: Vec<u8> = (0..=255).collect();
        for bytes in [&[] as &[u8], &[0], &[0xfe, 0x1f], &all] {
            assert_eq!(read(&write(bytes)).as_deref(), Some(bytes));
        }
        assert_eq!(write(&[0x4b, 0xfe]), "4bfe");
        assert_eq!(read("4BFE"), Some(vec![0x4b, 0xfe]));
        for bad in ["", "4", "4g", "--", " 41"] {
            assert_eq!(read(bad), None, "{bad:?}");
        }
    }
}
