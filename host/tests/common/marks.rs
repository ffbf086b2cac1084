//! Marks as they are drawn, and as they are.

use sundewfrill_host::paper::{ATTRIBUTE_MARK, SUBVALUE_MARK, VALUE_MARK};

/// Each mark and its drawing.
const DRAWN: [(u8, u8); 3] = [
    (ATTRIBUTE_MARK, b'^'),
    (VALUE_MARK, b']'),
    (SUBVALUE_MARK, b'\\'),
];

/// Bytes with the marks drawn: `^`, `]` and `\` become 254, 253 and 252.
pub fn marked(text: &(impl AsRef<[u8]> + ?Sized)) -> Vec<u8> {
    exchanged(text.as_ref(), |&(mark, drawn)| (drawn, mark))
}

/// A text as a program writes it.
pub fn drawn(text: &[u8]) -> Vec<u8> {
    exchanged(text, |&pair| pair)
}

/// A text with one of each pair for the other.
fn exchanged(text: &[u8], pair: impl Fn(&(u8, u8)) -> (u8, u8)) -> Vec<u8> {
    let other = |byte: &u8| {
        let found = DRAWN.iter().map(&pair).find(|(from, _)| from == byte);
        found.map_or(*byte, |(_, to)| to)
    };
    text.iter().map(other).collect()
}
