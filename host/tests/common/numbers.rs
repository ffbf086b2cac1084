//! Numbers as they are spelt: the blanks round them, their value, and their negative.

/// The one byte that numeric form ignores before and after a number.
pub const BLANK: u8 = 32;

/// A text in three: the blanks before it, what stands within them, and the blanks
/// behind it. Blanks alone have nothing within them.
pub fn parted(text: &[u8]) -> [&[u8]; 3] {
    let is_other = |byte: &u8| *byte != BLANK;
    let first = text.iter().position(is_other).unwrap_or(text.len());
    let last = text
        .iter()
        .rposition(is_other)
        .map_or(first, |last| last + 1);
    [&text[..first], &text[first..last], &text[last..]]
}

/// What stands within the blanks of a text.
pub fn within_blanks(text: &[u8]) -> &[u8] {
    parted(text)[1]
}

/// What is left of a text without any of its blanks.
pub fn closed_up(text: &[u8]) -> Vec<u8> {
    let others = text.iter().copied().filter(|&byte| byte != BLANK);
    others.collect()
}

/// A text with so many blanks before and behind it.
pub fn blanked(before: usize, text: &[u8], behind: usize) -> Vec<u8> {
    [&vec![BLANK; before], text, &vec![BLANK; behind]].concat()
}

/// A text without the sign that it may begin with.
pub fn unsigned(text: &[u8]) -> &[u8] {
    match text {
        [b'+' | b'-', digits @ ..] => digits,
        digits => digits,
    }
}

/// Whether there are blanks at the ends of a text.
pub fn has_blanks(text: &[u8]) -> bool {
    within_blanks(text).len() < text.len()
}

/// Whether a text is one or more digits.
pub fn is_digits(text: &[u8]) -> bool {
    !text.is_empty() && text.iter().all(u8::is_ascii_digit)
}

/// Whether a text has numeric form.
pub fn is_number(text: &[u8]) -> bool {
    is_digits(unsigned(within_blanks(text)))
}

/// The value of a text in numeric form, of any size that fits.
pub fn value(text: &[u8]) -> Option<i128> {
    bare_value(within_blanks(text))
}

/// The value of a text in numeric form that has no blanks round it.
pub fn bare_value(text: &[u8]) -> Option<i128> {
    std::str::from_utf8(text).ok()?.parse().ok()
}

/// A number with the other sign.
pub fn negated(number: &[u8]) -> Vec<u8> {
    let [before, number, behind] = parted(number);
    let sign: &[u8] = if number.starts_with(b"-") { b"" } else { b"-" };
    [before, sign, unsigned(number), behind].concat()
}
