//! ML and MR codes as they are spelt: an accepted one parted from its field, and
//! what a field makes of a text.

/// A field: what it is filled with, and how wide it is.
pub type Field = (char, usize);

/// A mask code without its field, and the field.
pub fn without_field(code: &[u8]) -> (&[u8], Option<Field>) {
    let Some(open) = code.iter().position(|&byte| byte == b'(') else {
        return (code, None);
    };
    let (bare, field) = code.split_at(open);
    let fill = match field[1] {
        b'#' => ' ',
        b'*' => '*',
        _ => '0',
    };
    let digits = std::str::from_utf8(&field[2..field.len() - 1]).expect("digits are text");
    let width = digits.parse().expect("the code is in the grammar");
    (bare, Some((fill, width)))
}

/// A text of this code in its field; `None` if it is wider than that.
pub fn filled(code: &[u8], text: &str, (fill, width): Field) -> Option<String> {
    let space = width.checked_sub(text.len())?;
    // Z alone leaves no text, and blanks under any fill.
    let fill = if text.is_empty() { ' ' } else { fill };
    let fill = fill.to_string().repeat(space);
    Some(match code.starts_with(b"ML") {
        true => [text, &fill].concat(),
        false => [&fill, text].concat(),
    })
}

/// The digits, point and commas of a text.
pub fn figures(text: &str) -> String {
    let shown = |byte: &char| byte.is_ascii_digit() || matches!(byte, '.' | ',');
    text.chars().filter(shown).collect()
}
