//! P codes as they are spelt: an accepted one cut into its patterns and tests,
//! and what the paper says a pattern passes.

/// The patterns of a P code, each with its parentheses.
pub fn patterns(code: &[u8]) -> Vec<&[u8]> {
    let mut rest = &code[1..];
    let mut patterns = Vec::new();
    while !rest.is_empty() {
        let (pattern, behind) = rest.split_at(pattern_length(rest));
        patterns.push(pattern);
        // Behind a pattern there is a `;` or nothing.
        rest = behind.get(1..).unwrap_or(&[]);
    }
    patterns
}

/// How long the pattern is that a text begins with.
fn pattern_length(text: &[u8]) -> usize {
    let mut length = 1;
    while text[length] != b')' {
        length += test_length(&text[length..]);
    }
    length + 1
}

/// The tests of a pattern.
pub fn tests(pattern: &[u8]) -> Vec<&[u8]> {
    let mut rest = &pattern[1..pattern.len() - 1];
    let mut tests = Vec::new();
    while !rest.is_empty() {
        let (test, behind) = rest.split_at(test_length(rest));
        tests.push(test);
        rest = behind;
    }
    tests
}

/// How long the test is that a text begins with: it ends with its quote, or with
/// the letter behind its digits.
fn test_length(text: &[u8]) -> usize {
    let last = match text[0] {
        quote @ (b'\'' | b'"') => 1 + place(&text[1..], |byte| byte == quote),
        _ => place(text, |byte| !byte.is_ascii_digit()),
    };
    last + 1
}

fn place(text: &[u8], wanted: impl Fn(u8) -> bool) -> usize {
    let place = text.iter().position(|&byte| wanted(byte));
    place.expect("the code is in the grammar")
}

/// Whether an element can be cut into consecutive parts that meet these tests in
/// turn. All cuts are tried: this is for short elements and few tests.
pub fn has_cut(element: &[u8], tests: &[&[u8]]) -> bool {
    let Some((test, others)) = tests.split_first() else {
        return element.is_empty();
    };
    let mut cuts = (0..=element.len()).map(|place| element.split_at(place));
    cuts.any(|(part, rest)| meets(part, test) && has_cut(rest, others))
}

/// Whether a part meets a test.
fn meets(part: &[u8], test: &[u8]) -> bool {
    let (front, last) = test.split_at(test.len() - 1);
    let class: fn(&u8) -> bool = match last[0] {
        b'N' => u8::is_ascii_digit,
        b'A' => u8::is_ascii_alphabetic,
        b'X' => |_| true,
        _ => return *part == front[1..],
    };
    let digits = std::str::from_utf8(front).expect("digits are text");
    let count: usize = digits.parse().expect("the code is in the grammar");
    (count == 0 || part.len() == count) && part.iter().all(class)
}
