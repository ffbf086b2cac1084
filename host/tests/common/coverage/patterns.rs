//! P codes: every kind of test, what is nearly one, and which pattern passes.

use sundewfrill_host::paper;
use sundewfrill_host::paper::grammar::{self, Class, Code, Conversion, Pattern, Test};

use super::super::generator::NEAR_MISSES;
use super::super::patterns::{patterns, tests};
use super::Coverage;

/// Every kind of pattern and test that an accepted string can have.
pub const PATTERNS: [&str; 22] = [
    "P of one pattern", "P of several patterns", "0N", "0A", "0X", "nN", "nA", "nX", "0", "00",
    "000", "n of 1 digit", "n of 2 digits", "n of 3 digits", "0 before n", "test in single quotes",
    "test in double quotes", "empty literal", "literal with )", "literal with ;", "literal with (",
    "literal with a quote",
];

/// What strings with a P code must reach, beside what is nearly one.
pub const PATTERN_STRINGS: [&str; 4] = ["P accepted", "P refused", "253 tests", "254 tests"];

/// What elements must reach that a P code converts.
pub const PASSES: [&str; 10] = [
    "first pattern passes",
    "later pattern passes",
    "no pattern passes",
    "empty element passes",
    "longest cut fails where another passes",
    "first cut fails where another passes",
    "P passes 1,023",
    "P passes 1,024",
    "P empties 1,024",
    "P of 254 tests on an element",
];

/// What the text of a P code has in it.
pub fn pattern_tags(code: &[u8]) -> Vec<&'static str> {
    let patterns = patterns(code);
    let tests = patterns.iter().flat_map(|pattern| tests(pattern));
    let mut tags: Vec<_> = tests.flat_map(test_tags).collect();
    tags.push(match patterns.len() {
        1 => "P of one pattern",
        _ => "P of several patterns",
    });
    tags
}

/// What the text of a test has in it.
fn test_tags(test: &[u8]) -> Vec<&'static str> {
    let (digits, last) = test.split_at(test.len() - 1);
    let letter = match last[0] {
        b'\'' => return literal_tags("test in single quotes", digits, b'"'),
        b'"' => return literal_tags("test in double quotes", digits, b'\''),
        letter => letter,
    };
    let zero = digits.iter().all(|&digit| digit == b'0');
    let class = match (letter, zero) {
        (b'N', true) => "0N",
        (b'N', false) => "nN",
        (b'A', true) => "0A",
        (b'A', false) => "nA",
        (_, true) => "0X",
        (_, false) => "nX",
    };
    let number = match (digits.len(), zero) {
        (1, true) => "0",
        (2, true) => "00",
        (_, true) => "000",
        _ if digits[0] == b'0' => "0 before n",
        (1, false) => "n of 1 digit",
        (2, false) => "n of 2 digits",
        (_, false) => "n of 3 digits",
    };
    vec![class, number]
}

/// What a literal has in it; `text` is all but its last quote.
fn literal_tags(quotes: &'static str, text: &[u8], other_quote: u8) -> Vec<&'static str> {
    let literal = &text[1..];
    let mut tags = vec![quotes];
    if literal.is_empty() {
        tags.push("empty literal");
    }
    for (byte, tag) in [
        (b')', "literal with )"),
        (b';', "literal with ;"),
        (b'(', "literal with ("),
        (other_quote, "literal with a quote"),
    ] {
        if literal.contains(&byte) {
            tags.push(tag);
        }
    }
    tags
}

impl Coverage {
    /// Notes whether a string is a P code, or nearly.
    pub fn pattern_string(&mut self, string: &[u8], refusal: u64) {
        if string.first() != Some(&b'P') || string.contains(&paper::VALUE_MARK) {
            return;
        }
        self.tag_if(refusal == 0, "P accepted");
        self.tag_if(refusal == 6, "P refused");
        let miss = NEAR_MISSES.iter().find(|miss| miss.as_bytes() == string);
        if let Some(miss) = miss {
            self.tag_if(refusal == 6, miss);
        }
        for (count, tag) in [(253, "253 tests"), (254, "254 tests")] {
            self.tag_until(tag, || refusal == 0 && paper::check(string).tests == count);
        }
    }

    /// Notes which pattern passes an element that is converted by itself, and
    /// whether it takes a cut that is not the first to come to mind.
    pub fn pattern_code(&mut self, string: &[u8], element: &[u8], refusal: u64) {
        if refusal != 0 || string.first() != Some(&b'P') {
            return;
        }
        let codes = grammar::read(string);
        let Ok([Code::Conversion(Conversion::Pattern(code))]) = codes.as_deref() else {
            return;
        };
        let passing = code.patterns.iter().position(|one| one.passes(element));
        self.tag_if(passing == Some(0), "first pattern passes");
        self.tag_if(passing > Some(0), "later pattern passes");
        self.tag_if(passing.is_none(), "no pattern passes");
        let empty = element.is_empty();
        self.tag_if(empty && passing.is_some(), "empty element passes");
        if let Some(place) = passing {
            let pattern = &code.patterns[place];
            let longest = !cuts(pattern, element, |most, _| most);
            self.tag_if(longest, "longest cut fails where another passes");
            let first = !cuts(pattern, element, first_for_next);
            self.tag_if(first, "first cut fails where another passes");
        }
        let (length, passes) = (element.len(), passing.is_some());
        self.tag_if(passes && length == 1_023, "P passes 1,023");
        self.tag_if(passes && length == 1_024, "P passes 1,024");
        self.tag_if(!passes && length == 1_024, "P empties 1,024");
        let many = code.tests() == 254 && !empty;
        self.tag_if(many, "P of 254 tests on an element");
    }
}

/// Whether an element can be cut for a pattern if each test of any number takes
/// what `choice` says and nothing else is tried. `choice` is given the most that
/// the test may take, and what stands behind: the rest of the element and the
/// next test.
fn cuts(
    pattern: &Pattern,
    element: &[u8],
    choice: impl Fn(usize, (&[u8], Option<Test>)) -> usize,
) -> bool {
    let mut rest = element;
    for (place, &test) in pattern.tests.iter().enumerate() {
        let taken = match test {
            Test::AnyNumber(class) => {
                let next = pattern.tests.get(place + 1).copied();
                Some(choice(together(class, rest), (rest, next)))
            }
            _ => fixed(test, rest),
        };
        let Some(taken) = taken else {
            return false;
        };
        rest = &rest[taken..];
    }
    rest.is_empty()
}

/// As few bytes as will do for the next test; all if there is none.
fn first_for_next(most: usize, (rest, next): (&[u8], Option<Test>)) -> usize {
    let Some(next) = next else {
        return most;
    };
    let mut lengths = 0..=most;
    let first = lengths.find(|&length| match next {
        Test::AnyNumber(_) => true,
        _ => fixed(next, &rest[length..]).is_some(),
    });
    first.unwrap_or(most)
}

/// What a test takes that has no choice, if the text begins with it.
fn fixed(test: Test, text: &[u8]) -> Option<usize> {
    match test {
        Test::AnyNumber(_) => None,
        Test::Exactly(count, class) => (together(class, text) >= count).then_some(count),
        Test::Literal(bytes) => text.starts_with(bytes).then_some(bytes.len()),
    }
}

/// How many bytes of a class a text begins with.
fn together(class: Class, text: &[u8]) -> usize {
    let outside = text.iter().position(|byte| match class {
        Class::Numeric => !byte.is_ascii_digit(),
        Class::Alphabetic => !byte.is_ascii_alphabetic(),
        Class::Any => false,
    });
    outside.unwrap_or(text.len())
}
