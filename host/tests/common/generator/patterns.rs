//! P codes, by the grammar or nearly, and elements for them.
//!
//! Literals and elements are made of a few bytes, so that a literal is met at
//! several places and a part could belong to one test or to the next.

use sundewfrill_host::paper::grammar::{self, Class, Code, Conversion, Test};
use sundewfrill_host::paper::ENTRY_LENGTH;

use super::elements::{any_byte, Kind};
use super::Rng;

/// Texts that are nearly P codes.
pub const NEAR_MISSES: [&str; 30] = [
    "P", "P(", "P()", "P(N)", "P(1)", "P(1n)", "P(1a)", "P(1x)", "P(1234N)", "P(0000N)",
    "P(1N)(2A)", "P(1N);", "P(1N);;(2A)", "P(1N);()", "P(1N;2A)", "P(1N,2A)", "P(1N 2A)", "P( 1N)",
    "P;(1N)", "P(\"a')", "P('a)", "P('a'", "P(1N", "P(1N))", "P(1N) ", "P1N", "PP(1N)", "P(1B)",
    "P(-1N)", "P(a)",
];

/// Patterns for which the longest or the first part of a test may be the wrong
/// one.
const ENTANGLED: [&str; 12] = [
    "0N1N", "0X'aa'", "0X'a'0X", "0A1A0A", "0X1N0X", "0N0A0X2N", "0X'aba'", "0X'ab'0X'ba'",
    "0X\"a1\"0N", "0A'a'0A'b'", "0X0X'-'0X", "'a'0X'a'",
];

/// A P code and elements for it.
pub fn code(rng: &mut Rng) -> (Vec<u8>, Kind) {
    let code = match rng.below(40) {
        0 => near_miss(rng),
        1 | 2 => broken(rng),
        3 | 4 => many_tests(rng),
        _ => several(rng),
    };
    let kind = suited(rng, &code);
    (code, kind)
}

/// What is nearly a P code.
pub fn near_miss(rng: &mut Rng) -> Vec<u8> {
    rng.pick(&NEAR_MISSES).as_bytes().to_vec()
}

/// An F code that takes an element through a P code, and elements for that.
pub fn function(rng: &mut Rng) -> (Vec<u8>, Kind) {
    let (code, kind) = code(rng);
    let first = *rng.pick(&["LPV", "LPV", "1", "2R", "1RR"]);
    let then = *rng.pick(&["", "", ";(L)", ";P;:", ";(P(0N0X))", ";LPV;=", ";(MCU)"]);
    let function = [b"F;", first.as_bytes(), b";(", &code, b")", then.as_bytes()].concat();
    (function, kind)
}

/// A P code with a mistake or two, if these leave one.
fn broken(rng: &mut Rng) -> Vec<u8> {
    let mut code = several(rng);
    rng.damage(&mut code, |rng| *rng.pick(b"()'\";NAX019nax, "));
    code
}

/// As many tests as a string has room for, or one less or more.
fn many_tests(rng: &mut Rng) -> Vec<u8> {
    let one = *rng.pick(&["", "", "0X", "1N", "''", "0N0A"]);
    let count = *rng.pick(&[253, 254, 254, 255]);
    let mut code = b"P(".to_vec();
    while code.len() < 2 + 2 * count {
        let test = match one {
            "" => *rng.pick(&["0X", "0N", "0A", "1X", "1A", "''", "\"\""]),
            one => one,
        };
        code.extend_from_slice(test.as_bytes());
    }
    code.push(b')');
    code
}

/// A P code of one or more patterns.
fn several(rng: &mut Rng) -> Vec<u8> {
    let mut code = b"P".to_vec();
    for number in 0..=rng.small(5) {
        if number > 0 {
            code.push(b';');
        }
        code.push(b'(');
        match rng.below(4) {
            0 => code.extend_from_slice(rng.pick(&ENTANGLED).as_bytes()),
            _ => (0..=rng.small(5)).for_each(|_| code.extend(test(rng))),
        }
        code.push(b')');
    }
    code
}

fn test(rng: &mut Rng) -> Vec<u8> {
    if rng.one_in(3) {
        return literal(rng);
    }
    let count = match rng.below(24) {
        0..=9 => rng.between(1, 4).to_string(),
        10..=16 => "0".to_owned(),
        17 => "00".to_owned(),
        18 => "000".to_owned(),
        19 => format!("{:02}", rng.below(20)),
        20 => format!("{:03}", rng.below(20)),
        21 => rng.between(10, 99).to_string(),
        _ => rng.pick(&["100", "500", "512", "999"]).to_string(),
    };
    let class = *rng.pick(b"NAX");
    [count.as_bytes(), &[class]].concat()
}

/// A literal without its own quote.
fn literal(rng: &mut Rng) -> Vec<u8> {
    let quote = *rng.pick(b"'\"");
    let mut content: Vec<u8> = match rng.below(12) {
        0 => Vec::new(),
        1 => rng
            .pick(&[")", ";", "(", "'", "\"", ");(", "1N", "'\""])
            .as_bytes()
            .to_vec(),
        2 => vec![b'a'; rng.small(40) as usize],
        3 => (0..rng.small(6)).map(|_| any_byte(rng)).collect(),
        _ => (0..=rng.small(3)).map(|_| *rng.pick(b"aab1-")).collect(),
    };
    content.retain(|&byte| byte != quote);
    [&[quote], content.as_slice(), &[quote]].concat()
}

/// Elements that patterns of a P code pass, or at times long ones; any text for
/// what is no P code.
fn suited(rng: &mut Rng, code: &[u8]) -> Kind {
    if rng.one_in(10) {
        return Kind::Long;
    }
    let codes = grammar::read(code);
    let Ok([Code::Conversion(Conversion::Pattern(code))]) = codes.as_deref() else {
        return Kind::Text;
    };
    let elements = (0..4).map(|_| {
        let pattern = rng.pick(&code.patterns);
        passing(rng, &pattern.tests)
    });
    Kind::Like(elements.collect())
}

/// An element that meets these tests in turn. Sometimes one of the tests of any
/// number, if there is one, takes so much that the element is as long as it may
/// be.
fn passing(rng: &mut Rng, tests: &[Test]) -> Vec<u8> {
    let least: usize = tests.iter().map(least).sum();
    let long = rng.one_in(12);
    let mut more = match long {
        true => (rng.between(1_023, 1_025) as usize).saturating_sub(least),
        false => rng.small(12) as usize,
    };
    let mut element = Vec::new();
    for test in tests {
        let (count, class) = match *test {
            Test::Literal(bytes) => {
                element.extend_from_slice(bytes);
                continue;
            }
            Test::Exactly(count, class) => (count, class),
            Test::AnyNumber(class) => {
                let count = if long { more } else { rng.place(more) };
                more -= count;
                (count, class)
            }
        };
        element.extend((0..count).map(|_| byte_of(rng, class)));
    }
    element.truncate(ENTRY_LENGTH + 1);
    element
}

/// How many bytes a test takes at least.
fn least(test: &Test) -> usize {
    match *test {
        Test::AnyNumber(_) => 0,
        Test::Exactly(count, _) => count,
        Test::Literal(bytes) => bytes.len(),
    }
}

fn byte_of(rng: &mut Rng, class: Class) -> u8 {
    match (class, rng.one_in(8)) {
        (Class::Numeric, false) => *rng.pick(b"110"),
        (Class::Numeric, true) => rng.between(48, 57) as u8,
        (Class::Alphabetic, false) => *rng.pick(b"aab"),
        (Class::Alphabetic, true) => *rng.pick(b"AZaz"),
        (Class::Any, false) => *rng.pick(b"aab1-"),
        (Class::Any, true) => any_byte(rng),
    }
}
