//! A codes, by the grammar or nearly, and records for what they are shown as.

use sundewfrill_host::outcome::Address;
use sundewfrill_host::paper::algebra;
use sundewfrill_host::paper::{self, ATTRIBUTE_MARK, CODE_LENGTH, LEAST_MARK, VALUE_MARK};
use sundewfrill_host::SCRATCH_LENGTH;

use super::super::calls::ConvertCall;
use super::elements::{self, Kind};
use super::{codes, records, Rng};

/// Texts that are nearly A codes.
pub const NEARLY_SHOWN: [&str; 58] = [
    "", "A", "B1", "a1", "AA1", " A1", "A 1", "A1 ", "A1 +2", "A1+ 2", "A1+", "A+1", "A-1",
    "A1--2", "A1+-2", "A()", "A(1", "A1)", "A(1))", "A(1)2", "A1(2)", "A(1,2)", "A1,2", "A1[2]",
    "A1[2,3", "A1[2,3,4]", "A1[,3]", "A1[2,]", "A1[]", "A[1,2]", "A1]", "A1+[2,3]", "AR", "AR(1)",
    "AR(1,2", "AR(1,2,3)", "AR1", "A1R(2,3)", "A1RR(2,3)", "A1RRR", "A1234", "A0000", "A12R3",
    "A1=>2", "A1=<2", "A1<>2", "A1><2", "A1==2", "A1#=2", "A1>==2", "ALPV", "AS(1)", "AN(X)",
    "A1_2", "A'x", "A\"x'", "A'x'y'", "A1;2",
];

/// The operators; those that join and divide come up more often.
const OPERATORS: [&str; 15] = [
    "+", "-", "*", "/", ":", "=", "#", "<", ">", ">=", "<=", ":", ":", "/", "+",
];

/// An A code, at times one that is none.
pub fn code(rng: &mut Rng) -> Vec<u8> {
    match rng.below(60) {
        0..=4 => rng.pick(&NEARLY_SHOWN).as_bytes().to_vec(),
        5..=9 => damaged(rng),
        10..=13 => with_a_mark(rng),
        14 | 15 => parentheses(rng),
        16..=21 => deep(rng),
        22..=24 => long_code(rng),
        25..=28 => long_text(rng),
        29 => sum_of_ones(rng),
        30..=34 => of(expression(rng, 0, 2)),
        35..=38 => joined(rng),
        39..=42 => refusing(rng),
        _ => good(rng),
    }
}

fn of(expression: Vec<u8>) -> Vec<u8> {
    [b"A", expression.as_slice()].concat()
}

/// An A code of any shape, seldom a long one.
fn good(rng: &mut Rng) -> Vec<u8> {
    let depth = rng.small(5);
    let most = 1 + rng.below(4);
    of(expression(rng, depth, most))
}

/// At most so many operands, in which expressions stand so deep.
fn expression(rng: &mut Rng, depth: u64, most: u64) -> Vec<u8> {
    let mut text = operand(rng, depth);
    for _ in 1..=rng.below(most) {
        text.extend_from_slice(rng.pick(&OPERATORS).as_bytes());
        text.extend(operand(rng, depth));
    }
    text
}

/// A base with brackets behind it or without.
fn operand(rng: &mut Rng, depth: u64) -> Vec<u8> {
    let mut text = base(rng, depth);
    let brackets = if rng.one_in(5) { 1 + rng.small(3) } else { 0 };
    for _ in 0..brackets {
        let (start, length) = (place(rng, depth), place(rng, depth));
        text.extend([b"[", start.as_slice(), b",", &length, b"]"].concat());
    }
    text
}

/// A start or a length: mostly a small number.
fn place(rng: &mut Rng, depth: u64) -> Vec<u8> {
    match rng.below(4) {
        0 => expression(rng, depth.saturating_sub(1), 2),
        _ => format!("'{}'", rng.small(12)).into_bytes(),
    }
}

fn base(rng: &mut Rng, depth: u64) -> Vec<u8> {
    match rng.below(if depth == 0 { 8 } else { 14 }) {
        0..=3 => codes::load(rng),
        4..=6 => format!("'{}'", rng.small(30)).into_bytes(),
        7 => literal(rng),
        8..=11 => {
            let inner = expression(rng, depth - 1, 3);
            let pairs = 1 + if rng.one_in(6) { rng.small(4) } else { 0 };
            in_pairs(&inner, pairs as usize)
        }
        _ => remainder(rng, depth - 1),
    }
}

fn remainder(rng: &mut Rng, depth: u64) -> Vec<u8> {
    let (left, right) = (expression(rng, depth, 2), expression(rng, depth, 2));
    [b"R(", left.as_slice(), b",", &right, b")"].concat()
}

/// A literal that is no small number; at times it holds what means something outside
/// of quotes.
fn literal(rng: &mut Rng) -> Vec<u8> {
    const MEANING: [&str; 12] = [
        "", ";", ")", "(", ",", "]", "a b", "\"", "'", "1+2", "R(1,2)", "[1,2]",
    ];
    match rng.below(3) {
        0 => codes::literal(rng),
        _ => {
            let bytes = *rng.pick(&MEANING);
            let quote = match bytes {
                "\"" => "'",
                "'" => "\"",
                _ => *rng.pick(&["'", "\""]),
            };
            format!("{quote}{bytes}{quote}").into_bytes()
        }
    }
}

fn in_pairs(inner: &[u8], pairs: usize) -> Vec<u8> {
    [vec![b'('; pairs].as_slice(), inner, &vec![b')'; pairs]].concat()
}

/// An A code with a mistake or two, if these leave one.
fn damaged(rng: &mut Rng) -> Vec<u8> {
    let mut code = good(rng);
    rng.damage(&mut code, |rng| match rng.below(10) {
        0 => rng.between(251, 255) as u8,
        1 => rng.next() as u8,
        _ => *rng.pick(b"A0123456789R'\"()[],+-*/:=#<>; LPVNS_*="),
    });
    code
}

/// An A code with a mark somewhere, or two parted by 253.
fn with_a_mark(rng: &mut Rng) -> Vec<u8> {
    if rng.one_in(5) {
        return [good(rng), good(rng)].join(&VALUE_MARK);
    }
    let mark = rng.between(u64::from(LEAST_MARK), 255) as u8;
    let mut code = match rng.one_in(2) {
        true => of(b"'a'".to_vec()),
        false => good(rng),
    };
    rng.insert(&mut code, mark);
    code
}

/// About as many pairs of parentheses as an A code has room for.
fn parentheses(rng: &mut Rng) -> Vec<u8> {
    let pairs = rng.between(253, 256) as usize;
    let inner = *rng.pick(&["1", "1", "1", "2R", "''"]);
    of(in_pairs(inner.as_bytes(), pairs))
}

/// An expression that comes to hold about as many entries as the stack does, at times
/// one whose F text is too long besides.
fn deep(rng: &mut Rng) -> Vec<u8> {
    let entries = *rng.pick(&[14, 15, 15, 16, 16, 16, 17, 17, 17, 18, 20]);
    let expression = holding(rng, entries);
    let length = *rng.pick(&[0, 0, 0, 0, 512, 513, 513, 520]);
    match length {
        0 => of(expression),
        _ => stretched(rng, of(expression), length),
    }
}

/// An operand that comes to hold so many entries.
fn holding(rng: &mut Rng, entries: usize) -> Vec<u8> {
    if entries <= 1 {
        return simple(rng);
    }
    let one = simple(rng);
    let sign = rng.pick(&OPERATORS).as_bytes();
    match rng.below(if entries == 2 { 4 } else { 8 }) {
        0 => [
            b"R(",
            one.as_slice(),
            b",",
            &holding(rng, entries - 1),
            b")",
        ]
        .concat(),
        1 => [
            b"((",
            holding(rng, entries).as_slice(),
            b")",
            sign,
            &one,
            b")",
        ]
        .concat(),
        2 | 3 => [b"(", one.as_slice(), sign, &holding(rng, entries - 1), b")"].concat(),
        4 | 5 => {
            let start = simple(rng);
            let length = holding(rng, entries - 2);
            [one.as_slice(), b"[", &start, b",", &length, b"]"].concat()
        }
        _ => {
            let length = simple(rng);
            let start = holding(rng, entries - 1);
            [one.as_slice(), b"[", &start, b",", &length, b"]"].concat()
        }
    }
}

/// An operand of a byte or a few.
fn simple(rng: &mut Rng) -> Vec<u8> {
    rng.pick(&["1", "2", "3R", "0", "'7'", "'2'", "''", "\"x\""])
        .as_bytes()
        .to_vec()
}

/// An A code of about the greatest length, whose F text is shorter by the parentheses
/// that fill the code up.
fn long_code(rng: &mut Rng) -> Vec<u8> {
    let length = *rng.pick(&[511, 512, 512, 513, 514, 600]);
    let mut inner = expression(rng, 1, 3);
    if (length - 1 - inner.len().min(length - 1)) % 2 == 1 {
        inner.extend_from_slice(b":''");
    }
    let pairs = (length - 1).saturating_sub(inner.len()) / 2;
    let mut code = of(in_pairs(&inner, pairs));
    if length > CODE_LENGTH && rng.one_in(2) {
        let place = rng.below(code.len() as u64) as usize;
        code[place] = *rng.pick(b"A? \xfd");
    }
    code
}

/// An A code whose F text has about the greatest length.
fn long_text(rng: &mut Rng) -> Vec<u8> {
    let length = *rng.pick(&[510, 511, 511, 512, 512, 512, 513, 513, 514]);
    let code = good(rng);
    stretched(rng, code, length)
}

/// An A code that a literal is joined to which brings its F text to this length.
fn stretched(rng: &mut Rng, mut code: Vec<u8>, length: usize) -> Vec<u8> {
    let Ok(expression) = algebra::read(&code) else {
        return code;
    };
    let added = length.saturating_sub(expression.text().len() + ";'';:".len());
    code.extend_from_slice(b":'");
    code.resize(code.len() + added, *rng.pick(b"7a;)"));
    code.push(b'\'');
    code
}

/// "n ones joined by `+` make 4n - 1 bytes, so 128 pass and 129 are 5."
fn sum_of_ones(rng: &mut Rng) -> Vec<u8> {
    let count = rng.between(126, 130) as usize;
    let sign = *rng.pick(b"+-*/:=#<>");
    of(vec!["1".as_bytes(); count].join(&sign))
}

/// Two attributes joined, whatever is made of that.
fn joined(rng: &mut Rng) -> Vec<u8> {
    let (one, other) = (rng.between(1, 5), rng.between(1, 5));
    let then = *rng.pick(&["", "['1','5']", "['1020','9']", "=1"]);
    format!("A({one}:{other}){then}").into_bytes()
}

/// Operands that refuse, with 9, 10 or 11, where they are made or where they are taken
/// as numbers.
fn refusing(rng: &mut Rng) -> Vec<u8> {
    const REFUSING: [&str; 9] = [
        "('1'/'0')",
        "R('5','0')",
        "('9'*'999999999999999')",
        "'1000000000000000'",
        "('9999999999999999'='1')",
        "(1:2)",
        "1",
        "2",
        "'7'",
    ];
    let [one, other, third] = [(); 3].map(|()| *rng.pick(&REFUSING));
    let code = match rng.below(4) {
        0 => format!("AR({one},{other})"),
        1 => format!("A{one}[{other},{third}]"),
        _ => {
            let sign = *rng.pick(&OPERATORS);
            format!("A{one}{sign}{other}")
        }
    };
    code.into_bytes()
}

/// A conversion by an F text that shows an A code, with budget and scratch enough.
pub fn conversion(rng: &mut Rng, text: &[u8]) -> ConvertCall {
    let (record, at) = match rng.below(10) {
        0..=2 => (long_texts(rng), Address::new(rng.below(5), 0, 0)),
        _ => {
            let kind = rng.pick(&[Kind::Number, Kind::Number, Kind::Any, Kind::Text]);
            let record = records::record(rng, kind);
            let at = records::address(rng, &record);
            (record, at)
        }
    };
    let at = narrowed(&record, at, text);
    ConvertCall {
        record,
        code: text.to_vec(),
        at,
        budget: u64::MAX,
        output_length: 0,
        scratch_length: SCRATCH_LENGTH,
    }
}

/// Attributes of lengths that two of them, joined, bring to about the limit.
fn long_texts(rng: &mut Rng) -> Vec<u8> {
    const LENGTHS: [usize; 7] = [0, 1, 512, 513, 1_023, 1_024, 1_025];
    let mut record = b"K".to_vec();
    for _ in 0..5 {
        record.push(ATTRIBUTE_MARK);
        record.extend(elements::of_length(rng, &LENGTHS));
    }
    record
}

/// The address, or one element of it: many loads for each of many elements of a long
/// record would take minutes.
fn narrowed(record: &[u8], at: Address, text: &[u8]) -> Address {
    let marks = record.iter().filter(|&&byte| byte >= LEAST_MARK);
    let loads = paper::check(text).loads as usize;
    let looks = (1 + marks.count()) * loads * record.len();
    match at.a > 0 && looks > 2_000_000 {
        true => Address::new(at.a, at.v.max(1), at.s.max(1)),
        false => at,
    }
}
