//! Elements: what stands between the marks.

use super::super::calendar::Date;
use super::{blanks, dates, Rng};

/// What an element is good for.
#[derive(Clone, Debug, PartialEq, Eq)]
pub enum Kind {
    /// Anything.
    Any,
    /// Arithmetic and masks.
    Number,
    /// Masks that show multiples of this unit: numbers at and about a half of it.
    Half(u64),
    /// A date code.
    Day,
    /// MY.
    Hex,
    /// G: fields with separators.
    Fields,
    /// MC, T and L.
    Text,
    /// Lengths about 512 and 1,024.
    Long,
    /// P: one of these, or one that a byte parts from it.
    Like(Vec<Vec<u8>>),
}

static KINDS: [Kind; 6] = [
    Kind::Number,
    Kind::Number,
    Kind::Day,
    Kind::Hex,
    Kind::Fields,
    Kind::Text,
];

/// An element, mostly of this kind; without marks.
pub fn element(rng: &mut Rng, kind: &Kind) -> Vec<u8> {
    let kind = match kind {
        Kind::Any if rng.one_in(40) => &Kind::Long,
        Kind::Any => rng.pick(&KINDS),
        _ if rng.one_in(25) => rng.pick(&KINDS),
        kind => kind,
    };
    if rng.one_in(15) {
        return Vec::new();
    }
    match kind {
        Kind::Number | Kind::Any => blanked_number(rng),
        Kind::Half(unit) => {
            let number = half(rng, *unit);
            blanks::at_times(rng, number)
        }
        Kind::Day => {
            let number = day(rng);
            blanks::at_times(rng, number)
        }
        Kind::Hex => hex(rng),
        Kind::Fields => separated(rng),
        Kind::Text => text(rng),
        Kind::Long => long(rng),
        Kind::Like(texts) => like(rng, texts),
    }
}

/// Text of one of these lengths.
pub fn of_length(rng: &mut Rng, lengths: &[usize]) -> Vec<u8> {
    let length = *rng.pick(lengths);
    match rng.below(4) {
        0 => (0..length).map(|_| any_byte(rng)).collect(),
        1 => (0..length)
            .map(|_| *rng.pick(b"0123456789abcdefABCDEF"))
            .collect(),
        2 => vec![*rng.pick(b"0A*a "); length],
        _ => b"AbC-1*z9 ".iter().copied().cycle().take(length).collect(),
    }
}

/// A byte that is no mark.
pub fn any_byte(rng: &mut Rng) -> u8 {
    rng.below(251) as u8
}

/// A number, at times with blanks round it.
pub fn blanked_number(rng: &mut Rng) -> Vec<u8> {
    let number = number(rng);
    blanks::at_times(rng, number)
}

/// A number in or about its range, or something that looks like one.
pub fn number(rng: &mut Rng) -> Vec<u8> {
    const NEAR: [u64; 10] = [
        999_999_999_999_999,
        999_999_999_999_998,
        1_000_000_000_000_000,
        31_622_776,
        31_622_777,
        500_000_000_000_000,
        499_999_999_999_999,
        99_999_999_999_999,
        1_000_000_000,
        9_223_372_036_854_775_807,
    ];
    const ODD: [&str; 14] = [
        "-0",
        "+0",
        "000",
        "-00",
        "+",
        "-",
        "1.5",
        "1e3",
        "--5",
        "+-5",
        "5-",
        "0x1F",
        "99999999999999999999999",
        "-99999999999999999999999",
    ];
    let size = match rng.below(20) {
        0..=6 => rng.below(10),
        7..=9 => rng.below(1_000),
        10..=12 => rng.below(100_000_000),
        13 => rng.below(1_000_000_000_000_000),
        14 => {
            rng.below(10) * 10_u64.pow(rng.below(15) as u32) + 5 * 10_u64.pow(rng.below(9) as u32)
        }
        15 => *rng.pick(&NEAR),
        16 => 0,
        17 if rng.one_in(2) => return rng.pick(&ODD).as_bytes().to_vec(),
        _ => rng.below(100),
    };
    let sign = *rng.pick(&["", "", "", "", "-", "-", "+"]);
    let zeros = match rng.below(200) {
        0..=19 => rng.below(4) as usize,
        20 => rng.below(1_010) as usize,
        _ => 0,
    };
    format!("{sign}{}{size}", "0".repeat(zeros)).into_bytes()
}

/// A number at a half of this unit or one beside it: of 0, of a number of nines,
/// which a half takes to a new digit, or of any.
fn half(rng: &mut Rng, unit: u64) -> Vec<u8> {
    let most = 999_999_999_999_999 / unit;
    let kept = match rng.below(3) {
        0 => 0,
        1 => most / 10_u64.pow(rng.below(15) as u32),
        _ => rng.below(most),
    };
    let size = kept * unit + unit / 2 + rng.below(3) - 1;
    let sign = *rng.pick(&["", "-", "-", "+"]);
    format!("{sign}{size}").into_bytes()
}

/// A day in or about the calendar.
pub fn day(rng: &mut Rng) -> Vec<u8> {
    const NEAR: [i64; 8] = [-718_431, -718_430, 2_933_628, 2_933_629, 0, 60, -1, 59];
    let day = match rng.below(8) {
        0 => *rng.pick(&NEAR),
        1 | 2 => rng.below(3_652_059) as i64 - 718_430,
        3 => rng.below(8_000_000) as i64 - 4_000_000,
        4 | 5 => at_an_edge(rng),
        _ => rng.below(40_000) as i64 - 10_000,
    };
    let sign = if day >= 0 && rng.one_in(8) { "+" } else { "" };
    format!("{sign}{day}").into_bytes()
}

/// The first or the last day of a month.
fn at_an_edge(rng: &mut Rng) -> i64 {
    let first = dates::first_of_month(rng);
    let day = *rng.pick(&[1, first.month_length()]);
    Date { day, ..first }.number()
}

/// Hex digits, sometimes with a mistake, sometimes for a mark.
fn hex(rng: &mut Rng) -> Vec<u8> {
    let pairs = if rng.one_in(30) { 512 } else { rng.small(40) };
    let mut text = Vec::new();
    for _ in 0..pairs {
        let byte = any_byte(rng);
        let pair = match rng.below(3) {
            0 => format!("{byte:02x}"),
            _ => format!("{byte:02X}"),
        };
        text.extend_from_slice(pair.as_bytes());
    }
    match rng.below(12) {
        0 => drop(text.pop()),
        1 => rng.damage(&mut text, |rng| *rng.pick(b"gG/:@`. 0fF")),
        2 => text.extend_from_slice(rng.pick(&[b"FB", b"fa", b"Ff", b"FC", b"fD"]).as_slice()),
        _ => {}
    }
    text
}

/// Fields with separators between them.
fn separated(rng: &mut Rng) -> Vec<u8> {
    let separator = *rng.pick(b"*-/. ;,)('\"A");
    let mut text = Vec::new();
    for field in 0..=rng.small(8) {
        if field > 0 {
            text.push(separator);
        }
        for _ in 0..rng.small(6) {
            text.push(*rng.pick(b"ABCDabcd0123"));
        }
    }
    text
}

/// Letters, digits and other bytes.
fn text(rng: &mut Rng) -> Vec<u8> {
    const SOME: [&str; 8] = [
        "hello world", "O'NEIL mc", "abc123def", "3rd of JULY", "ABCDE", "a", "@[`{az AZ",
        "x-Y_z 09",
    ];
    match rng.below(4) {
        0 => rng.pick(&SOME).as_bytes().to_vec(),
        1 => (0..rng.small(60)).map(|_| any_byte(rng)).collect(),
        _ => (0..rng.small(40))
            .map(|_| *rng.pick(b"abcXYZ019 -_.@[`{\x80\xe4\xfa"))
            .collect(),
    }
}

/// One of these texts, sometimes with a byte changed, put in or taken out.
fn like(rng: &mut Rng, texts: &[Vec<u8>]) -> Vec<u8> {
    let mut text = rng.pick(texts).clone();
    let byte = *rng.pick(b"a1-b0Z \xe4");
    let place = rng.place(text.len());
    let inside = place < text.len();
    match rng.below(9) {
        0 => text.insert(place, byte),
        1 if inside => drop(text.remove(place)),
        2 if inside => text[place] = byte,
        _ => {}
    }
    text
}

/// Text about the lengths at which something changes.
fn long(rng: &mut Rng) -> Vec<u8> {
    of_length(
        rng,
        &[
            511, 512, 513, 600, 1_022, 1_023, 1_024, 1_024, 1_025, 1_026, 2_000,
        ],
    )
}
