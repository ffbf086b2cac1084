//! Typed dates: in the form of their code, or nearly.

use super::super::calendar::Date;
use super::super::calls::DateCall;
use super::{blanks, codes, elements, Rng};

const MONTHS: [&str; 13] = [
    "JAN", "FEB", "MAR", "APR", "MAY", "JUN", "JUL", "AUG", "SEP", "OCT", "NOV", "DEC", "XYZ",
];

/// A call with a date that mostly suits its code.
pub fn call(rng: &mut Rng) -> DateCall {
    let mut code = match rng.below(40) {
        0 => codes::string(rng).0,
        1 => b"D4/"
            .iter()
            .copied()
            .cycle()
            .take(rng.between(511, 515) as usize)
            .collect(),
        _ => codes::date_code(rng),
    };
    let separator = code
        .iter()
        .skip(1)
        .copied()
        .find(|byte| !byte.is_ascii_digit());
    let mut text = match rng.below(200) {
        0 => elements::of_length(rng, &[100, 1_025, 70_000]),
        _ => text(rng, separator).into_bytes(),
    };
    if rng.one_in(8) {
        rng.damage(&mut text, |rng| *rng.pick(b"0123456789 /-.JANfeb\x00\xfe"));
    }
    if rng.one_in(20) {
        text = blanks::beside(rng, &text);
    }
    if rng.one_in(60) {
        rng.damage(&mut code, |rng| *rng.pick(b"D012345/ F;()\xfd\xfb"));
    }
    DateCall { code, text }
}

/// A date as somebody types it, for a code with this separator.
fn text(rng: &mut Rng, separator: Option<u8>) -> String {
    let (day, month, year) = match rng.below(80) {
        0 => return String::new(),
        1 | 2 => at_an_end(rng),
        3..=12 => at_an_edge(rng),
        _ => anywhere(rng),
    };
    let day = digits(rng, day);
    let separator = match separator {
        None if rng.one_in(40) => Some(b'/'),
        Some(_) if rng.one_in(40) => None,
        separator => separator,
    };
    match separator {
        None => format!("{day} {} {year}", letters(rng, MONTHS[month as usize])),
        Some(byte) if byte.is_ascii() => {
            let (month, byte) = (digits(rng, month + 1), byte as char);
            format!("{month}{byte}{day}{byte}{year}")
        }
        Some(_) => format!("1/{day}/{year}"),
    }
}

/// A day, a month from 0 and a year, mostly in the calendar.
fn anywhere(rng: &mut Rng) -> (u64, u64, String) {
    let year = year(rng);
    let months = if rng.one_in(30) { 13 } else { 12 };
    let month = rng.below(months);
    let day = match rng.below(8) {
        0 => *rng.pick(&[0, 1, 28, 29, 30, 31, 32, 99]),
        1 => *rng.pick(&[28, 29, 30, 31]),
        _ => rng.between(1, 28),
    };
    (day, month, year)
}

/// The first or the last day of the calendar, or one past it; or day 0.
fn at_an_end(rng: &mut Rng) -> (u64, u64, String) {
    const ENDS: [(u64, u64, &str); 5] = [
        (31, 11, "0000"),
        (1, 0, "0001"),
        (31, 11, "9999"),
        (1, 0, "10000"),
        (31, 11, "1967"),
    ];
    let (day, month, year) = *rng.pick(&ENDS);
    (day, month, year.to_owned())
}

/// The first or the last day of a month, or the day after the last.
fn at_an_edge(rng: &mut Rng) -> (u64, u64, String) {
    let first = first_of_month(rng);
    let last = first.month_length();
    let day = *rng.pick(&[1, last, last + 1]);
    let year = match first.year {
        year @ 1_930..=2_029 if rng.one_in(2) => format!("{:02}", year % 100),
        year => format!("{year:04}"),
    };
    (day, first.month - 1, year)
}

/// The first date of any month, about as often of a leap year as of a common one.
pub fn first_of_month(rng: &mut Rng) -> Date {
    let year = match rng.below(8) {
        0 | 1 => rng.between(1_930, 2_029),
        2 => 100 * rng.between(1, 99),
        3..=5 => 4 * rng.between(1, 2_499),
        _ => rng.between(1, 9_999),
    };
    let month = rng.between(1, 12);
    Date {
        year,
        month,
        day: 1,
    }
}

/// One or two digits.
fn digits(rng: &mut Rng, number: u64) -> String {
    match rng.below(20) {
        0 => format!("{number:03}"),
        1..=9 => format!("{number:02}"),
        _ => number.to_string(),
    }
}

/// Letters in any case.
fn letters(rng: &mut Rng, name: &str) -> String {
    let mixed = |rng: &mut Rng, letter: char| match rng.one_in(2) {
        true => letter.to_ascii_lowercase(),
        false => letter,
    };
    match rng.below(3) {
        0 => name.to_owned(),
        1 => name.to_ascii_lowercase(),
        _ => name.chars().map(|letter| mixed(rng, letter)).collect(),
    }
}

/// A year of two or four digits, or of another number.
fn year(rng: &mut Rng) -> String {
    const NEAR: [&str; 18] = [
        "0000", "0001", "0004", "0100", "0400", "1600", "1700", "1900", "1967", "1968", "2000",
        "2100", "9999", "29", "30", "00", "99", "68",
    ];
    match rng.below(10) {
        0 => rng.below(100_000).to_string(),
        1..=3 => rng.pick(&NEAR).to_string(),
        4..=6 => format!("{:02}", rng.below(100)),
        _ => format!("{:04}", rng.below(10_000)),
    }
}
