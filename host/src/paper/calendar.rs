//! Days and dates: the D code both ways.
//!
//! Inside, a day is counted from 1 January of year 1 as 0.

use std::ops::RangeInclusive;

use super::number;
use super::pen::Pen;
use crate::refusal::Refusal;

/// The days that have a date: from 1 January of year 1 to 31 December 9999.
const DAYS: RangeInclusive<i64> = -718_430..=2_933_628;

/// How many days 1 January of year 1 lies before day 0.
const DAYS_TO_ZERO: i64 = 718_430;

const MONTH_NAMES: [&[u8; 3]; 12] = [
    b"JAN", b"FEB", b"MAR", b"APR", b"MAY", b"JUN", b"JUL", b"AUG", b"SEP", b"OCT", b"NOV", b"DEC",
];

/// The days of the months in a common year.
const MONTH_LENGTHS: [i64; 12] = [31, 28, 31, 30, 31, 30, 31, 31, 30, 31, 30, 31];

/// The form of a date: what a D code says.
#[derive(Clone, Copy, Debug, PartialEq, Eq)]
pub struct DateForm {
    /// How many digits the year has, 0 to 4; absent means 4.
    pub year_digits: Option<u8>,
    /// The byte between month, day and year; absent means `DD MMM YYYY`.
    pub separator: Option<u8>,
}

/// A date, month from 1 and day from 1.
#[derive(Clone, Copy, Debug, PartialEq, Eq)]
struct Date {
    year: i64,
    month: i64,
    day: i64,
}

/// Puts the date of the day in `room[..length]` in its place and gives the new
/// length: refusals 12 and 10.
pub fn write(form: DateForm, room: &mut [u8], length: usize) -> Result<usize, Refusal> {
    if length == 0 {
        return Ok(0);
    }
    let day = number::read(&room[..length])?.ok_or(Refusal::NotConvertible)?;
    if !DAYS.contains(&day) {
        return Err(Refusal::OutOfRange);
    }
    let date = date_of(day + DAYS_TO_ZERO);
    let year_digits = usize::from(form.year_digits.unwrap_or(4));
    let mut pen = Pen::new(room);
    match form.separator {
        None => {
            pen.put_digits(date.day as u64, 2);
            pen.put(b' ');
            pen.put_all(MONTH_NAMES[date.month as usize - 1]);
        }
        Some(separator) => {
            pen.put_digits(date.month as u64, 2);
            pen.put(separator);
            pen.put_digits(date.day as u64, 2);
        }
    }
    if year_digits > 0 {
        pen.put(form.separator.unwrap_or(b' '));
        pen.put_digits(date.year as u64, year_digits);
    }
    Ok(pen.length())
}

/// The day of a date typed in this form: refusal 12.
pub fn read(form: DateForm, text: &[u8]) -> Result<i64, Refusal> {
    if form.year_digits == Some(0) {
        return Err(Refusal::NotConvertible);
    }
    let date = match form.separator {
        None => split(text, b' ').and_then(|[day, month, year]| {
            Some(Date {
                year: typed_year(year)?,
                month: named_month(month)?,
                day: one_or_two_digits(day)?,
            })
        }),
        Some(separator) => split(text, separator).and_then(|[month, day, year]| {
            Some(Date {
                year: typed_year(year)?,
                month: one_or_two_digits(month)?,
                day: one_or_two_digits(day)?,
            })
        }),
    };
    date.and_then(days_before)
        .map(|days| days - DAYS_TO_ZERO)
        .ok_or(Refusal::NotConvertible)
}

/// The text parted at the separator, if this gives three pieces.
fn split(text: &[u8], separator: u8) -> Option<[&[u8]; 3]> {
    let mut pieces = text.split(|&byte| byte == separator);
    let three = [pieces.next()?, pieces.next()?, pieces.next()?];
    pieces.next().is_none().then_some(three)
}

fn one_or_two_digits(text: &[u8]) -> Option<i64> {
    matches!(text.len(), 1 | 2).then(|| digits(text))?
}

/// A year of two digits, 1930 to 2029, or of four.
fn typed_year(text: &[u8]) -> Option<i64> {
    let year = digits(text)?;
    match (text.len(), year) {
        (2, 30..=99) => Some(1900 + year),
        (2, _) => Some(2000 + year),
        (4, 1..) => Some(year),
        _ => None,
    }
}

/// A short text of digits as a number.
fn digits(text: &[u8]) -> Option<i64> {
    if text.len() > 4 {
        return None;
    }
    text.iter().try_fold(0, |value, byte| {
        let digit = byte.is_ascii_digit().then(|| i64::from(byte - b'0'))?;
        Some(value * 10 + digit)
    })
}

/// The number of a month from its three letters in either case.
fn named_month(text: &[u8]) -> Option<i64> {
    let place = MONTH_NAMES
        .iter()
        .position(|name| name.eq_ignore_ascii_case(text))?;
    Some(place as i64 + 1)
}

fn is_leap(year: i64) -> bool {
    year % 4 == 0 && (year % 100 != 0 || year % 400 == 0)
}

fn month_length(year: i64, month: i64) -> i64 {
    let leap_day = month == 2 && is_leap(year);
    MONTH_LENGTHS[month as usize - 1] + i64::from(leap_day)
}

/// The date of the day with this many days before it.
fn date_of(days: i64) -> Date {
    let (mut year, mut rest) = (1, days);
    // Spans of 400, 100, 4 and 1 years. The last of four 100-year spans and the
    // last of four years are a day longer than the others.
    for (years, length, most) in [
        (400, 146_097, i64::MAX),
        (100, 36_524, 3),
        (4, 1_461, 24),
        (1, 365, 3),
    ] {
        let spans = (rest / length).min(most);
        year += spans * years;
        rest -= spans * length;
    }
    let mut month = 1;
    while rest >= month_length(year, month) {
        rest -= month_length(year, month);
        month += 1;
    }
    Date {
        year,
        month,
        day: rest + 1,
    }
}

/// How many days lie before a date; `None` if it is not in the calendar.
fn days_before(date: Date) -> Option<i64> {
    if !(1..=12).contains(&date.month) {
        return None;
    }
    if !(1..=month_length(date.year, date.month)).contains(&date.day) {
        return None;
    }
    let years = date.year - 1;
    let earlier_years = years * 365 + years / 4 - years / 100 + years / 400;
    let earlier_months: i64 = (1..date.month)
        .map(|month| month_length(date.year, month))
        .sum();
    Some(earlier_years + earlier_months + date.day - 1)
}

#[cfg(test)]
mod tests {
    use super::*;

    /// Walks through the whole calendar, day by day, by the plain rules.
    #[test]
    fn every_day_there_and_back() {
        let mut date = Date {
            year: 1,
            month: 1,
            day: 1,
        };
        for day in DAYS {
            assert_eq!(date_of(day + DAYS_TO_ZERO), date);
            assert_eq!(days_before(date), Some(day + DAYS_TO_ZERO));
            date.day += 1;
            if date.day > month_length(date.year, date.month) {
                date.day = 1;
                date.month += 1;
            }
            if date.month > 12 {
                date.month = 1;
                date.year += 1;
            }
        }
        assert_eq!((date.year, date.month, date.day), (10_000, 1, 1));
    }
}
