//! The edges of months in common years and in leap years: the first day and the last,
//! typed and printed, and the day after the last, typed.

use sundewfrill_host::outcome::TypedDate;
use sundewfrill_host::paper::grammar::{self, Code, Conversion, DateForm};
use sundewfrill_host::paper::{self, LEAST_MARK};

use super::super::calendar::Date;
use super::super::calls::DateCall;
use super::super::numbers::value;
use super::Coverage;

/// A tag for each month of a common year, and one for each of a leap year.
type Months = [[&'static str; 12]; 2];

macro_rules! months {
    ($edge:literal) => {
        [months!($edge, "common"), months!($edge, "leap")]
    };
    ($edge:literal, $year:literal) => {
        months!($edge, $year, [JAN FEB MAR APR MAY JUN JUL AUG SEP OCT NOV DEC])
    };
    ($edge:literal, $year:literal, [$($month:ident)*]) => {
        [$(concat!($edge, " of ", stringify!($month), " in a ", $year, " year")),*]
    };
}

const TYPED_FIRST: Months = months!("typed first day");
const TYPED_LAST: Months = months!("typed last day");
const TYPED_PAST: Months = months!("typed day after the last");
const PRINTED_FIRST: Months = months!("printed first day");
const PRINTED_LAST: Months = months!("printed last day");

/// What typed dates must reach of this.
pub fn typed_edges() -> Vec<&'static str> {
    [TYPED_FIRST, TYPED_LAST, TYPED_PAST].concat().concat()
}

/// What conversions must reach of this.
pub fn printed_edges() -> Vec<&'static str> {
    [PRINTED_FIRST, PRINTED_LAST].concat().concat()
}

/// The tag of a date's month.
fn tag(months: &Months, date: Date) -> &'static str {
    months[usize::from(date.is_in_leap_year())][date.month as usize - 1]
}

impl Coverage {
    /// Notes a typed date at an edge of its month.
    pub fn typed_edge(&mut self, call: &DateCall, outcome: &TypedDate) {
        match outcome.refusal {
            0 => self.edge(Date::of(outcome.day()), [&TYPED_FIRST, &TYPED_LAST]),
            12 => {
                let last = day_before(call);
                self.tags.extend(last.map(|last| tag(&TYPED_PAST, last)));
            }
            _ => {}
        }
    }

    /// Notes the edges of months among the elements of a part that one D code has
    /// printed.
    pub fn printed_edges(&mut self, code: &[u8], part: &[u8], refusal: u64) {
        if refusal != 0 || date_form(code).is_none() {
            return;
        }
        for element in part.split(|&byte| byte >= LEAST_MARK) {
            // An empty element stays empty.
            if let Some(day) = value(element) {
                let date = Date::of(day as i64);
                self.edge(date, [&PRINTED_FIRST, &PRINTED_LAST]);
            }
        }
    }

    /// Notes the first date and the last of a month.
    fn edge(&mut self, date: Date, [first, last]: [&Months; 2]) {
        self.tag_if(date.day == 1, tag(first, date));
        self.tag_if(date.day == date.month_length(), tag(last, date));
    }
}

/// The last date of a month, if the day after it is typed and refused for that day alone:
/// with the first day of the month, and with the last, the same text is a date.
fn day_before(call: &DateCall) -> Option<Date> {
    let [before, day, behind] = at_day(call)?;
    let with_day = |day: u64| {
        let text = [before, format!("{day:02}").as_bytes(), behind].concat();
        paper::typed_date(&call.code, &text)
    };
    let first = Some(with_day(1)).filter(|outcome| outcome.refusal == 0)?;
    let first = Date::of(first.day());
    let last = Date {
        day: first.month_length(),
        ..first
    };
    let is_past = day == (last.day + 1).to_string().as_bytes();
    let is_last = with_day(last.day) == TypedDate::of_day(last.number());
    (is_past && is_last).then_some(last)
}

/// A typed text in three: what stands before its day, the day, and what stands behind it.
fn at_day(call: &DateCall) -> Option<[&[u8]; 3]> {
    let separator = date_form(&call.code)?.separator;
    let parting = separator.unwrap_or(b' ');
    let mut pieces = call.text.split(|&byte| byte == parting);
    // A month's number stands before the day, its name behind it.
    let start = match separator {
        Some(_) => pieces.next()?.len() + 1,
        None => 0,
    };
    let end = start + pieces.next()?.len();
    let text = &call.text;
    Some([&text[..start], &text[start..end], &text[end..]])
}

/// The form of a code string that is one D code.
fn date_form(string: &[u8]) -> Option<DateForm> {
    if !string.starts_with(b"D") {
        return None;
    }
    match grammar::read(string).as_deref() {
        Ok([Code::Conversion(Conversion::Date(form))]) => Some(*form),
        _ => None,
    }
}
