//! The calendar by its plain rules: which years are leap, how long months are, which
//! date follows which, and how a date is printed. Neither implementation has a part in
//! it.

use std::sync::OnceLock;

use super::laws::DAYS;

/// A date of the calendar; month and day count from 1.
#[derive(Clone, Copy, Debug, PartialEq, Eq)]
pub struct Date {
    pub year: u64,
    pub month: u64,
    pub day: u64,
}

/// 1 January of year 1.
pub const FIRST: Date = Date {
    year: 1,
    month: 1,
    day: 1,
};
/// 31 December 9999.
pub const LAST: Date = Date {
    year: 9_999,
    month: 12,
    day: 31,
};

const NAMES: [&str; 12] = [
    "JAN", "FEB", "MAR", "APR", "MAY", "JUN", "JUL", "AUG", "SEP", "OCT", "NOV", "DEC",
];

impl Date {
    /// Every fourth year is leap, but of the hundreds only every fourth.
    pub fn is_in_leap_year(self) -> bool {
        match self.year % 100 {
            0 => self.year % 400 == 0,
            _ => self.year % 4 == 0,
        }
    }

    /// How many days the month has.
    pub fn month_length(self) -> u64 {
        match self.month {
            2 => 28 + u64::from(self.is_in_leap_year()),
            4 | 6 | 9 | 11 => 30,
            _ => 31,
        }
    }

    /// The first date of the next month.
    fn next_month(self) -> Self {
        let (year, month) = match self.month {
            12 => (self.year + 1, 1),
            month => (self.year, month + 1),
        };
        Date {
            year,
            month,
            day: 1,
        }
    }

    /// The date that follows.
    pub fn next(self) -> Self {
        if self.day == self.month_length() {
            return self.next_month();
        }
        Date {
            day: self.day + 1,
            ..self
        }
    }

    /// The date of this day of the calendar.
    pub fn of(day: i64) -> Self {
        let months = first_days().partition_point(|&first| first <= day) - 1;
        Date {
            year: months as u64 / 12 + 1,
            month: months as u64 % 12 + 1,
            day: (day - first_days()[months]) as u64 + 1,
        }
    }

    /// The day of the calendar that has this date.
    pub fn number(self) -> i64 {
        let months = (self.year - 1) * 12 + self.month - 1;
        first_days()[months as usize] + self.day as i64 - 1
    }

    /// The date as a D code of four digits prints it, with this separator or without
    /// one.
    pub fn printed(self, separator: Option<char>) -> String {
        let Date { year, month, day } = self;
        match separator {
            None => format!("{day:02} {} {year:04}", NAMES[month as usize - 1]),
            Some(s) => format!("{month:02}{s}{day:02}{s}{year:04}"),
        }
    }
}

/// The first day of every month in order: the lengths of those before it, added up.
fn first_days() -> &'static [i64] {
    static FIRST_DAYS: OnceLock<Vec<i64>> = OnceLock::new();
    FIRST_DAYS.get_or_init(|| {
        let (mut days, mut day, mut month) = (Vec::new(), *DAYS.start(), FIRST);
        while month.year <= LAST.year {
            days.push(day);
            day += month.month_length() as i64;
            month = month.next_month();
        }
        days
    })
}
