//! ML and MR codes on numbers: a dropped part at a half or one beside it, on
//! either side of 0, and where a number and its negative part ways.

use std::cmp::Ordering;

use sundewfrill_host::paper::grammar::{self, Code, Conversion, Mask};

use super::super::buffers::Buffers;
use super::super::calls::{ConvertCall, PAPER};
use super::super::numbers::{bare_value, negated};
use super::limits::LAST_NUMBER;
use super::Coverage;

/// One below a half, the half, and one above it.
type Half = [&'static str; 3];
pub const POSITIVE_HALF: Half = [
    "one below a half of a positive",
    "half of a positive",
    "one above a half of a positive",
];
pub const NEGATIVE_HALF: Half = [
    "one below a half of a negative",
    "half of a negative",
    "one above a half of a negative",
];

/// What numbers must reach beside these that an ML or MR code converts.
pub const SCALED: [&str; 9] = [
    "half takes a negative from 0 to -1",
    "half takes a negative to a new digit",
    "negative rounded to 0",
    "Z on a negative rounded to 0",
    "negative with n = m",
    "negative with n > m",
    "positive scaled out of range",
    "negative scaled out of range",
    "only the negative is wider than its mask",
];

impl Coverage {
    /// Notes how one ML or MR code scales a number that is converted by itself.
    pub fn mask_code(&mut self, code: &[u8], element: &[u8], refusal: u64) {
        if code.first() != Some(&b'M') || !matches!(refusal, 0 | 10 | 14) {
            return;
        }
        let codes = grammar::read(code);
        let Ok([Code::Conversion(Conversion::Mask(mask))]) = codes.as_deref() else {
            return;
        };
        let Some(number) = bare_value(element).filter(|number| number.abs() <= LAST_NUMBER) else {
            return;
        };
        let decimals = u32::from(mask.decimals.unwrap_or(0));
        let scale = mask.scale.map_or(decimals, u32::from);
        let negative = number < 0;
        match (refusal, decimals.cmp(&scale)) {
            (0, Ordering::Less) => self.dropped(*mask, number, 10_i128.pow(scale - decimals)),
            (0, Ordering::Equal) => self.tag_if(negative, "negative with n = m"),
            (0, Ordering::Greater) => self.tag_if(negative, "negative with n > m"),
            (10, _) => {
                self.tag_if(negative, "negative scaled out of range");
                self.tag_if(!negative, "positive scaled out of range");
            }
            _ => self.tag_until("only the negative is wider than its mask", || {
                let positive = ConvertCall::of_element(code, &negated(element));
                negative && positive.run(&PAPER, &mut Buffers::default()).refusal == 0
            }),
        }
    }

    /// Notes what is dropped of a number that is shown in multiples of `unit`.
    fn dropped(&mut self, mask: Mask, number: i128, unit: i128) {
        let (kept, dropped) = (number.abs() / unit, number.abs() % unit);
        let negative = number < 0;
        let beside = dropped - unit / 2;
        let tags = if negative {
            NEGATIVE_HALF
        } else {
            POSITIVE_HALF
        };
        for (tag, place) in tags.into_iter().zip(-1..) {
            self.tag_if(beside == place, tag);
        }
        let half = negative && beside == 0;
        self.tag_if(half && kept == 0, "half takes a negative from 0 to -1");
        let nines = kept > 0 && kept.to_string().bytes().all(|digit| digit == b'9');
        self.tag_if(half && nines, "half takes a negative to a new digit");
        let to_zero = negative && kept == 0 && beside < 0;
        self.tag_if(to_zero, "negative rounded to 0");
        let z = to_zero && mask.zero_as_empty;
        self.tag_if(z, "Z on a negative rounded to 0");
    }
}
