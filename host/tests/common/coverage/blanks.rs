//! Blanks round numbers: wherever a number is read, before it, behind it and on both
//! sides, and what has no numeric form there; and where a blank is as any other byte.

use sundewfrill_host::paper::grammar::{Conversion, Elm, Mask, Side};
use sundewfrill_host::paper::{self, VALUE_MARK};

use super::super::buffers::Buffers;
use super::super::calls::{ConvertCall, DateCall, PAPER};
use super::super::generator::NO_BLANKS;
use super::super::laws::DAYS;
use super::super::numbers::{
    closed_up, has_blanks, is_number, parted, value, within_blanks, BLANK,
};
use super::super::operations::{operation, Operation};
use super::limits::LAST_NUMBER;
use super::Coverage;

/// How a text is spelt that is to be read as a number; `Forms` has the same order.
#[derive(Clone, Copy)]
enum Form {
    Before,
    Behind,
    Round,
    OutOfRange,
    Alone,
    BehindSign,
    Between,
    Tab,
    OtherByte,
}

/// The tags of these forms, for one place at which numbers are read.
type Forms = [&'static str; 9];

macro_rules! forms {
    ($place:literal) => {
        [
            concat!("blanks before a number in ", $place),
            concat!("blanks behind a number in ", $place),
            concat!("blanks round a number in ", $place),
            concat!("blanks at a number out of range in ", $place),
            concat!("blanks alone in ", $place),
            concat!("blank behind a sign in ", $place),
            concat!("blank between digits in ", $place),
            concat!("TAB beside a number in ", $place),
            concat!("another byte beside a number in ", $place),
        ]
    };
}

const ARITHMETIC: Forms = forms!("arithmetic");
const START: Forms = forms!("start");
const LENGTH: Forms = forms!("length");
const ML: Forms = forms!("ML");
const MR: Forms = forms!("MR");
const DAY: Forms = forms!("D");

/// Every form at every place at which a number is read by itself.
pub const FORMS: [Forms; 6] = [ARITHMETIC, START, LENGTH, ML, MR, DAY];

/// What relations must reach of which a side has blanks.
pub const RELATIONS: [&str; 9] = [
    "relation: blanks at the second number alone",
    "relation: blanks at the top number alone",
    "relation: blanks at both numbers",
    "relation: order of numbers with blanks, not of bytes",
    "relation: blanks at a number out of range against a number",
    "relation: blanks at a number out of range against a text",
    "relation: blanks at a number against a text",
    "relation: blanks alone against a zero",
    "relation: blank between against a number",
];

/// What else blanks must reach.
pub const BLANKS: [&str; 11] = [
    "Z on a zero with blanks",
    "Z on a zero with blanks in a field",
    "number with blanks of 1,024",
    "number with blanks of 1,025",
    "blanks alone of 1,024",
    "number with blanks in a literal",
    "number with blanks by LPV",
    "number with blanks by a load",
    "blanks that a mask has written",
    "L on a number with blanks",
    "MY on a number with blanks",
];

/// What typed dates must reach.
pub const TYPED_BLANKS: [&str; 2] = ["typed with a blank before", "typed with a blank behind"];

/// What inputs of the program must reach.
pub const ADDRESS_BLANKS: [&str; 3] = [
    "address with a blank before",
    "address with a blank behind",
    "address with a blank between",
];

/// The form of a text with blanks, or with what only looks like that; numbers are to
/// be from `first` to `last`.
fn form(text: &[u8], (first, last): (i128, i128)) -> Option<Form> {
    let [before, within, behind] = parted(text);
    if is_number(text) {
        let in_range = value(text).is_some_and(|value| (first..=last).contains(&value));
        return match (before, behind, in_range) {
            ([], [], _) => None,
            (_, _, false) => Some(Form::OutOfRange),
            (_, [], true) => Some(Form::Before),
            ([], _, true) => Some(Form::Behind),
            _ => Some(Form::Round),
        };
    }
    let of_a_number = is_number(&closed_up(text));
    match within {
        [] => (!text.is_empty()).then_some(Form::Alone),
        [b'+' | b'-', BLANK, ..] if of_a_number => Some(Form::BehindSign),
        _ if of_a_number => Some(Form::Between),
        [9, rest @ ..] | [rest @ .., 9] if is_number(rest) => Some(Form::Tab),
        [byte, rest @ ..] | [rest @ .., byte] if NO_BLANKS.contains(byte) && is_number(rest) => {
            Some(Form::OtherByte)
        }
        _ => None,
    }
}

impl Form {
    /// What comes of reading such a text, if texts without numeric form come to
    /// `otherwise`.
    fn refusal(self, otherwise: u64) -> u64 {
        match self {
            Form::Before | Form::Behind | Form::Round => 0,
            Form::OutOfRange => 10,
            _ => otherwise,
        }
    }
}

/// All numbers.
const NUMBERS: (i128, i128) = (-LAST_NUMBER, LAST_NUMBER);

impl Coverage {
    /// Notes what blanks come to in a conversion of one element.
    pub fn blanks(&mut self, call: &ConvertCall, element: &[u8], refusal: u64) {
        let number = is_number(element) && has_blanks(element);
        let counted = number && refusal == 0 && call.code == b"L";
        self.tag_if(counted, "L on a number with blanks");
        let refused = number && refusal == 12 && call.code == b"MY";
        self.tag_if(refused, "MY on a number with blanks");
        self.tag_until("blanks that a mask has written", || {
            refusal == 0 && reads_a_mask(&call.code, element)
        });
        if let Some(operation) = operation(call, &PAPER) {
            self.operation(&operation, refusal);
            self.lengths(&operation, refusal);
        }
    }

    /// Notes how the texts are spelt that an operation reads as numbers.
    fn operation(&mut self, operation: &Operation, refusal: u64) {
        match (&operation.elm, operation.operands.as_slice()) {
            (Elm::Arithmetic(_), operands) => {
                for operand in operands {
                    self.read(operand, NUMBERS, (&ARITHMETIC, 0), refusal);
                }
                self.brought(operation, refusal);
            }
            (Elm::Relation(_), [second, top]) => self.related(second, top, refusal),
            (Elm::Extract, [_, start, length]) => {
                self.read(start, NUMBERS, (&START, 0), refusal);
                self.read(length, NUMBERS, (&LENGTH, 0), refusal);
            }
            (Elm::Convert(Conversion::Mask(mask)), [element]) => {
                self.masked(*mask, element, refusal);
            }
            (_, operands) => {
                let days = (i128::from(*DAYS.start()), i128::from(*DAYS.end()));
                for day in operands {
                    self.read(day, days, (&DAY, 12), refusal);
                }
            }
        }
    }

    /// Notes the form of a text that is read as a number, with the tags of the place
    /// and what texts without numeric form come to there.
    fn read(&mut self, text: &[u8], range: (i128, i128), place: (&Forms, u64), refusal: u64) {
        let (tags, otherwise) = place;
        if let Some(form) = form(text, range) {
            let expected = form.refusal(otherwise);
            self.tag_if(refusal == expected, tags[form as usize]);
        }
    }

    /// Notes what ML or MR makes of an element with blanks.
    fn masked(&mut self, mask: Mask, element: &[u8], refusal: u64) {
        let tags = match mask.side {
            Side::Left => &ML,
            Side::Right => &MR,
        };
        self.read(element, NUMBERS, (tags, 12), refusal);
        let zero = has_blanks(element) && value(element) == Some(0);
        let z = zero && mask.zero_as_empty && refusal == 0;
        self.tag_if(z && mask.field.is_none(), "Z on a zero with blanks");
        let in_field = z && mask.field.is_some();
        self.tag_if(in_field, "Z on a zero with blanks in a field");
    }

    /// Notes a relation of which a side has blanks.
    fn related(&mut self, second: &[u8], top: &[u8], refusal: u64) {
        let spaced = (has_blanks(second), has_blanks(top));
        let numbers = is_number(second) && is_number(top);
        if numbers && refusal == 0 {
            for (spaced_so, tag) in NUMBERS_RELATED {
                self.tag_if(spaced == spaced_so, tag);
            }
            let unlike = value(second).cmp(&value(top)) != second.cmp(top);
            let unlike = unlike && spaced != (false, false);
            self.tag_if(
                unlike,
                "relation: order of numbers with blanks, not of bytes",
            );
        }
        for (side, other) in [(second, top), (top, second)] {
            let tag = form(side, NUMBERS).and_then(|form| related_as(form, other, refusal));
            self.tags.extend(tag);
        }
    }

    /// Notes by what an operator got a number with blanks.
    fn brought(&mut self, operation: &Operation, refusal: u64) {
        for (elm, operand) in operation.brought_by.iter().zip(&operation.operands) {
            let number = refusal == 0 && is_number(operand) && has_blanks(operand);
            let tag = match elm {
                Elm::Literal(_) => "number with blanks in a literal",
                Elm::Load(_) => "number with blanks by a load",
                _ => "number with blanks by LPV",
            };
            self.tag_if(number, tag);
        }
    }

    /// Notes blanks that bring what an operation takes to the limit of its length.
    fn lengths(&mut self, operation: &Operation, refusal: u64) {
        for operand in &operation.operands {
            let number = is_number(operand) && has_blanks(operand);
            let alone = within_blanks(operand).is_empty();
            let (longest, longer) = (operand.len() == 1_024, operand.len() == 1_025);
            let read = longest && refusal == 0;
            self.tag_if(number && read, "number with blanks of 1,024");
            let refused = longer && refusal == 9;
            self.tag_if(number && refused, "number with blanks of 1,025");
            let not_numeric = longest && matches!(refusal, 0 | 12);
            self.tag_if(alone && not_numeric, "blanks alone of 1,024");
        }
    }

    /// Notes a typed date that is refused for blanks before it or behind it alone.
    pub fn typed_blanks(&mut self, call: &DateCall, refusal: u64) {
        let [before, text, behind] = parted(&call.text);
        let right = || refusal == 12 && paper::typed_date(&call.code, text).refusal == 0;
        let ends = (before.is_empty(), behind.is_empty());
        self.tag_until("typed with a blank before", || {
            ends == (false, true) && right()
        });
        self.tag_until("typed with a blank behind", || {
            ends == (true, false) && right()
        });
    }

    /// Notes an address of the program that is refused for its blanks alone.
    pub fn address_blanks(&mut self, input: &[u8], refusal: u64) {
        let mut lines: Vec<&[u8]> = input.split(|&byte| byte == b'\n').collect();
        let Some(line) = lines.get_mut(1) else {
            return;
        };
        let [before, within, behind] = parted(line);
        let closed_up = closed_up(line);
        *line = &closed_up;
        let right = || super::limits::refusal(&paper::program(&lines.join(&b'\n'))) != 4;
        let tag = match (before, closed_up == within, behind) {
            ([_, ..], true, []) => "address with a blank before",
            ([], true, [_, ..]) => "address with a blank behind",
            ([], false, []) => "address with a blank between",
            _ => return,
        };
        self.tag_until(tag, || refusal == 4 && right());
    }
}

/// Which sides of a relation of numbers have blanks.
const NUMBERS_RELATED: [((bool, bool), &str); 3] = [
    ((true, false), "relation: blanks at the second number alone"),
    ((false, true), "relation: blanks at the top number alone"),
    ((true, true), "relation: blanks at both numbers"),
];

/// What a text of this form came to in a relation to another text.
fn related_as(form: Form, other: &[u8], refusal: u64) -> Option<&'static str> {
    match (form, is_number(other), refusal) {
        (Form::OutOfRange, true, 10) => {
            Some("relation: blanks at a number out of range against a number")
        }
        (Form::OutOfRange, false, 0) => {
            Some("relation: blanks at a number out of range against a text")
        }
        (Form::Before | Form::Behind | Form::Round, false, 0) => {
            Some("relation: blanks at a number against a text")
        }
        (Form::Alone, true, 0) => {
            (value(other) == Some(0)).then_some("relation: blanks alone against a zero")
        }
        (Form::BehindSign | Form::Between, true, 0) => {
            Some("relation: blank between against a number")
        }
        _ => None,
    }
}

/// Whether a string is two masks, of which the second reads blanks round a number that
/// the first has written of this element.
fn reads_a_mask(string: &[u8], element: &[u8]) -> bool {
    let codes: Vec<&[u8]> = string.split(|&byte| byte == VALUE_MARK).collect();
    let is_mask = |code: &[u8]| code.starts_with(b"ML") || code.starts_with(b"MR");
    let [first, second] = codes.as_slice() else {
        return false;
    };
    is_mask(first) && is_mask(second) && {
        let mut buffers = Buffers::default();
        let outcome = ConvertCall::of_element(first, element).run(&PAPER, &mut buffers);
        let text = &buffers.output.after()[..outcome.length as usize];
        is_number(text) && has_blanks(text)
    }
}
