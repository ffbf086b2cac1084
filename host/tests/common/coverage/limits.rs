//! What the calls of each kind have reached, and what they must reach: the
//! limits of document 01 on both sides.

use sundewfrill_host::outcome::{Address, Ceiling, Check, Convert, Find, Replace, TypedDate};
use sundewfrill_host::paper::grammar::{self, Code, Conversion, Elm, Operator};
use sundewfrill_host::paper::{self, ATTRIBUTE_MARK, LEAST_MARK};

use super::super::buffers::Buffers;
use super::super::calls::{
    CeilingCall, CheckCall, ConvertCall, DateCall, FindCall, ReplaceCall, PAPER,
};
use super::super::generator::NEAR_MISSES;
use super::super::laws::{came_to_end, DAYS};
use super::super::numbers::bare_value;
use super::blanks::{ADDRESS_BLANKS, BLANKS, FORMS, RELATIONS, TYPED_BLANKS};
use super::entries::ENTRIES;
use super::masks::{NEGATIVE_HALF, POSITIVE_HALF, SCALED};
use super::months::{printed_edges, typed_edges};
use super::patterns::{PASSES, PATTERN_STRINGS};
use super::steps::{deepest, STEPS};
use super::Coverage;

/// What each kind of call must reach, the accepted calls aside: refusals and
/// tags.
impl Coverage {
    /// Fails unless finding has reached everything.
    pub fn require_of_find(&self) {
        self.require("find", &[1, 2, 3, 4], &[&PLACES, &FINDS]);
    }

    /// Fails unless replacing has reached everything.
    pub fn require_of_replace(&self) {
        let refusals = [1, 2, 3, 4, 9, 16, 17];
        self.require("replace", &refusals, &[&PLACES, &REPLACES]);
    }

    /// Fails unless checking has reached everything.
    pub fn require_of_check(&self) {
        self.require("check", &[5, 6, 7, 18], &[&STEPS.concat(), &strings()]);
    }

    /// Fails unless converting has reached everything.
    pub fn require_of_convert(&self) {
        let refusals: Vec<u64> = (1..=16).chain([18]).collect();
        let steps = STEPS.concat();
        let ends = [NUMBER_ENDS, RESULT_ENDS, DAY_ENDS].concat();
        let given = [PASSES.as_slice(), &POSITIVE_HALF, &NEGATIVE_HALF, &SCALED].concat();
        let blanks = [FORMS.concat().as_slice(), &RELATIONS, &BLANKS].concat();
        let tags: [&[&str]; 8] = [
            &steps,
            &PLACES,
            &strings(),
            &CONVERTS,
            &ends,
            &given,
            &blanks,
            &printed_edges(),
        ];
        self.require("convert", &refusals, &tags);
    }

    /// Fails unless the ceiling has reached everything.
    pub fn require_of_ceiling(&self) {
        let refusals: Vec<u64> = (1..=7).chain([18]).collect();
        let tags: [&[&str]; 4] = [&STEPS.concat(), &PLACES, &strings(), &CEILINGS];
        self.require("ceiling", &refusals, &tags);
    }

    /// Fails unless reading typed dates has reached everything.
    pub fn require_of_date(&self) {
        let tags: [&[&str]; 3] = [&DATES, &TYPED_BLANKS, &typed_edges()];
        self.require("date", &[5, 6, 12], &tags);
    }

    /// Notes what the program writes.
    pub fn program(&mut self, input: &[u8], written: &[u8]) {
        let refusal = refusal(written);
        self.refusal(refusal);
        self.address_blanks(input, refusal);
    }

    /// Fails unless the program has reached everything.
    pub fn require_of_program(&self) {
        self.require("program", &[4, 6, 7, 10, 12, 18], &[&ADDRESS_BLANKS]);
    }
}

/// What code strings must reach.
fn strings() -> Vec<&'static str> {
    [STRINGS.as_slice(), &ENTRIES, &PATTERN_STRINGS, &NEAR_MISSES].concat()
}

const PLACES: [&str; 12] = [
    "record of 32,768", "record of 32,769", "id of 48", "id of 49", "a of 999", "a of 1,000",
    "v of 32,768", "v of 32,769", "s of 32,768", "s of 32,769", "s without v", "v of the id",
];
const FINDS: [&str; 3] = ["found", "found empty", "missing"];
const REPLACES: [&str; 10] = [
    "new element of 1,024", "new element of 1,025", "result of 32,768", "result of 32,769",
    "new id of 48", "new id of 49", "place made", "empty place made", "output met exactly",
    "output one short",
];
const STRINGS: [&str; 5] = [
    "code string of 512", "code string of 513", "stack of 16", "stack of 17", "entry not there",
];
const CONVERTS: [&str; 14] = [
    "missing place", "element of 1,024", "element of 1,025", "MX on 512", "MX on 513",
    "longest record run", "answer over 65,536", "budget met exactly", "budget one short",
    "output met exactly", "output one short", "scratch of 20,480", "scratch of 20,479",
    "18 and scratch short",
];
const CEILINGS: [&str; 8] = [
    "ceiling of a missing place",
    "ceiling of the id",
    "ceiling of one element",
    "ceiling of 32,768 elements",
    "ceiling of 0",
    "ceiling past 32 bits",
    "element of 1,024 let in",
    "element of 1,025 let in",
];
const DATES: [&str; 14] = [
    "code string of 512", "code string of 513", "typed with s", "typed without s",
    "year of 2 digits", "year of 4 digits", "year 29", "year 30", "day 0 typed", "first day typed",
    "last day typed", "typed before the first", "typed after the last", "typed for a P code",
];

/// One before a range, its first, its last, and one after it.
type Ends = [&'static str; 4];
const NUMBER_ENDS: Ends = [
    "number below the first", "first number", "last number", "number past the last",
];
const RESULT_ENDS: Ends = [
    "result below the first", "first result", "last result", "result past the last",
];
const DAY_ENDS: Ends = [
    "day before the first", "first day", "last day", "day past the last",
];

/// The greatest number; the least is its negative.
pub const LAST_NUMBER: i128 = 999_999_999_999_999;

impl Coverage {
    /// Notes what a finding has reached.
    pub fn find(&mut self, call: &FindCall, outcome: &Find) {
        self.refusal(outcome.refusal);
        self.place(&call.record, call.at, outcome.refusal);
        let found = outcome.found == 1;
        self.tag_if(found && outcome.length > 0, "found");
        self.tag_if(found && outcome.length == 0, "found empty");
        self.tag_if(outcome.refusal == 0 && !found, "missing");
    }

    /// Notes what a replacing has reached.
    pub fn replace(&mut self, call: &ReplaceCall, outcome: &Replace) {
        let (refusal, accepted) = (outcome.refusal, outcome.refusal == 0);
        self.refusal(refusal);
        let found = paper::find(&call.record, call.at);
        self.place(&call.record, call.at, found.refusal);
        let let_in = found.refusal == 0;
        let new = call.new.len();
        self.tag_if(accepted && new == 1_024, "new element of 1,024");
        self.tag_if(refusal == 9 && new == 1_025, "new element of 1,025");
        self.tag_if(accepted && call.at.a == 0 && new == 48, "new id of 48");
        self.tag_if(refusal == 3 && let_in && new == 49, "new id of 49");
        let made = accepted && found.found == 0;
        self.tag_if(made, "place made");
        self.tag_if(made && new == 0, "empty place made");
        self.tag_if(accepted && outcome.length == 32_768, "result of 32,768");
        self.tag_until("result of 32,769", || {
            refusal == 1 && let_in && new > 0 && {
                let mut shorter = call.clone();
                shorter.new.pop();
                shorter.output_length = paper::RECORD_LENGTH;
                shorter.run(&PAPER, &mut Buffers::default()).length == 32_768
            }
        });
        let exact = outcome.length == call.output_length as u64;
        self.tag_if(accepted && exact, "output met exactly");
        self.tag_until("output one short", || {
            refusal == 16 && call.output_length > 0 && {
                let mut longer = call.clone();
                longer.output_length += 1;
                longer.run(&PAPER, &mut Buffers::default()).refusal == 0
            }
        });
    }

    /// Notes what a checking has reached.
    pub fn check(&mut self, call: &CheckCall, outcome: &Check) {
        self.refusal(outcome.refusal);
        self.code_string(&call.code, outcome.refusal);
    }

    /// Notes what a converting has reached.
    pub fn convert(&mut self, call: &ConvertCall, outcome: &Convert) {
        let (refusal, accepted) = (outcome.refusal, outcome.refusal == 0);
        self.refusal(refusal);
        let found = paper::find(&call.record, call.at);
        self.place(&call.record, call.at, found.refusal);
        self.code_string(&call.code, refusal);
        self.buffers(call, outcome);
        let part = &call.record[found.start as usize..][..found.length as usize];
        self.printed_edges(&call.code, part, refusal);
        if part.iter().all(|&byte| byte < LEAST_MARK) {
            self.element(&call.code, part, refusal);
            self.pattern_code(&call.code, part, refusal);
            self.mask_code(&call.code, part, refusal);
            self.blanks(call, part, refusal);
        }
        self.tag_if(accepted && found.found == 0, "missing place");
        let longest = call.record.len() == 32_768;
        self.tag_if(accepted && longest, "longest record run");
        self.tag_if(accepted && outcome.length > 65_536, "answer over 65,536");
    }

    /// Notes what a call for the ceiling has reached.
    pub fn ceiling(&mut self, call: &CeilingCall, outcome: &Ceiling) {
        let accepted = outcome.refusal == 0;
        self.refusal(outcome.refusal);
        let found = paper::find(&call.record, call.at);
        self.place(&call.record, call.at, found.refusal);
        self.code_string(&call.code, outcome.refusal);
        let part = &call.record[found.start as usize..][..found.length as usize];
        let marks = part.iter().filter(|&&byte| byte >= LEAST_MARK).count();
        let some = accepted && outcome.ceiling > 0;
        let there = some && found.found == 1;
        self.tag_if(some && !there, "ceiling of a missing place");
        self.tag_if(there && call.at.a == 0, "ceiling of the id");
        self.tag_if(there && marks == 0, "ceiling of one element");
        self.tag_if(there && marks == 32_767, "ceiling of 32,768 elements");
        self.tag_if(accepted && !some, "ceiling of 0");
        let wide = outcome.ceiling > u64::from(u32::MAX);
        self.tag_if(accepted && wide, "ceiling past 32 bits");
        for (length, tag) in [
            (1_024, "element of 1,024 let in"),
            (1_025, "element of 1,025 let in"),
        ] {
            self.tag_if(there && marks == 0 && part.len() == length, tag);
        }
    }

    /// Notes what a reading of a typed date has reached.
    pub fn date(&mut self, call: &DateCall, outcome: &TypedDate) {
        let (refusal, accepted) = (outcome.refusal, outcome.refusal == 0);
        self.refusal(refusal);
        self.tag_if(refusal == 6 && call.code.len() == 512, "code string of 512");
        self.tag_if(refusal == 5 && call.code.len() == 513, "code string of 513");
        self.tag_until("typed for a P code", || {
            let pattern_code = refusal == 6 && call.code.starts_with(b"P(");
            pattern_code && paper::check(&call.code).refusal == 0
        });
        self.typed_blanks(call, refusal);
        self.typed_edge(call, outcome);
        let (front, year) = call.text.split_at(before_digits(&call.text));
        self.tag_if(accepted && year.len() == 2, "year of 2 digits");
        self.tag_if(accepted && year.len() == 4, "year of 4 digits");
        self.tag_if(accepted && year == b"29", "year 29");
        self.tag_if(accepted && year == b"30", "year 30");
        let lettered = front.iter().any(u8::is_ascii_alphabetic);
        self.tag_if(accepted && !lettered, "typed with s");
        self.tag_if(accepted && lettered, "typed without s");
        let (first, last) = (*DAYS.start(), *DAYS.end());
        self.tag_if(accepted && outcome.day() == 0, "day 0 typed");
        self.tag_if(accepted && outcome.day() == first, "first day typed");
        self.tag_if(accepted && outcome.day() == last, "last day typed");
        // These two are refused for their year alone: in another one the same
        // text is the last day, or the first.
        let in_year = |year: &[u8]| paper::typed_date(&call.code, &[front, year].concat());
        self.tag_until("typed before the first", || {
            refusal == 12 && year == b"0000" && in_year(b"9999") == TypedDate::of_day(last)
        });
        self.tag_until("typed after the last", || {
            refusal == 12 && year == b"10000" && in_year(b"0001") == TypedDate::of_day(first)
        });
    }

    /// Notes the limits of a record and an address; `refusal` is finding's.
    fn place(&mut self, record: &[u8], at: Address, refusal: u64) {
        let let_in = refusal == 0;
        self.tag_if(let_in && record.len() == 32_768, "record of 32,768");
        self.tag_if(refusal == 1 && record.len() == 32_769, "record of 32,769");
        let end = record.iter().position(|&byte| byte == ATTRIBUTE_MARK);
        let id = &record[..end.unwrap_or(record.len())];
        self.tag_if(let_in && id.len() == 48, "id of 48");
        let plain = id.iter().all(|&byte| byte < LEAST_MARK);
        self.tag_if(refusal == 3 && id.len() == 49 && plain, "id of 49");
        self.tag_if(let_in && at.a == 999, "a of 999");
        self.tag_if(let_in && at.v == 32_768, "v of 32,768");
        self.tag_if(let_in && at.s == 32_768, "s of 32,768");
        if refusal != 4 {
            return;
        }
        // Only the one number is wrong: with another one the address is let in.
        for (wrong, tag, right) in [
            (at.a == 1_000, "a of 1,000", Address { a: 999, ..at }),
            (at.v == 32_769, "v of 32,769", Address { v: 32_768, ..at }),
            (at.s == 32_769, "s of 32,769", Address { s: 32_768, ..at }),
            (at.v == 0, "s without v", Address { v: 1, ..at }),
            (at.a == 0, "v of the id", Address { a: 1, ..at }),
        ] {
            self.tag_if(wrong && paper::find(b"", right).refusal == 0, tag);
        }
    }

    /// Notes the steps and the limits of a code string.
    fn code_string(&mut self, code: &[u8], refusal: u64) {
        let accepted = refusal == 0;
        if accepted {
            self.steps(code);
        }
        self.tag_if(accepted && code.len() == 512, "code string of 512");
        self.tag_if(refusal == 5 && code.len() == 513, "code string of 513");
        self.tag_until("stack of 16", || accepted && deepest(code) == Some(16));
        self.tag_until("stack of 17", || refusal == 7 && deepest(code) == Some(17));
        self.tag_until("entry not there", || {
            refusal == 7 && deepest(code).is_none()
        });
        self.entries(code, refusal);
        self.pattern_string(code, refusal);
    }

    /// Notes how far budget, output and scratch of a converting reach.
    fn buffers(&mut self, call: &ConvertCall, outcome: &Convert) {
        let (refusal, accepted) = (outcome.refusal, outcome.refusal == 0);
        let changed = |change: fn(&mut ConvertCall)| {
            let mut call = call.clone();
            change(&mut call);
            call.run(&PAPER, &mut Buffers::default())
        };
        let (steps, length) = (outcome.steps, outcome.length);
        let met = accepted && steps > 0 && steps == call.budget;
        self.tag_if(met, "budget met exactly");
        self.tag_until("budget one short", || {
            refusal == 15 && came_to_end(&changed(|call| call.budget += 1))
        });
        let met = accepted && length > 0 && length == call.output_length as u64;
        self.tag_if(met, "output met exactly");
        self.tag_until("output one short", || {
            let some = refusal == 16 && call.output_length > 0;
            some && changed(|call| call.output_length += 1).refusal == 0
        });
        let scratch = call.scratch_length;
        self.tag_if(accepted && scratch == 20_480, "scratch of 20,480");
        self.tag_if(refusal == 8 && scratch == 20_479, "scratch of 20,479");
        let both = refusal == 18 && scratch < 20_480;
        self.tag_if(both, "18 and scratch short");
    }

    /// Notes the limits of an element that is converted by itself.
    fn element(&mut self, code: &[u8], element: &[u8], refusal: u64) {
        let length = element.len();
        self.tag_if(refusal == 0 && length == 1_024, "element of 1,024");
        self.tag_if(refusal == 9 && length == 1_025, "element of 1,025");
        self.tag_if(code == b"MX" && refusal == 0 && length == 512, "MX on 512");
        self.tag_if(code == b"MX" && refusal == 9 && length == 513, "MX on 513");
        // The ends of a range are told of short codes alone: long ones do more
        // than to read a number.
        if code.len() > 40 || !matches!(refusal, 0 | 10) {
            return;
        }
        let Some(number) = bare_value(element) else {
            return;
        };
        match grammar::read(code).as_deref() {
            Ok([Code::Conversion(Conversion::Mask(_))]) => {
                self.ends((-LAST_NUMBER, LAST_NUMBER), number, refusal, NUMBER_ENDS);
            }
            Ok([Code::Conversion(Conversion::Date(_))]) => {
                let days = (i128::from(*DAYS.start()), i128::from(*DAYS.end()));
                self.ends(days, number, refusal, DAY_ENDS);
            }
            Ok([Code::Function(elms)]) => {
                if let Some(result) = result(number, elms) {
                    self.ends((-LAST_NUMBER, LAST_NUMBER), result, refusal, RESULT_ENDS);
                }
            }
            _ => {}
        }
    }

    /// Notes a value at an end of its range, or one past it.
    fn ends(&mut self, (first, last): (i128, i128), value: i128, refusal: u64, tags: Ends) {
        self.tag_if(refusal == 10 && value == first - 1, tags[0]);
        self.tag_if(refusal == 0 && value == first, tags[1]);
        self.tag_if(refusal == 0 && value == last, tags[2]);
        self.tag_if(refusal == 10 && value == last + 1, tags[3]);
    }
}

/// Where the digits at the end of a text begin.
fn before_digits(text: &[u8]) -> usize {
    let last = text.iter().rposition(|byte| !byte.is_ascii_digit());
    last.map_or(0, |place| place + 1)
}

/// What `LPV`, a literal and an operator give of this number, both in range.
fn result(second: i128, elms: &[Elm]) -> Option<i128> {
    let [Elm::Previous, Elm::Literal(text), Elm::Arithmetic(operator)] = elms else {
        return None;
    };
    let top = bare_value(text)?;
    if second.abs() > LAST_NUMBER || top.abs() > LAST_NUMBER {
        return None;
    }
    match operator {
        Operator::Add => Some(second + top),
        Operator::Subtract => Some(second - top),
        Operator::Multiply(None) => Some(second * top),
        _ => None,
    }
}

/// The refusal number that a line of the program begins with.
pub fn refusal(written: &[u8]) -> u64 {
    let text = String::from_utf8_lossy(written);
    let word = text.split(' ').next().expect("a line has a word");
    word.parse().expect("the first word is a number")
}
