//! The proved library against the independent implementation on generated
//! calls: refusals, counts, and every byte of output and scratch, on dirty
//! buffers of many lengths.
//!
//! Needs the archive. A usual run has 1,250,000 calls with a fixed seed; each
//! completed conversion is run again at its count and one below it. A longer
//! run: `SUNDEWFRILL_CASES=20_000_000`; another one: `SUNDEWFRILL_SEED=7`.
//! Progress is shown every few seconds. The calendar is gone through day by day, and
//! each date must follow the one before.

mod common;

use std::fmt::{Debug, Display};

use common::buffers::Buffers;
use common::calendar::{self, Date};
use common::calls::{CeilingCall, ConvertCall, DateCall, PAPER, PROVED};
use common::cases::cases;
use common::generator;
use common::laws;
use common::progress::{Progress, USUAL_CASES};
use sundewfrill_host::outcome::{Address, Ceiling, Convert};
use sundewfrill_host::{paper, SCRATCH_LENGTH};

/// Fails, with the call as the batch program reads it, unless both outcomes are
/// the same.
fn same<T: PartialEq + Debug>(paper: &T, proved: &T, what: &str, call: &impl Display) {
    assert!(
        paper == proved,
        "{what} differs\n{call}\nindependent: {paper:?}\nproved:      {proved:?}"
    );
}

/// Fails, with the first place, unless both buffers hold the same bytes.
fn same_bytes(paper: &[u8], proved: &[u8], what: &str, call: &impl Display) {
    if paper == proved {
        return;
    }
    let place = paper
        .iter()
        .zip(proved)
        .position(|(one, other)| one != other);
    panic!(
        "{what} differs from byte {place:?} on\n{call}\nindependent: {:?}\nproved:      {:?}",
        place.map(|place| paper[place]),
        place.map(|place| proved[place])
    );
}

/// The ceiling, the same on both sides.
fn same_ceiling(call: &CeilingCall) -> Ceiling {
    let (paper, proved) = (call.run(&PAPER), call.run(&PROVED));
    same(&paper, &proved, "the ceiling", call);
    proved
}

/// Buffers for either side.
#[derive(Default)]
struct Both {
    paper: Buffers,
    proved: Buffers,
}

impl Both {
    /// Fails unless output and scratch are the same on both sides.
    fn same(&self, call: &impl Display) {
        let outputs = (self.paper.output.after(), self.proved.output.after());
        same_bytes(outputs.0, outputs.1, "the output", call);
        let scratches = (self.paper.scratch.after(), self.proved.scratch.after());
        same_bytes(scratches.0, scratches.1, "the scratch", call);
    }

    /// Converts on both sides, compares everything, and gives the outcome.
    fn convert(&mut self, call: &ConvertCall) -> Convert {
        let paper = call.run(&PAPER, &mut self.paper);
        let proved = call.run(&PROVED, &mut self.proved);
        same(&paper, &proved, "converting", call);
        self.same(call);
        proved
    }
}

#[test]
fn find() {
    let coverage = cases(USUAL_CASES, "find", 1, 9, |rng, coverage| {
        let call = generator::find(rng);
        let (paper, proved) = (call.run(&PAPER), call.run(&PROVED));
        same(&paper, &proved, "finding", &call);
        laws::find(&call, &proved);
        coverage.find(&call, &proved);
    });
    coverage.require_of_find();
}

#[test]
fn replace() {
    let mut both = Both::default();
    let coverage = cases(USUAL_CASES, "replace", 2, 13, |rng, coverage| {
        let call = generator::replace(rng, &mut both.paper);
        let paper = call.run(&PAPER, &mut both.paper);
        let proved = call.run(&PROVED, &mut both.proved);
        same(&paper, &proved, "replacing", &call);
        let outputs = (both.paper.output.after(), both.proved.output.after());
        same_bytes(outputs.0, outputs.1, "the output", &call);
        laws::replace(&call, &proved, &both.proved);
        coverage.replace(&call, &proved);
    });
    coverage.require_of_replace();
}

#[test]
fn check() {
    let coverage = cases(USUAL_CASES, "check", 3, 17, |rng, coverage| {
        let call = generator::check(rng);
        let (paper, proved) = (call.run(&PAPER), call.run(&PROVED));
        same(&paper, &proved, "checking", &call);
        laws::check(&call, &proved);
        laws::codes::judged(&call, &proved, &PROVED);
        coverage.check(&call, &proved);
    });
    coverage.require_of_check();
}

/// Converting, in two shares: they are most of the work, and run side by side.
#[test]
fn convert() {
    convert_share("convert", 4, 19);
}

#[test]
fn convert_more() {
    convert_share("convert, more", 7, 19);
}

fn convert_share(name: &'static str, call: u64, percent: u64) {
    let mut both = Both::default();
    let coverage = cases(USUAL_CASES, name, call, percent, |rng, coverage| {
        let mut call = generator::convert(rng, &mut both.paper);
        let outcome = both.convert(&call);
        laws::convert(&call, &outcome, &both.proved);
        laws::codes::before_run(&call, &outcome, &PROVED);
        laws::within_ceiling(&call, &outcome, &same_ceiling(&call.ceiling()));
        coverage.convert(&call, &outcome);
        let answer = both.proved.output.after().to_vec();
        for (budget, enough) in laws::budgets(&outcome) {
            call.budget = budget;
            let again = both.convert(&call);
            laws::budget(&call, enough, (&outcome, &answer), &again, &both.proved);
        }
        laws::codes::one_more(&call, &PROVED, &mut both.proved);
        laws::pattern_code(&call, &PROVED, &mut both.proved);
        laws::mask_code(&call, &PROVED, &mut both.proved);
        laws::blanks(&call, &PROVED, &mut both.proved);
    });
    coverage.require_of_convert();
}

#[test]
fn ceiling() {
    let coverage = cases(USUAL_CASES, "ceiling", 8, 5, |rng, coverage| {
        let call = generator::ceiling(rng);
        let outcome = same_ceiling(&call);
        laws::ceiling(&call, &outcome, &PROVED);
        coverage.ceiling(&call, &outcome);
    });
    coverage.require_of_ceiling();
}

#[test]
fn date() {
    let coverage = cases(USUAL_CASES, "date", 5, 9, |rng, coverage| {
        let call = generator::date(rng);
        let (paper, proved) = (call.run(&PAPER), call.run(&PROVED));
        same(&paper, &proved, "reading a typed date", &call);
        laws::date(&call, &proved);
        coverage.date(&call, &proved);
    });
    coverage.require_of_date();
}

/// A codes shown as F; each F text that comes of one must convert to the value of its
/// expression, which the independent implementation takes without a stack.
#[test]
fn algebra() {
    let mut both = Both::default();
    let coverage = cases(USUAL_CASES, "algebra", 9, 9, |rng, coverage| {
        let call = generator::algebra(rng, &mut both.paper);
        let paper = call.run(&PAPER, &mut both.paper);
        let outcome = call.run(&PROVED, &mut both.proved);
        same(&paper, &outcome, "showing an A code", &call);
        let outputs = (both.paper.output.after(), both.proved.output.after());
        same_bytes(outputs.0, outputs.1, "the output", &call);
        let text = laws::algebra::all(&call, &outcome, &PROVED, &mut both.proved);
        coverage.algebra(&call, &outcome);
        if let Some(text) = text {
            let by_text = generator::conversion_by_text(rng, &text);
            let refusal = laws::algebra::value(&call.code, &by_text, &PROVED, &mut both.proved);
            coverage.values(&call.code, &by_text, refusal);
        }
    });
    coverage.require_of_algebra();
}

/// Every day of the calendar, printed in either form, and read again. Each date must
/// follow the one before.
#[test]
fn calendar() {
    const DAYS_AT_ONCE: usize = 2_000;
    let days: Vec<i64> = laws::DAYS.collect();
    let mut both = Both::default();
    let mut progress = Progress::new("calendar", days.len() as u64);
    let mut date = calendar::FIRST;
    for (chunk, number) in days.chunks(DAYS_AT_ONCE).zip(0..) {
        let named = printed(&mut both, chunk, b"D");
        let answer = printed(&mut both, chunk, b"D4/");
        let after_named = follow(&named, None, date);
        date = follow(&answer, Some('/'), date);
        assert_eq!(after_named, date, "as many dates in either form");
        let dates = answer.split(|&byte| byte == paper::VALUE_MARK);
        for (text, &day) in dates.zip(chunk) {
            let call = DateCall {
                code: b"D4/".to_vec(),
                text: text.to_vec(),
            };
            let (paper, proved) = (call.run(&PAPER), call.run(&PROVED));
            same(&paper, &proved, "reading a typed date", &call);
            assert_eq!((proved.refusal, proved.day()), (0, day), "{call}");
        }
        progress.step(number * DAYS_AT_ONCE as u64);
    }
    assert_eq!(date, calendar::LAST.next(), "the date behind the last");
    progress.finish("every day there and back");
}

/// Fails unless the printed dates are this one and those that follow it, in order. Gives
/// the one that must follow them.
fn follow(printed: &[u8], separator: Option<char>, mut date: Date) -> Date {
    for text in printed.split(|&byte| byte == paper::VALUE_MARK) {
        let expected = date.printed(separator);
        let right = text == expected.as_bytes();
        assert!(right, "{} where {expected} is next", text.escape_ascii());
        date = date.next();
    }
    date
}

/// The dates of these days, the same on both sides.
fn printed(both: &mut Both, days: &[i64], code: &[u8]) -> Vec<u8> {
    let values: Vec<Vec<u8>> = days
        .iter()
        .map(|day| day.to_string().into_bytes())
        .collect();
    let call = ConvertCall {
        record: [b"K1\xfe".to_vec(), values.join(&paper::VALUE_MARK)].concat(),
        code: code.to_vec(),
        at: Address::new(1, 0, 0),
        budget: u64::MAX,
        output_length: paper::RECORD_LENGTH,
        scratch_length: SCRATCH_LENGTH,
    };
    let outcome = both.convert(&call);
    assert_eq!(outcome.refusal, 0, "{call}");
    both.proved.output.after()[..outcome.length as usize].to_vec()
}
