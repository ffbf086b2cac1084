//! The independent implementation by itself: the examples of the documents,
//! and on generated calls and inputs of the program what they promise of every
//! one. These also show that the generator reaches everything.
//!
//! Needs no archive: runs on any processor. `SUNDEWFRILL_CASES` sets the number
//! of calls, `SUNDEWFRILL_SEED` the seed.

mod common;

use common::buffers::Buffers;
use common::calls::PAPER;
use common::cases::cases;
use common::generator::{self, Rng};
use common::{examples, laws};
use sundewfrill_host::outcome::Address;
use sundewfrill_host::paper;

/// How many calls and inputs of the program a usual run has in all.
const CASES: u64 = 380_000;

#[test]
fn examples() {
    examples::run(&PAPER);
}

#[test]
fn find() {
    let coverage = cases(CASES, "find", 1, 9, |rng, coverage| {
        let call = generator::find(rng);
        let outcome = call.run(&PAPER);
        laws::find(&call, &outcome);
        coverage.find(&call, &outcome);
    });
    coverage.require_of_find();
}

#[test]
fn replace() {
    let mut buffers = Buffers::default();
    let coverage = cases(CASES, "replace", 2, 17, |rng, coverage| {
        let call = generator::replace(rng, &mut buffers);
        let outcome = call.run(&PAPER, &mut buffers);
        laws::replace(&call, &outcome, &buffers);
        let near =
            |number: u64, rng: &mut Rng| number.saturating_add(2).saturating_sub(rng.below(4));
        let other = Address::new(
            near(call.at.a, rng),
            near(call.at.v, rng),
            near(call.at.s, rng),
        );
        laws::replace_reads_back(&call, &outcome, other, &PAPER, &buffers);
        coverage.replace(&call, &outcome);
    });
    coverage.require_of_replace();
}

#[test]
fn check() {
    let coverage = cases(CASES, "check", 3, 16, |rng, coverage| {
        let call = generator::check(rng);
        let outcome = call.run(&PAPER);
        laws::check(&call, &outcome);
        laws::codes::judged(&call, &outcome, &PAPER);
        coverage.check(&call, &outcome);
    });
    coverage.require_of_check();
}

#[test]
fn convert() {
    let mut buffers = Buffers::default();
    let coverage = cases(CASES, "convert", 4, 33, |rng, coverage| {
        let mut call = generator::convert(rng, &mut buffers);
        let outcome = call.run(&PAPER, &mut buffers);
        laws::convert(&call, &outcome, &buffers);
        laws::codes::before_run(&call, &outcome, &PAPER);
        laws::within_ceiling(&call, &outcome, &call.ceiling().run(&PAPER));
        coverage.convert(&call, &outcome);
        let answer = buffers.output.after().to_vec();
        for (budget, enough) in laws::budgets(&outcome) {
            call.budget = budget;
            let again = call.run(&PAPER, &mut buffers);
            laws::budget(&call, enough, (&outcome, &answer), &again, &buffers);
        }
        laws::codes::one_more(&call, &PAPER, &mut buffers);
        laws::pattern_code(&call, &PAPER, &mut buffers);
        laws::mask_code(&call, &PAPER, &mut buffers);
        laws::blanks(&call, &PAPER, &mut buffers);
    });
    coverage.require_of_convert();
}

#[test]
fn ceiling() {
    let coverage = cases(CASES, "ceiling", 8, 9, |rng, coverage| {
        let call = generator::ceiling(rng);
        let outcome = call.run(&PAPER);
        laws::ceiling(&call, &outcome, &PAPER);
        coverage.ceiling(&call, &outcome);
    });
    coverage.require_of_ceiling();
}

#[test]
fn date() {
    let coverage = cases(CASES, "date", 5, 9, |rng, coverage| {
        let call = generator::date(rng);
        let outcome = call.run(&PAPER);
        laws::date(&call, &outcome);
        coverage.date(&call, &outcome);
    });
    coverage.require_of_date();
}

/// A codes, the F texts that show them, and the values of their expressions.
#[test]
fn algebra() {
    let mut buffers = Buffers::default();
    let coverage = cases(CASES, "algebra", 9, 6, |rng, coverage| {
        let call = generator::algebra(rng, &mut buffers);
        let outcome = call.run(&PAPER, &mut buffers);
        let text = laws::algebra::all(&call, &outcome, &PAPER, &mut buffers);
        coverage.algebra(&call, &outcome);
        if let Some(text) = text {
            let by_text = generator::conversion_by_text(rng, &text);
            let refusal = laws::algebra::value(&call.code, &by_text, &PAPER, &mut buffers);
            coverage.values(&call.code, &by_text, refusal);
        }
    });
    coverage.require_of_algebra();
}

#[test]
fn program() {
    let mut buffers = Buffers::default();
    let coverage = cases(CASES, "program", 6, 1, |rng, coverage| {
        let input = generator::program(rng, &mut buffers);
        let written = paper::program(&input);
        laws::program(&input, &written);
        coverage.program(&input, &written);
    });
    coverage.require_of_program();
}
