//! The proved library on all rows of the vectors and on the examples of the
//! documents.
//!
//! Needs the archive. `paper_vectors` and `paper_laws` do the same with the
//! independent implementation.

mod common;

use common::calls::PROVED;
use common::{examples, vectors};

#[test]
fn examples() {
    examples::run(&PROVED);
}

#[test]
fn find() {
    vectors::run("find.tsv", &PROVED);
}

#[test]
fn replace() {
    vectors::run("replace.tsv", &PROVED);
}

#[test]
fn check() {
    vectors::run("check.tsv", &PROVED);
}

#[test]
fn convert() {
    vectors::run("convert.tsv", &PROVED);
}

#[test]
fn give() {
    vectors::run("give.tsv", &PROVED);
}

#[test]
fn date() {
    vectors::run("date.tsv", &PROVED);
}

/// The program of this package around the proved library's converting.
#[test]
fn program() {
    vectors::run("program.tsv", &PROVED);
}

/// All calls, with the P code in.
#[test]
fn pattern_codes() {
    vectors::run("L1.tsv", &PROVED);
}

/// All calls, with halves rounded away from zero.
#[test]
fn halves() {
    vectors::run("L2.tsv", &PROVED);
}

/// All calls, with blanks round numbers ignored.
#[test]
fn blanks() {
    vectors::run("L3.tsv", &PROVED);
}

/// All calls, with A codes shown as F.
#[test]
fn algebra() {
    vectors::run("L4.tsv", &PROVED);
}

/// All calls, with entries that are left over refused.
#[test]
fn left_over() {
    vectors::run("L5.tsv", &PROVED);
}

/// All calls, with the days before a month by formula; many at the ends of months.
#[test]
fn months() {
    vectors::run("L6.tsv", &PROVED);
}
