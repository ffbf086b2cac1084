//! The independent implementation on all rows of the vectors.
//!
//! Needs no archive: runs on any processor.

mod common;

use common::calls::PAPER;
use common::vectors;

#[test]
fn find() {
    vectors::run("find.tsv", &PAPER);
}

#[test]
fn replace() {
    vectors::run("replace.tsv", &PAPER);
}

#[test]
fn check() {
    vectors::run("check.tsv", &PAPER);
}

#[test]
fn convert() {
    vectors::run("convert.tsv", &PAPER);
}

#[test]
fn give() {
    vectors::run("give.tsv", &PAPER);
}

#[test]
fn date() {
    vectors::run("date.tsv", &PAPER);
}

#[test]
fn program() {
    vectors::run("program.tsv", &PAPER);
}

/// All calls, with the P code in.
#[test]
fn pattern_codes() {
    vectors::run("L1.tsv", &PAPER);
}

/// All calls, with halves rounded away from zero.
#[test]
fn halves() {
    vectors::run("L2.tsv", &PAPER);
}

/// All calls, with blanks round numbers ignored.
#[test]
fn blanks() {
    vectors::run("L3.tsv", &PAPER);
}

/// All calls, with A codes shown as F.
#[test]
fn algebra() {
    vectors::run("L4.tsv", &PAPER);
}

/// All calls, with entries that are left over refused.
#[test]
fn left_over() {
    vectors::run("L5.tsv", &PAPER);
}

/// All calls, with the days before a month by formula; many at the ends of months.
#[test]
fn months() {
    vectors::run("L6.tsv", &PAPER);
}
