//! The program that shows A codes as F, run as a user runs it: on all rows of A codes
//! of the vectors, and beside the independent program on generated input and at the
//! limits of its input, its code and its text.
//!
//! Needs the program. The environment variable `SUNDEWFRILL_FORMULA` is the
//! command that runs it, a word a line; without it that is
//! `../target/bin/formula`.

mod common;

use common::cases::exactly;
use common::programs::FORMULA;
use common::{generator, laws, vectors};

/// How many inputs are generated: each is a process of its own.
const CASES: u64 = 500;

#[test]
fn vectors() {
    let rows = vectors::formulas("the program", |input| FORMULA.written(input));
    assert_eq!(rows, 913);
}

#[test]
fn generated() {
    let coverage = exactly(CASES, "formula", 10, |rng, coverage| {
        let input = generator::formula(rng);
        let written = FORMULA.compared(&input);
        laws::algebra::formula(&input, &written);
        coverage.formula(&input, &written);
    });
    coverage.require_of_formula();
}

/// Line 1 ends where the input does, or at byte 10, in quotes too.
#[test]
fn end_of_input() {
    const INPUT: &[u8] = b"A1+23";
    for (input, expected) in [
        (INPUT, "0 F;1;23;+\n"),
        (&[INPUT, b"\n"].concat(), "0 F;1;23;+\n"),
        (&[INPUT, b"\n*4"].concat(), "0 F;1;23;+\n"),
        (&[INPUT, b"\nA4\n"].concat(), "0 F;1;23;+\n"),
        (&[INPUT, b"\n\0"].concat(), "0 F;1;23;+\n"),
        (&[INPUT, b"\0"].concat(), "6 \n"),
        (&[INPUT, b"\r\n"].concat(), "6 \n"),
        (&INPUT[..INPUT.len() - 1], "0 F;1;2;+\n"),
        (&INPUT[..INPUT.len() - 2], "6 \n"),
        (&[b"\n", INPUT].concat(), "6 \n"),
        (b"A'a\rb'", "0 F;'a\rb'\n"),
        (b"A'a\nb'", "6 \n"),
        (b"\n", "6 \n"),
        (b"", "6 \n"),
    ] {
        FORMULA.must_write(input, expected);
    }
}

/// More than 65,536 bytes behind line 1, or in it, leave the line and the refusal as
/// they are.
#[test]
fn end_of_reading() {
    for length in [65_535, 65_536, 65_537, 200_000] {
        for (line, expected) in [("A1+2\n", "0 F;1;2;+\n"), ("A1", "5 \n"), ("", "5 \n")] {
            let mut input = line.as_bytes().to_vec();
            input.resize(length, b'1');
            FORMULA.must_write(&input, expected);
        }
    }
}

/// What cannot be read is no empty input, and what is not written no answer.
#[test]
fn failing_streams() {
    FORMULA.must_end_where_streams_fail();
}

/// The lengths of code and text and the entries held, each met exactly and passed by
/// one. A text of 512 bytes is shown whole: there is no refusal 16.
#[test]
fn limits() {
    let writes = |code: &str, expected: &str| FORMULA.must_write(code.as_bytes(), expected);
    let within = |open: &str, inner: &str, pairs: usize| {
        format!("A{}{inner}{}", open.repeat(pairs), ")".repeat(pairs))
    };
    // 512 bytes of code, and 513
    writes(&within("(", "100", 254), "0 F;100\n");
    writes(&within("(", "'10'", 254), "5 \n");
    // 512 bytes of text, and 513
    let literal = |length: usize| format!("'{}'", "x".repeat(length - "F;''".len()));
    let longest = literal(512);
    writes(&format!("A{longest}"), &format!("0 F;{longest}\n"));
    writes(&format!("A{}", literal(513)), "5 \n");
    // 16 entries, and 17
    let text = format!("0 F{}{}\n", ";1".repeat(16), ";+".repeat(15));
    writes(&within("1+(", "1", 15), &text);
    writes(&within("1+(", "1", 16), "7 \n");
}
