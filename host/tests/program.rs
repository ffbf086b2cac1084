//! The program of document 01 itself, run as a user runs it: on all its rows of
//! the vectors, and beside the independent program on generated input and at the
//! limits of its budget and its output.
//!
//! Needs the program. The environment variable `SUNDEWFRILL_PROGRAM` is the
//! command that runs it, a word a line; without it that is
//! `../target/bin/console`.

mod common;

use common::buffers::Buffers;
use common::cases::exactly;
use common::programs::CONSOLE;
use common::{generator, laws, vectors};
use sundewfrill_host::paper;

/// How many inputs are generated: each is a process of its own.
const CASES: u64 = 1_000;

#[test]
fn vectors() {
    let rows = vectors::programs("the program", |input| CONSOLE.written(input));
    assert_eq!(rows, 1_973);
}

#[test]
fn generated() {
    let mut buffers = Buffers::default();
    let coverage = exactly(CASES, "program", 6, |rng, coverage| {
        let input = generator::program(rng, &mut buffers);
        let written = CONSOLE.compared(&input);
        laws::program(&input, &written);
        coverage.program(&input, &written);
    });
    coverage.require_of_program();
}

/// The record ends where the input does, with a line end or without one. Its
/// last attribute is asked for, so a byte more or less would be seen.
#[test]
fn end_of_input() {
    const INPUT: &[u8] = b"F;1;LPV;:\n1,0,0\nK1\xfeab";
    for (input, expected) in [
        (INPUT, "0 20 abab\n"),
        (&[INPUT, b"\n"].concat(), "0 20 abab\n"),
        (&[INPUT, b"\n\0"].concat(), "0 20 abab\n"),
        (&[INPUT, b"\0"].concat(), "0 27 ab\0ab\0\n"),
        (&INPUT[..INPUT.len() - 1], "0 13 aa\n"),
        (b"L\n1,0,0", "0 2 0\n"),
        (b"", "4 0 \n"),
    ] {
        CONSOLE.must_write(input, expected);
    }
}

/// 65,536 bytes are read: an address that ends with them is whole, one that
/// would end a byte later is not.
#[test]
fn end_of_reading() {
    for (length, expected) in [(65_536, "5 0 \n"), (65_537, "4 0 \n")] {
        let mut input = vec![b'L'; length - 6];
        input.extend_from_slice(b"\n1,0,0");
        CONSOLE.must_write(&input, expected);
    }
}

/// What cannot be read is no empty input, and what is not written no answer.
#[test]
fn failing_streams() {
    CONSOLE.must_end_where_streams_fail();
}

/// The budget and the output of the program, each met exactly and passed by
/// one; and a mark from MY. No row of `program.tsv` has these refusals.
#[test]
fn limits() {
    // A load of the empty attribute costs 1 and the record's 31,249 bytes; 32 of
    // them cost 1,000,000. An empty literal costs 1.
    let record = [b"K1\xfe\xfe", [b'x'; 31_245].as_slice()].concat();
    let exact = [b"F;1".as_slice(); 32].join(&paper::VALUE_MARK);
    writes(&exact, &record, "0 1000000 \n");
    let over = [exact.as_slice(), b"F;''"].join(&paper::VALUE_MARK);
    writes(&over, &record, "15 1000000 \n");

    // 331 values of 98 bytes and the marks between them are 32,768 bytes, 113 of
    // 289 are 32,769.
    let (code, record, answer) = swelling(331, 98);
    assert_eq!(answer.len(), 32_768);
    writes(&code, &record, &format!("0 32769 {answer}\n"));
    let (code, record, answer) = swelling(113, 289);
    assert_eq!(answer.len(), 32_769);
    writes(&code, &record, "16 32770 \n");

    writes(b"MY", b"K1\xfe4bFB", "13 0 \n");
}

/// Fails unless attribute 1 converted is written like this.
fn writes(code: &[u8], record: &[u8], expected: &str) {
    let input = [code, b"1,0,0", record].join(&b'\n');
    CONSOLE.must_write(&input, expected);
}

/// A code that makes a text of this length of so many empty values, their
/// record, and the answer with its marks drawn.
fn swelling(values: usize, length: usize) -> (Vec<u8>, Vec<u8>, String) {
    let text = "x".repeat(length);
    let code = format!("F;'{text}'").into_bytes();
    let marks = vec![paper::VALUE_MARK; values - 1];
    let record = [b"K1\xfe", marks.as_slice()].concat();
    (code, record, vec![text; values].join("]"))
}
