//! The program of the calls that `./console` has words for, run as a user runs it: on
//! rows of these calls of the vectors, and beside the independent program on generated
//! calls and at the ends of its input and of a record.
//!
//! Needs the program. The environment variable `SUNDEWFRILL_WORDS` is the command
//! that runs it, a word a line; without it that is `../target/bin/words`.

mod common;

use common::buffers::Buffers;
use common::cases::exactly;
use common::marks::marked;
use common::programs::WORDS;
use common::{generator, vectors};

/// How many calls are generated: each is a process of its own.
const CASES: u64 = 500;

#[test]
fn vectors() {
    for (call, expected) in [
        ("find", 323),
        ("replace", 172),
        ("check", 664),
        ("date", 414),
        ("ceilingof", 78),
    ] {
        let rows = vectors::words(call, "the program", |input| WORDS.compared(input));
        assert_eq!(rows, expected, "rows of {call}");
    }
}

#[test]
fn generated() {
    let mut buffers = Buffers::default();
    let coverage = exactly(CASES, "words", 11, |rng, coverage| {
        let input = generator::words(rng, &mut buffers);
        let written = WORDS.compared(&input);
        coverage.words(&input, &written);
    });
    coverage.require_of_words();
}

/// A call's last line ends where the input does, or at byte 10; what stands behind it
/// is not read.
#[test]
fn end_of_input() {
    for (input, expected) in [
        ("c\nF;1;2R;*", "refusal = 0, A = 2, B = 1, P = 0, T = 0\n"),
        ("c\nL]F;1;+", "refusal = 7, code = 2\n"),
        ("c\nL]F;1;P", "refusal = 18, code = 2\n"),
        ("d\nD\n18 MAY 1995", "refusal = 0, day = 10000\n"),
        ("d\nD\n30 DEC 1967", "refusal = 0, day = -1\n"),
        ("d\nD\n30 FEB 1967", "refusal = 12\n"),
        (
            "f\n1,2,0\nK1^10]20^3",
            "refusal = 0, found = 1, start = 6, length = 2, part = 20\n",
        ),
        ("f\n1,3,0\nK1^10]20^3", "refusal = 0, found = 0\n"),
        ("f\n1,0,1\nK1^10]20^3", "refusal = 4\n"),
        (
            "r\n3,2,1\nK1^A\nX",
            "refusal = 0, length = 8, record = K1^A^^]X\n",
        ),
        ("r\n1,1,1\nK1^A\n]", "refusal = 17\n"),
        (
            "b\n1,0,0\nK1^10]20^3\nF;1;2R;*",
            "refusal = 0, ceiling = 12334\n",
        ),
        ("b\n1,0,0\nK1^10]20^3\nF;1;+", "refusal = 7\n"),
        ("b\n1,0,0\nK1^10]20^3\nF;1;P", "refusal = 18\n"),
    ] {
        for end in ["", "\n", "\nmore\n"] {
            WORDS.must_write(&marked(&[input, end].concat()), expected);
        }
    }
}

/// Missing lines are empty.
#[test]
fn missing_lines() {
    for (input, expected) in [
        ("c", "refusal = 0, A = 0, B = 0, P = 0, T = 0\n"),
        ("d", "refusal = 6\n"),
        ("d\nD", "refusal = 12\n"),
        ("f", "refusal = 4\n"),
        ("f\n1,0,0", "refusal = 0, found = 0\n"),
        (
            "f\n0,0,0",
            "refusal = 0, found = 1, start = 0, length = 0, part = \n",
        ),
        ("r", "refusal = 4\n"),
        ("r\n1,0,0", "refusal = 0, length = 1, record = ^\n"),
        ("r\n1,0,0\nK1^A", "refusal = 0, length = 3, record = K1^\n"),
        ("b", "refusal = 4\n"),
        ("b\n1,0,0", "refusal = 0, ceiling = 0\n"),
        ("", "refusal = 4\n"),
        ("\n", "refusal = 4\n"),
    ] {
        WORDS.must_write(&marked(input), expected);
    }
}

/// The first byte of line 1 is the letter; any other than c, d, f and r asks for the
/// ceiling.
#[test]
fn letters() {
    for letter in ["b", "a", "C", "?", "\0", " c", "bcd", ""] {
        let input = [letter, "\n1,0,0\nK1^10]20^3\nF;1;2R;*"].concat();
        WORDS.must_write(&marked(&input), "refusal = 0, ceiling = 12334\n");
    }
    for (input, expected) in [
        ("check\nL", "refusal = 0, A = 0, B = 1, P = 0, T = 0\n"),
        ("day\nD\n31 DEC 1967", "refusal = 0, day = 0\n"),
        ("find\n9,0,0\nK1^2", "refusal = 0, found = 0\n"),
        (
            "replace\n1,0,0\nK1\n",
            "refusal = 0, length = 3, record = K1^\n",
        ),
        ("?\n1;0;0\n\n?", "refusal = 4\n"),
    ] {
        WORDS.must_write(&marked(input), expected);
    }
}

/// In a text marks are drawn, and so is a zero byte; any other stands as it is.
#[test]
fn texts() {
    for (input, expected) in [
        (
            "f\n1,0,0\nK1^a]b\\c\0.",
            "refusal = 0, found = 1, start = 3, length = 7, part = a]b\\c..\n",
        ),
        (
            "r\n1,0,0\nK1^a]b^c\\d\0\n\r",
            "refusal = 0, length = 9, record = K1^\r^c\\d.\n",
        ),
    ] {
        WORDS.must_write(&marked(input), expected);
    }
}

/// 65,536 bytes are read: a code that ends with them is whole, one that would end a
/// byte later is not.
#[test]
fn end_of_reading() {
    for (length, expected) in [
        (65_536, "refusal = 7, code = 1\n"),
        (65_537, "refusal = 6, code = 1\n"),
    ] {
        let code = b"\nF;1;+";
        let input = [&vec![b'c'; length - code.len()], code.as_slice()].concat();
        WORDS.must_write(&input, expected);
    }
}

/// What cannot be read is no empty input, and what is not written no answer.
#[test]
fn failing_streams() {
    WORDS.must_end_where_streams_fail();
}

/// A record of 32,768 bytes is let in and shown whole, one of 32,769 is refused:
/// wherever a record is given, and where one is made.
#[test]
fn longest_record() {
    let record = [b"K1\xfe", vec![b'x'; 32_765].as_slice()].concat();
    let text = "x".repeat(32_765);
    for (letter, address, third, expected) in [
        (
            "f",
            "1,0,0",
            "",
            format!("refusal = 0, found = 1, start = 3, length = 32765, part = {text}\n"),
        ),
        (
            "r",
            "0,0,0",
            "K2",
            format!("refusal = 0, length = 32768, record = K2^{text}\n"),
        ),
        (
            "b",
            "1,0,0",
            "F;1",
            format!("refusal = 0, ceiling = {}\n", 1_025 + 32_768),
        ),
    ] {
        let lines = |record: &[u8]| {
            let words = [letter.as_bytes(), address.as_bytes(), record];
            [words.join(&b'\n').as_slice(), third.as_bytes()].join(&b'\n')
        };
        WORDS.must_write(&lines(&record), &expected);
        let longer = [record.as_slice(), b"x"].concat();
        WORDS.must_write(&lines(&longer), "refusal = 1\n");
    }
    let made = [b"r\n0,0,0\n".as_slice(), &record, b"\nK10"].concat();
    WORDS.must_write(&made, "refusal = 1\n");
}
