//! The program of the calls that `./console` has words for: one call on standard input,
//! a line of named numbers on standard output.

use super::program::{drawn, lines, read_address};
use super::{ceiling, check, find, replace, typed_date, RECORD_LENGTH};
use crate::outcome::{Address, Ceiling, Check, Find, Replace};
use crate::refusal::Refusal;

/// What the program writes for this input: a call's letter on line 1 and its words on
/// the lines behind it. `c` is checking a code, `d` a code and a typed date, `f` finding
/// an address in a record, `r` replacing there by a new element, and any other letter
/// the ceiling of an address, a record and a code.
pub fn words(input: &[u8]) -> Vec<u8> {
    let mut lines = lines(input);
    let mut line = || lines.next().unwrap_or(&[]);
    let (call, first, second, third) = (line(), line(), line(), line());
    let mut answer = match call.first() {
        Some(b'c') => checked(first),
        Some(b'd') => dated(first, second),
        letter => match read_address(first) {
            Some(at) => placed(letter, at, second, third),
            None => refused(Refusal::BadAddress.number()),
        },
    };
    answer.push(b'\n');
    answer
}

/// A call that has an address and a record.
fn placed(letter: Option<&u8>, at: Address, record: &[u8], third: &[u8]) -> Vec<u8> {
    match letter {
        Some(b'f') => found(record, at),
        Some(b'r') => replaced(record, third, at),
        _ => bounded(record, third, at),
    }
}

/// All that most calls say when they refuse.
fn refused(refusal: u64) -> Vec<u8> {
    format!("refusal = {refusal}").into_bytes()
}

fn checked(code: &[u8]) -> Vec<u8> {
    let Check {
        refusal,
        code_number,
        loads,
        others,
        patterns,
        tests,
    } = check(code);
    match refusal {
        0 => format!("refusal = 0, A = {loads}, B = {others}, P = {patterns}, T = {tests}"),
        _ => format!("refusal = {refusal}, code = {code_number}"),
    }
    .into_bytes()
}

fn dated(code: &[u8], text: &[u8]) -> Vec<u8> {
    let outcome = typed_date(code, text);
    match outcome.refusal {
        0 => format!("refusal = 0, day = {}", outcome.day()).into_bytes(),
        refusal => refused(refusal),
    }
}

fn found(record: &[u8], at: Address) -> Vec<u8> {
    let outcome = find(record, at);
    let Find { start, length, .. } = outcome;
    match (outcome.refusal, outcome.found) {
        (0, 1) => {
            let numbers = format!("refusal = 0, found = 1, start = {start}, length = {length}");
            let part = &record[start as usize..][..length as usize];
            with_text(numbers, "part", part)
        }
        (0, _) => b"refusal = 0, found = 0".to_vec(),
        (refusal, _) => refused(refusal),
    }
}

/// No new record is longer than the output: 16 is never given.
fn replaced(record: &[u8], new: &[u8], at: Address) -> Vec<u8> {
    let mut output = vec![0; RECORD_LENGTH];
    match replace(record, new, at, &mut output) {
        Replace { refusal: 0, length } => {
            let numbers = format!("refusal = 0, length = {length}");
            with_text(numbers, "record", &output[..length as usize])
        }
        Replace { refusal, .. } => refused(refusal),
    }
}

fn bounded(record: &[u8], code: &[u8], at: Address) -> Vec<u8> {
    match ceiling(record, code, at) {
        Ceiling {
            refusal: 0,
            ceiling,
        } => format!("refusal = 0, ceiling = {ceiling}").into_bytes(),
        Ceiling { refusal, .. } => refused(refusal),
    }
}

/// A text stands last, since it may hold anything: marks drawn, and a zero byte too.
fn with_text(numbers: String, name: &str, text: &[u8]) -> Vec<u8> {
    let mut line = format!("{numbers}, {name} = ").into_bytes();
    line.extend(text.iter().map(|&byte| match byte {
        0 => b'.',
        _ => drawn(byte),
    }));
    line
}
