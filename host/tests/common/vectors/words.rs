//! The rows of the calls that `./console` has words for, typed to their program.

use sundewfrill_host::outcome::Address;
use sundewfrill_host::paper;

use super::super::marks::drawn;
use super::{of_call, unlike, Row};

/// One in so many of the rows that can be typed is run: each is a process of its own.
const ONE_IN: usize = 5;
/// The length of the program's output for replacing.
const OUTPUT_LENGTH: usize = 32_768;
/// The most that an address has in five digits.
const LAST_TYPED: u64 = 99_999;

/// What is typed, and the line that the row tells of it.
type Typed = (Vec<u8>, Vec<u8>);

/// Rows of one call in all files. Gives how many were run.
pub fn run(call: &str, name: &str, mut by: impl FnMut(&[u8]) -> Vec<u8>) -> usize {
    let mut typed = 0;
    of_call(call, name, |row| {
        let (input, expected) = match call {
            "find" => find(row),
            "replace" => replace(row),
            "check" => check(row),
            "date" => date(row),
            "ceilingof" => ceiling(row),
            _ => panic!("no call is named {call}"),
        }?;
        typed += 1;
        let shown = |line: &[u8]| line.escape_ascii().to_string();
        (typed % ONE_IN == 1).then(|| unlike(shown(&by(&input)), shown(&expected)))
    })
}

/// A call's letter and its words, a line each; `None` if one holds byte 10.
fn lines(letter: &[u8], words: &[&[u8]]) -> Option<Vec<u8>> {
    let is_line = |word: &&[u8]| !word.contains(&b'\n');
    let lines = [&[letter], words, &[b"".as_slice()]].concat();
    words.iter().all(is_line).then(|| lines.join(&b'\n'))
}

/// An address as it is typed; `None` if a number of it has more than five digits.
fn address(Address { a, v, s }: Address) -> Option<Vec<u8>> {
    let short = [a, v, s].into_iter().all(|number| number <= LAST_TYPED);
    short.then(|| format!("{a},{v},{s}").into_bytes())
}

/// A line of numbers.
fn line(numbers: &str) -> Vec<u8> {
    [numbers, "\n"].concat().into_bytes()
}

/// A line of numbers and a text, its marks and zero bytes drawn.
fn line_with(numbers: &str, text: &[u8]) -> Vec<u8> {
    let shown = |byte| if byte == 0 { b'.' } else { byte };
    let text = drawn(text).into_iter().map(shown).collect();
    [numbers.as_bytes().to_vec(), text, b"\n".to_vec()].concat()
}

/// Where the part starts the row does not tell, but the independent implementation.
fn find(row: &mut Row) -> Option<Typed> {
    let (record, at) = (row.bytes(), row.address());
    let (refusal, found, part) = (row.number::<u64>(), row.number::<u64>(), row.bytes());
    let (start, length) = (paper::find(&record, at).start, part.len());
    let input = lines(b"f", &[&address(at)?, &record])?;
    let numbers = format!("refusal = 0, found = 1, start = {start}, length = {length}, part = ");
    let expected = match (refusal, found) {
        (0, 1) => line_with(&numbers, &part),
        (0, _) => line("refusal = 0, found = 0"),
        _ => line(&format!("refusal = {refusal}")),
    };
    Some((input, expected))
}

/// `None` too of a row whose output is shorter than the program's.
fn replace(row: &mut Row) -> Option<Typed> {
    let (record, at, new) = (row.bytes(), row.address(), row.bytes());
    let output_length: usize = row.number();
    let (refusal, length, answer) = (row.number::<u64>(), row.number::<u64>(), row.bytes());
    if output_length < OUTPUT_LENGTH {
        return None;
    }
    let input = lines(b"r", &[&address(at)?, &record, &new])?;
    let numbers = format!("refusal = 0, length = {length}, record = ");
    let expected = match refusal {
        0 => line_with(&numbers, &answer),
        _ => line(&format!("refusal = {refusal}")),
    };
    Some((input, expected))
}

fn check(row: &mut Row) -> Option<Typed> {
    let code = row.bytes();
    let [refusal, number, a, b, p, t] = [(); 6].map(|()| row.number::<u64>());
    let input = lines(b"c", &[&code])?;
    let expected = match refusal {
        0 => format!("refusal = 0, A = {a}, B = {b}, P = {p}, T = {t}"),
        _ => format!("refusal = {refusal}, code = {number}"),
    };
    Some((input, line(&expected)))
}

fn date(row: &mut Row) -> Option<Typed> {
    let (code, text) = (row.bytes(), row.bytes());
    let (refusal, day) = (row.number::<u64>(), row.number::<i64>());
    let input = lines(b"d", &[&code, &text])?;
    let expected = match refusal {
        0 => format!("refusal = 0, day = {day}"),
        _ => format!("refusal = {refusal}"),
    };
    Some((input, line(&expected)))
}

/// A ceiling of 0 may be a refused one: with which number the row does not tell, but
/// the independent implementation.
fn ceiling(row: &mut Row) -> Option<Typed> {
    let (record, code, at) = (row.bytes(), row.bytes(), row.address());
    let ceiling: u64 = row.number();
    let input = lines(b"b", &[&address(at)?, &record, &code])?;
    let expected = match (ceiling, paper::ceiling(&record, &code, at).refusal) {
        (0, refusal @ 1..) => format!("refusal = {refusal}"),
        _ => format!("refusal = 0, ceiling = {ceiling}"),
    };
    Some((input, line(&expected)))
}
