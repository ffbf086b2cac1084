//! The program of document 01, and the one that shows A codes: from standard input to
//! standard output.

use super::algebra::show;
use super::{convert, ATTRIBUTE_MARK, CODE_LENGTH, RECORD_LENGTH, SUBVALUE_MARK, VALUE_MARK};
use crate::outcome::{Address, Convert};
use crate::refusal::Refusal;
use crate::SCRATCH_LENGTH;

/// How much of its input each program reads.
const INPUT_LENGTH: usize = 65_536;
/// The steps that a run may cost.
const BUDGET: u64 = 1_000_000;
/// The length of the output.
const OUTPUT_LENGTH: usize = RECORD_LENGTH;

/// What the program writes for this input.
pub fn program(input: &[u8]) -> Vec<u8> {
    program_with(input, convert)
}

/// What the program writes for this input if `converting` does its converting.
/// The arguments are those of [`convert`].
pub fn program_with(
    input: &[u8],
    converting: impl FnOnce(&[u8], &[u8], Address, u64, &mut [u8], &mut [u8]) -> Convert,
) -> Vec<u8> {
    let mut lines = lines(input);
    let mut line = || lines.next().unwrap_or(&[]);
    let (code, address, record) = (line(), line(), line());
    let Some(at) = read_address(address) else {
        return written(Refusal::BadAddress.number(), 0, &[]);
    };
    let mut output = vec![0; OUTPUT_LENGTH];
    let mut scratch = vec![0; SCRATCH_LENGTH];
    let outcome = converting(record, code, at, BUDGET, &mut output, &mut scratch);
    let answer = &output[..outcome.length as usize];
    written(outcome.refusal, outcome.steps, answer)
}

/// What the program that shows A codes writes for this input: the refusal number of
/// the A code on line 1, a blank and the F text. No F text is longer than its output,
/// so none is refused for that.
pub fn formula(input: &[u8]) -> Vec<u8> {
    let code = lines(input).next().unwrap_or(&[]);
    let mut output = [0; CODE_LENGTH];
    let (refusal, text) = match show(code, &mut output) {
        Ok(length) => (0, &output[..length]),
        Err(refusal) => (refusal.number(), [].as_slice()),
    };
    [format!("{refusal} ").as_bytes(), text, b"\n"].concat()
}

/// The lines of an input, as far as it is read.
pub fn lines(input: &[u8]) -> impl Iterator<Item = &[u8]> {
    let read = &input[..input.len().min(INPUT_LENGTH)];
    read.split(|&byte| byte == b'\n')
}

/// Three numbers of 1 to 5 digits parted by commas.
pub fn read_address(line: &[u8]) -> Option<Address> {
    let mut pieces = line.split(|&byte| byte == b',').map(read_number);
    let at = Address {
        a: pieces.next()??,
        v: pieces.next()??,
        s: pieces.next()??,
    };
    pieces.next().is_none().then_some(at)
}

fn read_number(digits: &[u8]) -> Option<u64> {
    if !(1..=5).contains(&digits.len()) {
        return None;
    }
    digits.iter().try_fold(0, |value, byte| {
        let digit = byte.is_ascii_digit().then(|| u64::from(byte - b'0'))?;
        Some(value * 10 + digit)
    })
}

/// Refusal number, steps and answer, parted by single blanks, marks drawn.
fn written(refusal: u64, steps: u64, answer: &[u8]) -> Vec<u8> {
    let mut line = format!("{refusal} {steps} ").into_bytes();
    line.extend(answer.iter().map(|&byte| drawn(byte)));
    line.push(b'\n');
    line
}

/// A mark as it is drawn; any other byte as it is.
pub fn drawn(byte: u8) -> u8 {
    match byte {
        ATTRIBUTE_MARK => b'^',
        VALUE_MARK => b']',
        SUBVALUE_MARK => b'\\',
        _ => byte,
    }
}
