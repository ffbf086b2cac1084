//! Calls that `./console` has words for, as their program reads them: about half of them
//! with a word that earns a refusal.

use sundewfrill_host::outcome::Address;
use sundewfrill_host::paper::{ENTRY_LENGTH, ID_LENGTH, LEAST_MARK, RECORD_LENGTH};

use super::super::buffers::Buffers;
use super::{blanks, Rng};

/// Letters, and what is none, that stand for no call of their own.
const OTHERS: &[u8] = b"aBCDFR?0 \0";

/// Addresses that are refused: for a number, for a gap, and for being none.
const REFUSED: [&str; 9] = [
    "1000,0,0", "1,32769,0", "1,0,1", "0,1,0", "1,0", "1,0,0,", "100000,0,0", "1,,0", "",
];

/// The lines of a call; now and then the last ones are missing.
pub fn call(rng: &mut Rng, buffers: &mut Buffers) -> Vec<u8> {
    let lines = match rng.below(5) {
        0 => checking(rng),
        1 => dating(rng),
        2 => finding(rng),
        3 => replacing(rng, buffers),
        _ => bounding(rng),
    };
    let mut input = lines.join(&b'\n');
    match rng.below(16) {
        0 => input.truncate(rng.place(input.len())),
        1..=6 => input.push(b'\n'),
        7 | 8 => input.extend_from_slice(b"\nmore\n"),
        _ => {}
    }
    input
}

/// Line 1: a letter, at times with more behind it.
fn letter(rng: &mut Rng, letter: u8) -> Vec<u8> {
    match rng.one_in(10) {
        true => vec![letter, *rng.pick(b"cdfrb \r")],
        false => vec![letter],
    }
}

fn checking(rng: &mut Rng) -> Vec<Vec<u8>> {
    let code = super::check(rng).code;
    vec![letter(rng, b'c'), code_word(rng, code)]
}

fn dating(rng: &mut Rng) -> Vec<Vec<u8>> {
    let mut call = super::date(rng);
    match rng.below(9) {
        0 => call.code = too_long(rng, call.code),
        1 => call.code = super::check(rng).code,
        2 => call.text = blanks::beside(rng, &call.text),
        _ => {}
    }
    vec![letter(rng, b'd'), call.code, call.text]
}

fn finding(rng: &mut Rng) -> Vec<Vec<u8>> {
    let call = super::find(rng);
    let address = address_word(rng, call.at);
    vec![letter(rng, b'f'), address, record_word(rng, call.record)]
}

fn replacing(rng: &mut Rng, buffers: &mut Buffers) -> Vec<Vec<u8>> {
    let mut call = super::replace(rng, buffers);
    match rng.below(6) {
        0 => call.new.resize(ENTRY_LENGTH + 1, b'x'),
        1 => {
            let mark = LEAST_MARK + rng.below(5) as u8;
            rng.insert(&mut call.new, mark);
        }
        _ => {}
    }
    let address = address_word(rng, call.at);
    let record = record_word(rng, call.record);
    vec![letter(rng, b'r'), address, record, call.new]
}

fn bounding(rng: &mut Rng) -> Vec<Vec<u8>> {
    let call = super::ceiling(rng);
    let call_letter = match rng.one_in(3) {
        true => *rng.pick(OTHERS),
        false => b'b',
    };
    let address = address_word(rng, call.at);
    let record = record_word(rng, call.record);
    let code = code_word(rng, call.code);
    vec![letter(rng, call_letter), address, record, code]
}

/// An address as it is typed, one time in ten another that is refused.
fn address_word(rng: &mut Rng, Address { a, v, s }: Address) -> Vec<u8> {
    match rng.one_in(10) {
        true => rng.pick(&REFUSED).as_bytes().to_vec(),
        false => format!("{a},{v},{s}").into_bytes(),
    }
}

/// A record, one time in three with what earns refusal 1, 2 or 3.
fn record_word(rng: &mut Rng, mut record: Vec<u8>) -> Vec<u8> {
    match rng.below(9) {
        0 => record.resize(RECORD_LENGTH + 1, b'x'),
        1 => {
            let byte = *rng.pick(&[251, 255]);
            rng.insert(&mut record, byte);
        }
        2 => record = [&[b'x'; ID_LENGTH + 1], record.as_slice()].concat(),
        _ => {}
    }
    record
}

/// A code string, every other time with what earns refusal 5, 6, 7 or 18.
fn code_word(rng: &mut Rng, code: Vec<u8>) -> Vec<u8> {
    match rng.below(8) {
        0 => too_long(rng, code),
        1 => [code.as_slice(), b"\xfd?"].concat(),
        2 => [code.as_slice(), b"\xfdF;1;+"].concat(),
        3 => [code.as_slice(), b"\xfdF;1;2"].concat(),
        _ => code,
    }
}

/// A code string made longer than it may be.
fn too_long(rng: &mut Rng, mut code: Vec<u8>) -> Vec<u8> {
    let length = rng.between(513, 520) as usize;
    code.resize(code.len().max(length), b'L');
    code
}
