//! Numbers with blanks round them, what only looks like that, and calls that read
//! them.

use sundewfrill_host::outcome::Address;
use sundewfrill_host::paper::{ATTRIBUTE_MARK, ENTRY_LENGTH, VALUE_MARK};

use super::super::numbers::{blanked, unsigned, BLANK};
use super::{codes, elements, Rng};

/// Bytes that show as nothing, or as a blank, and are none.
pub const NO_BLANKS: [u8; 8] = [9, 9, 9, 0, 10, 11, 13, 160];

/// A number, at times with blanks round it.
pub fn at_times(rng: &mut Rng, number: Vec<u8>) -> Vec<u8> {
    match rng.one_in(10) {
        true => round(rng, &number),
        false => number,
    }
}

/// A number, mostly with blanks round it.
fn mostly(rng: &mut Rng, number: Vec<u8>) -> Vec<u8> {
    match rng.one_in(6) {
        true => number,
        false => round(rng, &number),
    }
}

/// A number with blanks round it, or something that only looks like that.
fn round(rng: &mut Rng, number: &[u8]) -> Vec<u8> {
    match rng.below(20) {
        0 | 1 => blanked(0, b"", rng.between(1, 5) as usize),
        2 | 3 => with_a_byte_inside(rng, number),
        4 => with_a_blank_behind_its_sign(rng, number),
        5..=7 => with_a_byte_beside(rng, number),
        8 => at_the_limit(rng, number),
        9..=11 => blanked(rng.between(1, 3) as usize, number, 0),
        12..=14 => blanked(0, number, rng.between(1, 3) as usize),
        _ => blanked(
            1 + rng.small(20) as usize,
            number,
            1 + rng.small(20) as usize,
        ),
    }
}

/// A text that is no number, with a blank before or behind it.
pub fn beside(rng: &mut Rng, text: &[u8]) -> Vec<u8> {
    match rng.one_in(2) {
        true => blanked(1, text, 0),
        false => blanked(0, text, 1),
    }
}

/// A blank, or a byte like it, somewhere inside of a number, behind one of a single
/// byte; there are blanks round it or not.
fn with_a_byte_inside(rng: &mut Rng, number: &[u8]) -> Vec<u8> {
    let mut text = number.to_vec();
    let byte = *rng.pick(&[BLANK, BLANK, BLANK, 9]);
    let place = rng.place(text.len().saturating_sub(2)) + 1;
    text.insert(place.min(number.len()), byte);
    blanked(rng.small(3) as usize, &text, rng.small(3) as usize)
}

/// A number with a sign and a blank before its digits.
fn with_a_blank_behind_its_sign(rng: &mut Rng, number: &[u8]) -> Vec<u8> {
    [&[*rng.pick(b"+-"), BLANK], unsigned(number)].concat()
}

/// A number with a byte before or behind it that is no blank, and perhaps blanks
/// beside that.
fn with_a_byte_beside(rng: &mut Rng, number: &[u8]) -> Vec<u8> {
    let mut text = number.to_vec();
    let place = if rng.one_in(3) { text.len() } else { 0 };
    text.insert(place, *rng.pick(&NO_BLANKS));
    blanked(rng.small(3) as usize, &text, rng.small(3) as usize)
}

/// A number, or nothing, with as many blanks as an element has room for, or one
/// fewer or more.
fn at_the_limit(rng: &mut Rng, number: &[u8]) -> Vec<u8> {
    let number = if rng.one_in(6) { b"" } else { number };
    let length = *rng.pick(&[
        ENTRY_LENGTH - 1,
        ENTRY_LENGTH,
        ENTRY_LENGTH,
        ENTRY_LENGTH + 1,
    ]);
    let room = length.saturating_sub(number.len());
    let before = rng.place(room);
    blanked(before, number, room - before)
}

/// One operation on numbers with blanks round them, which stand in the element, in
/// literals and in attributes beside it.
pub fn operation(rng: &mut Rng) -> (Vec<u8>, Vec<u8>, Address) {
    let (operator, operands) = match rng.below(18) {
        0..=4 => (arithmetic(rng), vec![number(rng), number(rng)]),
        5..=7 => (relation(rng), vec![compared(rng), compared(rng)]),
        8..=10 => (b"[]".to_vec(), vec![text(rng), number(rng), number(rng)]),
        11 => (b":".to_vec(), vec![number(rng), number(rng)]),
        _ => return code_alone(rng),
    };
    let (mut record, mut code) = (b"K1".to_vec(), b"F".to_vec());
    for (operand, attribute) in operands.into_iter().zip(1..) {
        code.push(b';');
        code.extend(brought(rng, attribute, &operand));
        record.push(ATTRIBUTE_MARK);
        record.extend(operand);
    }
    code.push(b';');
    code.extend(operator);
    (record, code, Address::new(1, 0, 0))
}

fn arithmetic(rng: &mut Rng) -> Vec<u8> {
    match rng.below(6) {
        0 => format!("*{}", rng.below(10)).into_bytes(),
        _ => vec![*rng.pick(b"+-*/R")],
    }
}

fn relation(rng: &mut Rng) -> Vec<u8> {
    vec![*rng.pick(b"=#><][")]
}

/// An elm that brings an operand, which stands in this attribute: a load, a literal
/// if it is short and has no quote, or LPV for the element.
fn brought(rng: &mut Rng, attribute: u64, operand: &[u8]) -> Vec<u8> {
    let literal = operand.len() < 100 && !operand.contains(&b'\'');
    match rng.below(4) {
        0 | 1 if literal => [b"'", operand, b"'"].concat(),
        2 if attribute == 1 => b"LPV".to_vec(),
        _ => {
            let which = *rng.pick(&["", "R", "RR"]);
            format!("{attribute}{which}").into_bytes()
        }
    }
}

/// A number, mostly with blanks round it.
fn number(rng: &mut Rng) -> Vec<u8> {
    const NEAR: [&str; 8] = [
        "0", "-0", "+000", "999999999999999", "-999999999999999", "1000000000000000",
        "-1000000000000000", "99999999999999999999",
    ];
    let number = match rng.below(8) {
        0 => elements::number(rng),
        1 | 2 => rng.pick(&NEAR).as_bytes().to_vec(),
        3 => format!("+{}", rng.below(10)).into_bytes(),
        4 => format!("-{}", rng.below(100)).into_bytes(),
        _ => rng.below(200).to_string().into_bytes(),
    };
    mostly(rng, number)
}

/// What a relation takes: a number, most often one of a few, or a text.
fn compared(rng: &mut Rng) -> Vec<u8> {
    let few = *rng.pick(&["5", "+5", "10", "9", "-5", "0", "0", "1000000000000000"]);
    match rng.below(8) {
        0 | 1 => number(rng),
        2 => rng.pick(&["x", "", "!", "5x"]).as_bytes().to_vec(),
        3 | 4 => few.as_bytes().to_vec(),
        _ => round(rng, few.as_bytes()),
    }
}

/// A text of which `[]` takes a part.
fn text(rng: &mut Rng) -> Vec<u8> {
    rng.pick(&["abcdef", "", " 42 ", "abcdefghijklmnopqrstuvwxyz"])
        .as_bytes()
        .to_vec()
}

/// One element through a code that reads a number, one that does not, or a mask that
/// reads what another mask has written.
fn code_alone(rng: &mut Rng) -> (Vec<u8>, Vec<u8>, Address) {
    let (code, element) = match rng.below(16) {
        0..=4 => (codes::mask(rng), number(rng)),
        5..=7 => (codes::mask(rng), zero(rng)),
        8..=11 => (codes::date_code(rng), day(rng)),
        12 | 13 => {
            let code = *rng.pick(&["L", "MY", "P(0N)", ""]);
            (code.as_bytes().to_vec(), number(rng))
        }
        _ => {
            // Without decimals there is no point, so the text may be a number again.
            let (first, then) = (codes::mask_with(rng, ""), codes::mask(rng));
            ([first, then].join(&VALUE_MARK), number(rng))
        }
    };
    let record = [b"K1\xfe", element.as_slice()].concat();
    (record, code, Address::new(1, 0, 0))
}

/// A zero with blanks round it.
fn zero(rng: &mut Rng) -> Vec<u8> {
    let zero = *rng.pick(&["0", "-0", "000"]);
    round(rng, zero.as_bytes())
}

/// A day, mostly with blanks round it.
fn day(rng: &mut Rng) -> Vec<u8> {
    let day = elements::day(rng);
    mostly(rng, day)
}
