//! Records and addresses.

use sundewfrill_host::outcome::Address;
use sundewfrill_host::paper::{self, ATTRIBUTE_MARK, SUBVALUE_MARK, VALUE_MARK};

use super::elements::{self, Kind};
use super::Rng;

const MARKS: [u8; 3] = [ATTRIBUTE_MARK, VALUE_MARK, SUBVALUE_MARK];

/// A record with elements mostly of this kind.
pub fn record(rng: &mut Rng, kind: &Kind) -> Vec<u8> {
    let mut record = match rng.below(600) {
        0 => vast(rng, kind),
        1..=3 => many_empty(rng),
        4..=15 => marks_only(rng),
        16..=25 => id(rng, kind),
        26 => Vec::new(),
        27..=30 => {
            let mut record = elements::of_length(rng, &[46, 47, 48, 49, 50]);
            if rng.one_in(2) {
                add_body(rng, kind, &mut record);
            }
            record
        }
        _ => {
            let mut record = id(rng, kind);
            add_body(rng, kind, &mut record);
            record
        }
    };
    if rng.one_in(40) {
        rng.damage(&mut record, |rng| *rng.pick(b"A0^]\xfb\xfc\xfd\xfe\xff"));
    }
    record
}

fn id(rng: &mut Rng, kind: &Kind) -> Vec<u8> {
    match rng.below(6) {
        0 => Vec::new(),
        1 => {
            let mut id = elements::element(rng, kind);
            id.truncate(paper::ID_LENGTH);
            id
        }
        2 => elements::of_length(rng, &[47, 48]),
        _ => b"K1".to_vec(),
    }
}

/// A mark and attributes.
fn add_body(rng: &mut Rng, kind: &Kind, record: &mut Vec<u8>) {
    let (attributes, values, subvalues) =
        *rng.pick(&[(6, 1, 1), (5, 4, 1), (4, 3, 3), (3, 1, 5), (2, 12, 2)]);
    for _ in 0..=rng.below(attributes) {
        record.push(ATTRIBUTE_MARK);
        for value in 0..=rng.below(values) {
            if value > 0 {
                record.push(VALUE_MARK);
            }
            for subvalue in 0..=rng.below(subvalues) {
                if subvalue > 0 {
                    record.push(SUBVALUE_MARK);
                }
                record.extend(elements::element(rng, kind));
            }
        }
    }
}

/// Hardly anything but marks.
fn marks_only(rng: &mut Rng) -> Vec<u8> {
    let mut record = vec![ATTRIBUTE_MARK];
    for _ in 0..rng.small(120) {
        match rng.one_in(8) {
            true => record.push(*rng.pick(b"7A")),
            false => record.push(*rng.pick(&MARKS)),
        }
    }
    record
}

/// Many empty values or subvalues.
fn many_empty(rng: &mut Rng) -> Vec<u8> {
    let mut record = b"K1".to_vec();
    record.push(ATTRIBUTE_MARK);
    let count = rng.small(3_000) as usize;
    record.resize(record.len() + count, *rng.pick(&MARKS));
    record
}

/// A record at or about the greatest length.
fn vast(rng: &mut Rng, kind: &Kind) -> Vec<u8> {
    let length = *rng.pick(&[
        32_766, 32_767, 32_768, 32_768, 32_768, 32_768, 32_769, 32_769, 32_769, 32_769, 40_000,
        65_540,
    ]);
    let mut record = b"K1".to_vec();
    match rng.below(4) {
        0 => {
            record.push(ATTRIBUTE_MARK);
            record.resize(length, *rng.pick(&MARKS));
        }
        1 => {
            add_body(rng, kind, &mut record);
            while record.len() < length {
                record.push(*rng.pick(&MARKS));
                record.extend(elements::of_length(rng, &[900, 1_023, 1_024]));
            }
        }
        2 => {
            add_body(rng, kind, &mut record);
            record.push(*rng.pick(&MARKS));
            record.resize(length.max(record.len()), b'7');
        }
        _ => {
            add_body(rng, kind, &mut record);
            while record.len() < length {
                record.push(*rng.pick(&MARKS));
                record.extend(elements::element(rng, kind));
            }
        }
    }
    record.truncate(length);
    record
}

/// An address, mostly of something in the record.
pub fn address(rng: &mut Rng, record: &[u8]) -> Address {
    match rng.below(40) {
        0 => Address::new(rng.below(1_200), rng.below(40_000), rng.below(40_000)),
        1 => Address::new(number(rng, 999), number(rng, 32_768), number(rng, 32_768)),
        2 => Address::new(0, rng.below(2), rng.below(2)),
        3 => Address::new(rng.below(4), 0, rng.below(3)),
        4 => Address::new(rng.between(1, 999), rng.small(40), rng.small(40)).without_gap(),
        _ => inside(rng, record),
    }
}

/// A number about the greatest that may stand in an address, or one of which
/// only the low bits are good.
fn number(rng: &mut Rng, last: u64) -> u64 {
    match rng.below(12) {
        0 => u64::MAX,
        1 => 1 << rng.below(64),
        2 => (1 << rng.between(8, 63)) + rng.below(4),
        3..=5 => last + rng.below(3) - 1,
        _ => rng.below(3),
    }
}

/// An address that is in the record or just beside it.
fn inside(rng: &mut Rng, record: &[u8]) -> Address {
    let attributes = count(record, ATTRIBUTE_MARK);
    let a = if rng.one_in(10) {
        rng.below(attributes + 3)
    } else {
        rng.between(1, attributes.max(1))
    }
    .min(paper::LAST_ATTRIBUTE);
    let attribute = piece(record, ATTRIBUTE_MARK, a);
    let v = rng.below(count(attribute, VALUE_MARK) + 3);
    let value = piece(attribute, VALUE_MARK, v.saturating_sub(1));
    let s = rng.below(count(value, SUBVALUE_MARK) + 3);
    match rng.below(if a == 0 { 1 } else { 4 }) {
        0 => Address::new(a, 0, 0),
        1 => Address::new(a, v, 0),
        _ => Address::new(a, v, s).without_gap(),
    }
}

fn count(bytes: &[u8], mark: u8) -> u64 {
    bytes.iter().filter(|&&byte| byte == mark).count() as u64
}

fn piece(bytes: &[u8], mark: u8, number: u64) -> &[u8] {
    let mut pieces = bytes.split(|&byte| byte == mark);
    pieces.nth(number as usize).unwrap_or(&[])
}

trait WithoutGap {
    fn without_gap(self) -> Self;
}

impl WithoutGap for Address {
    /// No subvalue where there is no value.
    fn without_gap(mut self) -> Self {
        if self.v == 0 {
            self.s = 0;
        }
        self
    }
}
