//! F codes with domains, taken apart: the stretches that S parts, at how many positions
//! each runs, and what it comes to at one of them, run as an F code of its own.

use sundewfrill_host::outcome::{Address, Implementation};
use sundewfrill_host::paper::grammar::{self, Elm, Load, Which};
use sundewfrill_host::paper::{SUBVALUE_MARK, VALUE_MARK};

use super::buffers::Buffers;
use super::calls::ConvertCall;
use super::laws::part;
use super::numbers::{is_number, value};

/// The greatest number; the least is its negative.
const LAST_NUMBER: i128 = 999_999_999_999_999;

/// The elms between two S, or between an end of the code and one.
#[derive(Clone, Debug, Default)]
pub struct Stretch<'c> {
    /// How they are spelt, with a `;` before each and without any S.
    pub text: &'c [u8],
    pub elms: Vec<Elm<'c>>,
}

/// An F code cut at each S.
#[derive(Clone, Debug)]
pub struct Stretches<'c> {
    pub domains: Vec<Stretch<'c>>,
    /// What stands behind the last S.
    pub last: Stretch<'c>,
}

/// The stretches of an F code that has a domain, if all that stands in it is elms.
pub fn stretches(code: &[u8]) -> Option<Stretches<'_>> {
    let mut elms = grammar::elms(code).ok()??;
    let (body, mut start) = (elms.rest(), 0);
    let (mut domains, mut last) = (Vec::new(), Stretch::default());
    loop {
        let end = body.len() - elms.rest().len();
        last.text = &body[start..end];
        match elms.next() {
            None => break,
            Some(Err(_)) => return None,
            Some(Ok(Elm::Sum)) => {
                start = body.len() - elms.rest().len();
                domains.push(std::mem::take(&mut last));
            }
            Some(Ok(elm)) => last.elms.push(elm),
        }
    }
    (!domains.is_empty()).then_some(Stretches { domains, last })
}

impl Stretch<'_> {
    /// The stretch as an F code of its own.
    pub fn code(&self) -> Vec<u8> {
        [b"F", self.text].concat()
    }

    /// The stretch as an F code of its own that brings these entries itself.
    pub fn code_on(&self, entries: &[String]) -> Vec<u8> {
        let literals: String = entries.iter().map(|entry| format!(";'{entry}'")).collect();
        [b"F", literals.as_bytes(), self.text].concat()
    }

    /// Whether LPV stands in it.
    pub fn has_previous(&self) -> bool {
        self.elms.contains(&Elm::Previous)
    }

    /// The attributes that it loads in this way.
    pub fn loads(&self, which: Which) -> Vec<u64> {
        let attribute = |elm: &Elm| match elm {
            Elm::Load(load) => (load.which == which).then_some(u64::from(load.attribute)),
            _ => None,
        };
        self.elms.iter().filter_map(attribute).collect()
    }

    /// k: "the largest value count among attributes it loads without R, and at least 1".
    pub fn positions(&self, record: &[u8], implementation: &Implementation) -> u64 {
        let loads = self.loads(Which::Same).into_iter();
        let counts = loads.map(|attribute| value_count(record, attribute, implementation));
        counts.fold(1, u64::max)
    }
}

/// How many values an attribute has; none if it is missing.
pub fn value_count(record: &[u8], attribute: u64, implementation: &Implementation) -> u64 {
    let found = (implementation.find)(record, Address::new(attribute, 0, 0));
    let marks = part(record, &found).iter();
    found.found + marks.filter(|&&byte| byte == VALUE_MARK).count() as u64
}

/// Where a load finds its element at the position (v, s).
pub fn place(load: Load, v: u64, s: u64) -> Address {
    super::operations::place(load, Address::new(1, v, s))
}

/// An element of a call, and where it stands.
#[derive(Clone, Copy, Debug)]
pub struct Element<'r> {
    pub bytes: &'r [u8],
    pub at: Address,
    /// The mark behind it.
    pub mark: Option<u8>,
}

/// The elements of a call that finding lets in. "Position is the element's own (v, s); for
/// the id, and a place named only in part, counting starts at 1."
pub fn elements<'c>(call: &'c ConvertCall, implementation: &Implementation) -> Vec<Element<'c>> {
    let found = (implementation.find)(&call.record, call.at);
    let (mut v, mut s) = (call.at.v.max(1), call.at.s.max(1));
    let mut rest = Some(part(&call.record, &found));
    let mut elements = Vec::new();
    while let Some(bytes) = rest {
        let end = bytes.iter().position(|&byte| byte >= SUBVALUE_MARK);
        let mark = end.map(|end| bytes[end]);
        elements.push(Element {
            bytes: &bytes[..end.unwrap_or(bytes.len())],
            at: match call.at.a {
                0 => call.at,
                a => Address::new(a, v, s),
            },
            mark,
        });
        rest = end.map(|end| &bytes[end + 1..]);
        (v, s) = match mark {
            Some(VALUE_MARK) => (v + 1, 1),
            _ => (v, s + 1),
        };
    }
    elements
}

impl Element<'_> {
    /// The subvalue at which domains run.
    pub fn subvalue(&self) -> u64 {
        self.at.s.max(1)
    }
}

/// An attribute that hardly a record has: a domain that runs there runs on nothing, at
/// whatever position is asked for.
const NOWHERE: u64 = 999;

/// Whether a record has nothing there.
pub fn has_nowhere(record: &[u8], implementation: &Implementation) -> bool {
    (implementation.find)(record, Address::new(NOWHERE, 0, 0)).found == 0
}

/// A domain at one position.
#[derive(Clone, Debug)]
pub struct Position {
    /// Which domain, from 0.
    pub domain: usize,
    /// The value position, from 1.
    pub v: u64,
    /// What its elms cost there, those that were completed.
    pub steps: u64,
    /// Its top, or the number of its refusal.
    pub top: Result<Vec<u8>, u64>,
    /// The sum of the tops before.
    pub before: i128,
    /// The sum with this one, or refusal 10: "at that position".
    pub sum: Result<i128, u64>,
}

impl Position {
    /// "For each position S costs 1 + the top's bytes + the bytes of the new running
    /// sum"; nothing where it is refused.
    pub fn price(&self) -> u64 {
        match (&self.top, self.sum) {
            (Ok(top), Ok(sum)) => (1 + top.len() + sum.to_string().len()) as u64,
            _ => 0,
        }
    }
}

/// Domains, position by position, up to the first that is refused. Each runs there as an
/// F code of its own.
pub fn walk(
    record: &[u8],
    domains: &[Stretch],
    s: u64,
    implementation: &Implementation,
    buffers: &mut Buffers,
) -> Vec<Position> {
    let mut positions = Vec::new();
    for (domain, number) in domains.iter().zip(0..) {
        let mut before = 0;
        for v in 1..=domain.positions(record, implementation) {
            let (steps, top) = alone(record, domain, (v, s), implementation, buffers);
            let sum = match &top {
                Ok(top) => added(before, top),
                Err(refusal) => Err(*refusal),
            };
            positions.push(Position {
                domain: number,
                v,
                steps,
                top,
                before,
                sum,
            });
            match sum {
                Ok(sum) => before = sum,
                Err(_) => return positions,
            }
        }
    }
    positions
}

/// The steps of a domain at a position, and its top or the number of its refusal.
fn alone(
    record: &[u8],
    domain: &Stretch,
    (v, s): (u64, u64),
    implementation: &Implementation,
    buffers: &mut Buffers,
) -> (u64, Result<Vec<u8>, u64>) {
    let call = ConvertCall {
        record: record.to_vec(),
        at: Address::new(NOWHERE, v, s),
        ..ConvertCall::of_element(&domain.code(), b"")
    };
    call.steps_and_given(implementation, buffers)
}

/// A sum with one top more, if both are in range: "other strings 0; blanks as in L3; out
/// of range 10".
fn added(before: i128, top: &[u8]) -> Result<i128, u64> {
    let number = match is_number(top) {
        // One of too many digits for any number here is out of range all the more.
        true => value(top).unwrap_or(i128::MAX / 2),
        false => 0,
    };
    let sum = before + number;
    let inside = number.abs() <= LAST_NUMBER && sum.abs() <= LAST_NUMBER;
    inside.then_some(sum).ok_or(10)
}
