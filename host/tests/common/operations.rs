//! Calls that come down to one operation on numbers: what it is, and what it takes,
//! whatever brought that there.

use sundewfrill_host::outcome::{Address, Implementation};
use sundewfrill_host::paper::grammar::{self, Code, Conversion, Elm, Load, Which};
use sundewfrill_host::paper::{ENTRY_LENGTH, LEAST_MARK};

use super::calls::ConvertCall;
use super::laws::part;
use super::numbers::{blanked, is_number, within_blanks};

/// An operation that reads numbers, and what it takes.
pub struct Operation<'c> {
    /// The operation as an elm: an operator, a relation, `[]`, or ML, MR or D.
    pub elm: Elm<'c>,
    /// How an F code spells that elm.
    pub spelling: Vec<u8>,
    /// The elms that bring what it takes; LPV for a code that is no F code.
    pub brought_by: Vec<Elm<'c>>,
    /// What it takes, the top entry last.
    pub operands: Vec<Vec<u8>>,
    /// The element that is converted.
    pub element: &'c [u8],
}

/// The operation of a call that converts one element by one such code, or by an F
/// code of its operands and itself; `None` for another call.
pub fn operation<'c>(
    call: &'c ConvertCall,
    implementation: &Implementation,
) -> Option<Operation<'c>> {
    let (elm, spelling, brought_by) = spelt(&call.code)?;
    let find = |at| {
        let found = (implementation.find)(&call.record, at);
        (found.refusal == 0).then(|| part(&call.record, &found))
    };
    let element = find(call.at)?;
    if element.iter().any(|&byte| byte >= LEAST_MARK) {
        return None;
    }
    let mut operands = Vec::new();
    for elm in &brought_by {
        let operand = match elm {
            Elm::Literal(bytes) => bytes,
            Elm::Load(load) => find(place(*load, call.at))?,
            _ => element,
        };
        operands.push(operand.to_vec());
    }
    Some(Operation {
        elm,
        spelling,
        brought_by,
        operands,
        element,
    })
}

/// The operation that a code string spells, its spelling, and its operands.
fn spelt(string: &[u8]) -> Option<(Elm<'_>, Vec<u8>, Vec<Elm<'_>>)> {
    let mut codes = grammar::read(string).ok()?;
    let code = codes.pop().filter(|_| codes.is_empty())?;
    let mut operands = match code {
        Code::Function(elms) => elms,
        Code::Conversion(code) => vec![Elm::Previous, Elm::Convert(code)],
    };
    let elm = operands.pop().filter(reads_numbers)?;
    let all = operands.len() == grammar::entries(&elm).0;
    if !all || operands.iter().any(|elm| grammar::entries(elm) != (0, 1)) {
        return None;
    }
    let spelling = match grammar::elms(string).ok()? {
        Some(mut elms) => {
            elms.by_ref().take(operands.len()).for_each(drop);
            // Without the `;` in front of it.
            elms.rest()[1..].to_vec()
        }
        None => [b"(", string, b")"].concat(),
    };
    Some((elm, spelling, operands))
}

fn reads_numbers(elm: &Elm) -> bool {
    match elm {
        Elm::Arithmetic(_) | Elm::Relation(_) | Elm::Extract => true,
        Elm::Convert(code) => matches!(code, Conversion::Mask(_) | Conversion::Date(_)),
        _ => false,
    }
}

/// Where a load finds its element for the one element at this address.
pub fn place(load: Load, at: Address) -> Address {
    // A place named only in part counts from 1.
    let (v, s) = (at.v.max(1), at.s.max(1));
    let attribute = u64::from(load.attribute);
    match load.which {
        _ if attribute == 0 => Address::new(0, 0, 0),
        Which::Same => Address::new(attribute, v, s),
        Which::FirstValue => Address::new(attribute, 1, s),
        Which::First => Address::new(attribute, 1, 1),
    }
}

/// A way to write an operand.
type Way = fn(&[u8]) -> Vec<u8>;

/// Without the blanks at its ends, with more of them, and with as many as an entry
/// has room for: this makes no number of a text that is none, and no other number of one
/// that is.
const BLANKED: [Way; 5] = [
    |text| within_blanks(text).to_vec(),
    |text| blanked(1, text, 0),
    |text| blanked(0, text, 1),
    |text| blanked(2, text, 3),
    |text| {
        let room = ENTRY_LENGTH.saturating_sub(text.len());
        blanked(room / 2, text, room - room / 2)
    },
];

/// "Arithmetic, start and length take other strings, the empty one included, as 0."
const OR_ZERO: [Way; 1] = [|text| match is_number(text) {
    true => text.to_vec(),
    false => b"0".to_vec(),
}];

/// Behind the same letter, two texts stand in the order of their bytes.
const BY_BYTES: [Way; 1] = [|text| [b"x", text].concat()];

impl Operation<'_> {
    /// Other operands, of which the operation must give the same.
    pub fn alike(&self) -> Vec<Vec<Vec<u8>>> {
        let numbers = self.operands.iter().all(|operand| is_number(operand));
        let ways: Vec<Way> = match self.elm {
            Elm::Relation(_) if numbers => BLANKED.to_vec(),
            Elm::Relation(_) => BY_BYTES.to_vec(),
            // Of blanks alone taking them away leaves the empty text, which stays
            // empty.
            Elm::Convert(_) if within_blanks(&self.operands[0]).is_empty() => Vec::new(),
            Elm::Convert(_) => BLANKED.to_vec(),
            _ => [BLANKED.as_slice(), &OR_ZERO].concat(),
        };
        let written = ways.iter().map(|way| self.written(*way));
        written.filter(|operands| fit(operands)).collect()
    }

    /// The operands with those that are read as numbers written in this way.
    fn written(&self, way: Way) -> Vec<Vec<u8>> {
        // The first that `[]` takes is no number.
        let texts = usize::from(self.elm == Elm::Extract);
        let mut operands = self.operands.clone();
        for operand in &mut operands[texts..] {
            *operand = way(operand);
        }
        operands
    }
}

/// Whether none of these is over-long.
pub fn fit(entries: &[impl AsRef<[u8]>]) -> bool {
    let fits = |entry: &[u8]| entry.len() <= ENTRY_LENGTH;
    entries.iter().all(|entry| fits(entry.as_ref()))
}
