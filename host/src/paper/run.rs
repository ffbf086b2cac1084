//! A conversion: elements through codes, with the steps counted.

use std::cmp::Ordering;
use std::ops::Range;

use super::grammar::{self, Code, Conversion, Elm, Load, Operator, Relation, Which};
use super::number::{self, POWERS_OF_TEN};
use super::record::{self, Element};
use super::stack::{Stack, STACK_ROOM};
use super::{calendar, mask, text, ENTRY_LENGTH};
use crate::outcome::Address;
use crate::refusal::Refusal;
use crate::SCRATCH_LENGTH;

/// Converts and gives the length of the answer, which is at the front of
/// `output`; what is behind it and in `scratch` is left as it comes. The cost of
/// the completed steps is added to `steps`.
pub fn convert(
    record: &[u8],
    code: &[u8],
    at: Address,
    budget: u64,
    output: &mut [u8],
    scratch: &mut [u8],
    steps: &mut u64,
) -> Result<usize, Refusal> {
    record::admit(record, at)?;
    let codes = grammar::read(code)?;
    if scratch.len() < SCRATCH_LENGTH {
        return Err(Refusal::ScratchTooShort);
    }
    let (current, rest) = scratch.split_at_mut(ENTRY_LENGTH);
    let mut run = Run {
        record,
        budget,
        steps,
        current,
        length: 0,
        stack: Stack::new(&mut rest[..STACK_ROOM]),
    };
    let mut answer = Answer { output, length: 0 };
    for element in record::elements(record, at) {
        run.element(&element, &codes)?;
        answer.put_all(&run.current[..run.length]);
        if let Some(mark) = element.mark {
            answer.put_all(&[mark]);
        }
    }
    answer.finish()
}

/// The most that a conversion can cost: refusals 1 to 7 and 18, as before a run.
pub fn ceiling(record: &[u8], code: &[u8], at: Address) -> Result<u64, Refusal> {
    record::admit(record, at)?;
    let counts = grammar::check(code).map_err(|bad| bad.refusal)?;
    // A load costs the record and an entry; a P code an entry that it puts and,
    // for each test, all places of an entry, its end too; no other step meets
    // more than four entries: `[]` takes three and puts one, `_` takes two and
    // puts two.
    let entry = 1 + ENTRY_LENGTH as u64;
    let loads = counts.loads * (entry + record.len() as u64);
    let others = counts.others * (1 + 4 * ENTRY_LENGTH as u64);
    let patterns = (counts.patterns + counts.tests) * entry;
    let elements = record::elements(record, at).count() as u64;
    Ok(elements * (loads + others + patterns))
}

/// The answer as it grows. Once the output is too short for it, only its length
/// does.
struct Answer<'a> {
    output: &'a mut [u8],
    length: usize,
}

impl Answer<'_> {
    fn put_all(&mut self, bytes: &[u8]) {
        let end = self.length + bytes.len();
        if let Some(room) = self.output.get_mut(self.length..end) {
            room.copy_from_slice(bytes);
        }
        self.length = end;
    }

    fn finish(self) -> Result<usize, Refusal> {
        if self.length > self.output.len() {
            return Err(Refusal::OutputTooShort);
        }
        Ok(self.length)
    }
}

/// A run under way.
struct Run<'a> {
    record: &'a [u8],
    budget: u64,
    steps: &'a mut u64,
    /// Room for the element between codes: `current[..length]`.
    current: &'a mut [u8],
    length: usize,
    stack: Stack<'a>,
}

impl Run<'_> {
    /// Takes one element through all codes.
    fn element(&mut self, element: &Element, codes: &[Code]) -> Result<(), Refusal> {
        self.length = element.bytes.len();
        if self.length > ENTRY_LENGTH {
            return Err(Refusal::ElementTooLong);
        }
        self.current[..self.length].copy_from_slice(element.bytes);
        for code in codes {
            match code {
                Code::Function(elms) => self.function(elms, element)?,
                Code::Conversion(conversion) => self.conversion(conversion)?,
            }
        }
        Ok(())
    }

    /// Takes the element through a code other than F.
    fn conversion(&mut self, conversion: &Conversion) -> Result<(), Refusal> {
        let taken = self.length;
        self.length = apply(conversion, self.current, taken)?;
        self.charge(price(conversion, taken, self.length))
    }

    /// Takes the element through an F code.
    fn function(&mut self, elms: &[Elm], element: &Element) -> Result<(), Refusal> {
        self.stack.clear();
        for elm in elms {
            let cost = self.elm(elm, element)?;
            self.charge(cost)?;
        }
        let top = self.stack.entry(1);
        self.current[..top.len()].copy_from_slice(top);
        self.length = top.len();
        Ok(())
    }

    /// Counts a step's cost, or refuses it with 15.
    fn charge(&mut self, cost: usize) -> Result<(), Refusal> {
        let steps = *self.steps + cost as u64;
        if steps > self.budget {
            return Err(Refusal::OverBudget);
        }
        *self.steps = steps;
        Ok(())
    }

    /// Carries out one elm and gives its cost.
    fn elm(&mut self, elm: &Elm, element: &Element) -> Result<usize, Refusal> {
        match *elm {
            Elm::Load(load) => {
                let bytes = loaded(self.record, load, element.v, element.s);
                if bytes.len() > ENTRY_LENGTH {
                    return Err(Refusal::ElementTooLong);
                }
                self.stack.push(bytes);
                Ok(1 + self.record.len() + bytes.len())
            }
            Elm::Literal(bytes) => {
                self.stack.push(bytes);
                Ok(1 + bytes.len())
            }
            Elm::Previous => {
                self.stack.push(&self.current[..self.length]);
                Ok(1 + self.length)
            }
            Elm::Arithmetic(operator) => {
                let value = arithmetic(operator, self.stack.entry(2), self.stack.entry(1))?;
                self.put_number(2, value)
            }
            Elm::Relation(relation) => {
                let order = compare(self.stack.entry(2), self.stack.entry(1))?;
                self.put_number(2, i64::from(holds(relation, order)))
            }
            Elm::Join => {
                let length = self.stack.top_length(2);
                if length > ENTRY_LENGTH {
                    return Err(Refusal::ElementTooLong);
                }
                self.stack.join();
                Ok(1 + length + length)
            }
            Elm::Extract => self.extract(),
            Elm::Exchange => {
                self.stack.exchange();
                Ok(1 + 2 * self.stack.top_length(2))
            }
            Elm::Duplicate => {
                self.stack.duplicate();
                Ok(1 + 3 * self.stack.top_length(1))
            }
            Elm::Convert(ref conversion) => {
                let taken = self.stack.top_length(1);
                let put = self
                    .stack
                    .replace(1, |room| apply(conversion, room, taken))?;
                Ok(price(conversion, taken, put))
            }
        }
    }

    /// Puts a number in the place of the top `count` entries.
    fn put_number(&mut self, count: usize, value: i64) -> Result<usize, Refusal> {
        let taken = self.stack.top_length(count);
        let put = self
            .stack
            .replace(count, |room| Ok(number::write(value, room)))?;
        Ok(1 + taken + put)
    }

    /// `[]`: bytes of the third entry, start in the second, length in the top.
    fn extract(&mut self) -> Result<usize, Refusal> {
        let whole = self.stack.entry(3).len();
        let part = extracted(whole, self.stack.entry(2), self.stack.entry(1))?;
        let taken = self.stack.top_length(3);
        let put = self.stack.replace(3, |room| {
            room.copy_within(part.clone(), 0);
            Ok(part.len())
        })?;
        Ok(1 + taken + put)
    }
}

/// The part of the record that a load names at the position (v, s).
pub fn loaded(record: &[u8], load: Load, v: u64, s: u64) -> &[u8] {
    let (v, s) = match load.which {
        Which::Same => (v, s),
        Which::FirstValue => (1, s),
        Which::First => (1, 1),
    };
    record::load(record, u64::from(load.attribute), v, s)
}

/// Which of `whole` bytes `[]` takes, for a start and a length as texts.
pub fn extracted(whole: usize, start: &[u8], length: &[u8]) -> Result<Range<usize>, Refusal> {
    let start = number::read_or_zero(start)?.max(1);
    let length = number::read_or_zero(length)?.max(0);
    let from = whole.min(start as usize - 1);
    Ok(from..whole.min(from + length as usize))
}

/// The result of an operator on the second entry and the top one.
pub fn arithmetic(operator: Operator, second: &[u8], top: &[u8]) -> Result<i64, Refusal> {
    let second = number::read_or_zero(second)?;
    let top = number::read_or_zero(top)?;
    match operator {
        Operator::Add => number::in_range(second + top),
        Operator::Subtract => number::in_range(second - top),
        Operator::Multiply(digit) => {
            let product = second.checked_mul(top).ok_or(Refusal::OutOfRange)?;
            Ok(number::in_range(product)? / POWERS_OF_TEN[usize::from(digit.unwrap_or(0))])
        }
        Operator::Divide => second.checked_div(top).ok_or(Refusal::DivisionByZero),
        Operator::Remainder => second.checked_rem(top).ok_or(Refusal::DivisionByZero),
    }
}

/// The second entry against the top one: as numbers when both have numeric
/// form, else by bytes.
pub fn compare(second: &[u8], top: &[u8]) -> Result<Ordering, Refusal> {
    match (number::read(second), number::read(top)) {
        (Ok(None), _) | (_, Ok(None)) => Ok(second.cmp(top)),
        (one, other) => Ok(one?.cmp(&other?)),
    }
}

/// Whether a relation holds for two that stand in this order.
pub fn holds(relation: Relation, order: Ordering) -> bool {
    match relation {
        Relation::Equal => order.is_eq(),
        Relation::Unequal => order.is_ne(),
        Relation::Greater => order.is_gt(),
        Relation::Less => order.is_lt(),
        Relation::GreaterOrEqual => order.is_ge(),
        Relation::LessOrEqual => order.is_le(),
    }
}

/// Puts what a code gives for `room[..length]` in its place and gives the new
/// length.
fn apply(conversion: &Conversion, room: &mut [u8], length: usize) -> Result<usize, Refusal> {
    match *conversion {
        Conversion::Group(code) => Ok(text::group(code, room, length)),
        Conversion::Cut(code) => Ok(text::cut(code, room, length)),
        Conversion::Length(code) => Ok(text::length_code(code, room, length)),
        Conversion::Characters(code) => Ok(text::character_code(code, room, length)),
        Conversion::ToHex => text::to_hex(room, length),
        Conversion::FromHex => text::from_hex(room, length),
        Conversion::Mask(code) => mask::write(code, room, length),
        Conversion::Date(form) => calendar::write(form, room, length),
        Conversion::Pattern(ref code) => Ok(code.left_of(&room[..length])),
    }
}

/// What a step of a code other than F costs that took and put so many bytes.
fn price(conversion: &Conversion, taken: usize, put: usize) -> usize {
    let looked_at = match conversion {
        // Each test may have to look at all places of the element, its end too.
        Conversion::Pattern(code) => code.tests() * (taken + 1),
        _ => taken,
    };
    1 + looked_at + put
}
