//! What the values of expressions come to: the limits of what is loaded and joined,
//! and which refusal of several is the first.

use sundewfrill_host::outcome::Address;
use sundewfrill_host::paper::algebra::{self, Expression, Operation};
use sundewfrill_host::paper::{self, ENTRY_LENGTH, LEAST_MARK};

use super::super::calls::ConvertCall;
use super::super::expressions::{all, parts, spelling};
use super::super::laws::part;
use super::super::numbers::value;
use super::super::operations;
use super::limits::LAST_NUMBER;
use super::Coverage;

/// What the values of A codes must reach.
pub const VALUES: [&str; 24] = [
    "value of one element",
    "value of several elements",
    "value of the id",
    "value at a missing place",
    "empty value",
    "load of 1,024",
    "load of 1,025",
    "join of 1,024",
    "join of 1,025",
    "join of 1,025 that [ would cut",
    "element of 1,024",
    "element of 1,025",
    "10 in arithmetic",
    "10 in a relation",
    "10 in R(",
    "10 in a start",
    "10 in a length",
    "11 in /",
    "11 in R(",
    "left refuses before right",
    "start refuses before length",
    "right refuses before the operation",
    "refusal of the first element",
    "refusal of a later element",
];

/// A record, and where in it the values are taken.
struct Place<'r> {
    record: &'r [u8],
    at: Address,
}

impl Place<'_> {
    fn value(&self, expression: &Expression) -> Result<Vec<u8>, u64> {
        let value = algebra::value(self.record, self.at.v, self.at.s, expression);
        value.map_err(|refusal| refusal.number())
    }

    fn refusal(&self, expression: &Expression) -> u64 {
        self.value(expression).map_or_else(|refusal| refusal, |_| 0)
    }

    /// How many bytes a join of two values comes to, neither of them empty.
    fn joined(&self, expression: &Expression) -> Option<usize> {
        let Expression::Operation(Operation::Join, left, right) = expression else {
            return None;
        };
        let lengths = [left, right].map(|side| self.value(side).map_or(0, |bytes| bytes.len()));
        (!lengths.contains(&0)).then(|| lengths.iter().sum())
    }

    /// Whether an expression is a number out of range.
    fn is_out_of_range(&self, expression: &Expression) -> bool {
        let number = self.value(expression).ok().and_then(|bytes| value(&bytes));
        number.is_some_and(|number| number.abs() > LAST_NUMBER)
    }
}

impl Coverage {
    /// Notes what the values of an A code come to where `call` converts by its F text.
    pub fn values(&mut self, code: &[u8], call: &ConvertCall, refusal: u64) {
        let found = paper::find(&call.record, call.at);
        let Some(expression) = algebra::read(code).ok().filter(|_| found.refusal == 0) else {
            return;
        };
        // A place named only in part counts from 1; the id has no values.
        let at = match call.at.a {
            0 => Address::new(0, 1, 1),
            a => Address::new(a, call.at.v.max(1), call.at.s.max(1)),
        };
        let place = Place {
            record: &call.record,
            at,
        };
        let taken = part(&call.record, &found);
        if taken.iter().any(|&byte| byte >= LEAST_MARK) {
            self.tag_if(refusal == 0, "value of several elements");
            let first = place.refusal(&expression);
            self.tag_if(
                refusal != 0 && first == refusal,
                "refusal of the first element",
            );
            self.tag_if(refusal != 0 && first == 0, "refusal of a later element");
            return;
        }
        self.tag_if(refusal == 0, "value of one element");
        self.tag_if(refusal == 0 && call.at.a == 0, "value of the id");
        self.tag_if(refusal == 0 && found.found == 0, "value at a missing place");
        self.one_value(&place, &expression, (taken.len(), refusal));
    }

    /// Notes what comes of the one element of this length.
    fn one_value(&mut self, place: &Place, expression: &Expression, outcome: (usize, u64)) {
        let (value, full) = (place.value(expression), ENTRY_LENGTH);
        let valued = value.is_ok();
        self.tag_if(outcome == (full, 0), "element of 1,024");
        self.tag_if(outcome == (full + 1, 9) && valued, "element of 1,025");
        self.tag_if(value == Ok(Vec::new()), "empty value");
        // Each part is taken by itself: this is for short codes on short records.
        if place.record.len() <= 8_192 && all(expression).len() <= 40 {
            for part in all(expression) {
                self.limit(place, part);
                self.refused(place, part);
                self.first_refusal(place, part);
            }
        }
    }

    /// Notes a load or a join at the limit of its length, or one past it.
    fn limit(&mut self, place: &Place, expression: &Expression) {
        let refusal = place.refusal(expression);
        match expression {
            Expression::Attribute(load, _) => {
                let found = paper::find(place.record, operations::place(*load, place.at));
                let loaded = (found.length, refusal);
                self.tag_if(loaded == (1_024, 0), "load of 1,024");
                self.tag_if(loaded == (1_025, 9), "load of 1,025");
            }
            Expression::Operation(..) => {
                let joined = (place.joined(expression), refusal);
                self.tag_if(joined == (Some(1_024), 0), "join of 1,024");
                self.tag_if(joined == (Some(1_025), 9), "join of 1,025");
            }
            Expression::Extract(whole, ..) => {
                let cut = (place.joined(whole), refusal) == (Some(1_025), 9);
                self.tag_if(cut, "join of 1,025 that [ would cut");
            }
            Expression::Literal(..) => {}
        }
    }

    /// Notes an expression that is refused although all its parts have values.
    fn refused(&mut self, place: &Place, expression: &Expression) {
        let parts = parts(expression);
        if parts.iter().any(|part| place.refusal(part) != 0) {
            return;
        }
        let refusal = place.refusal(expression);
        match (expression, parts.as_slice()) {
            (Expression::Operation(operation, ..), _) => {
                let sign = spelling(*operation);
                let tag = match (refusal, operation) {
                    (10, Operation::Relation(_)) => "10 in a relation",
                    (10, _) if sign == "R" => "10 in R(",
                    (10, _) => "10 in arithmetic",
                    (11, _) if sign == "R" => "11 in R(",
                    (11, _) => "11 in /",
                    _ => return,
                };
                self.tags.insert(tag);
            }
            (Expression::Extract(..), [_, start, length]) if refusal == 10 => {
                self.tag_if(place.is_out_of_range(start), "10 in a start");
                self.tag_if(place.is_out_of_range(length), "10 in a length");
            }
            _ => {}
        }
    }

    /// Notes an expression of which more than one thing is refused, each with a number
    /// of its own.
    fn first_refusal(&mut self, place: &Place, expression: &Expression) {
        let refusals: Vec<u64> = parts(expression)
            .into_iter()
            .map(|part| place.refusal(part))
            .collect();
        let unlike = |one: u64, other: u64| one != 0 && other != 0 && one != other;
        match (expression, refusals.as_slice()) {
            (Expression::Operation(operation, number, _), &[left, right]) => {
                self.tag_if(unlike(left, right), "left refuses before right");
                let arithmetic = matches!(operation, Operation::Arithmetic(_));
                let would = arithmetic && place.is_out_of_range(number);
                let before = would && unlike(right, 10);
                self.tag_if(before, "right refuses before the operation");
            }
            (Expression::Extract(..), &[0, start, length]) => {
                self.tag_if(unlike(start, length), "start refuses before length");
            }
            _ => {}
        }
    }
}
