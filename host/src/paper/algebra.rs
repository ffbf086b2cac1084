//! The A code: an expression, the F text that shows it, and its value.
//!
//! "An expression holds operands, and an operand in parentheses holds an expression
//! again": the two readers call each other. An A code has at most 512 bytes, so no
//! expression is nested deeper than that. The value is taken from the expression
//! itself: no F text and no stack has a part in it.

use super::grammar::{self, Load, Operator, Reader, Relation};
use super::run::{arithmetic, compare, extracted, holds, loaded};
use super::{number, record, CODE_LENGTH, ENTRY_LENGTH, LEAST_MARK};
use crate::outcome::Address;
use crate::refusal::Refusal;

/// An expression. Its parentheses are gone: they only say what belongs together.
#[derive(Clone, Debug, PartialEq, Eq)]
pub enum Expression<'c> {
    /// An attribute, and how it is spelt.
    Attribute(Load, &'c [u8]),
    /// The bytes of a literal, and how it is spelt, quotes included.
    Literal(&'c [u8], &'c [u8]),
    /// An operation on the expressions left and right of it.
    Operation(Operation, Box<Expression<'c>>, Box<Expression<'c>>),
    /// `x[y,z]`
    Extract(
        Box<Expression<'c>>,
        Box<Expression<'c>>,
        Box<Expression<'c>>,
    ),
}

/// An operation on two values: one of the operators, or `R(x,y)`.
#[derive(Clone, Copy, Debug, PartialEq, Eq)]
pub enum Operation {
    /// `+`, `-`, `*` without a digit, `/`, and the remainder.
    Arithmetic(Operator),
    /// `:`
    Join,
    /// One of the six relations.
    Relation(Relation),
}

/// Writes the F text of an A code to the front of `output` and gives its length.
pub fn show(code: &[u8], output: &mut [u8]) -> Result<usize, Refusal> {
    let text = read(code)?.text();
    // "5 if the F text would pass 512 bytes, 7 as the F text earns it": in this order
    // the check tries them. 18 is none of them: each operation leaves one entry.
    grammar::check(&text).map_err(|bad| bad.refusal)?;
    let room = output.get_mut(..text.len());
    room.ok_or(Refusal::OutputTooShort)?.copy_from_slice(&text);
    Ok(text.len())
}

/// The expression of an A code: "5 for an A code over 512, 6 if not an expression".
pub fn read(code: &[u8]) -> Result<Expression<'_>, Refusal> {
    if code.len() > CODE_LENGTH {
        return Err(Refusal::CodeTooLong);
    }
    // "No byte 251 to 255 stands in an expression, quotes or not."
    if code.iter().any(|&byte| byte >= LEAST_MARK) {
        return Err(Refusal::NotInGrammar);
    }
    let mut reader = Reader { rest: code };
    let letter = reader.eat(b'A');
    match letter.then(|| expression(&mut reader)).flatten() {
        Some(expression) if reader.at_end() => Ok(expression),
        _ => Err(Refusal::NotInGrammar),
    }
}

/// Reads operands with operators between them, "strictly left to right with no
/// precedence". Behind the last operand anything may stand.
fn expression<'c>(reader: &mut Reader<'c>) -> Option<Expression<'c>> {
    let mut left = operand(reader)?;
    while let Some(operation) = operator(reader) {
        let right = operand(reader)?;
        left = Expression::Operation(operation, Box::new(left), Box::new(right));
    }
    Some(left)
}

/// Reads a base and the brackets behind it, which belong to this operand alone.
fn operand<'c>(reader: &mut Reader<'c>) -> Option<Expression<'c>> {
    let mut operand = base(reader)?;
    while reader.eat(b'[') {
        let (start, length) = two(reader, b']')?;
        operand = Expression::Extract(Box::new(operand), start, length);
    }
    Some(operand)
}

/// Reads an attribute, a literal, `(expression)` or `R(expression,expression)`.
fn base<'c>(reader: &mut Reader<'c>) -> Option<Expression<'c>> {
    Some(match reader.peek()? {
        b'0'..=b'9' => {
            let (load, spelling) = spelt(reader, grammar::load)?;
            Expression::Attribute(load, spelling)
        }
        b'\'' | b'"' => {
            let (bytes, spelling) = spelt(reader, grammar::literal)?;
            Expression::Literal(bytes, spelling)
        }
        b'(' => {
            reader.next()?;
            let inner = expression(reader)?;
            reader.eat(b')').then_some(inner)?
        }
        _ => {
            reader.eat_all(b"R(").then_some(())?;
            let (left, right) = two(reader, b')')?;
            let remainder = Operation::Arithmetic(Operator::Remainder);
            Expression::Operation(remainder, left, right)
        }
    })
}

/// Two expressions, parted by a comma, in boxes.
type Two<'c> = (Box<Expression<'c>>, Box<Expression<'c>>);

/// Reads two expressions parted by a comma, and the byte that closes them.
fn two<'c>(reader: &mut Reader<'c>, close: u8) -> Option<Two<'c>> {
    let first = expression(reader)?;
    reader.eat(b',').then_some(())?;
    let second = expression(reader)?;
    let both = (Box::new(first), Box::new(second));
    reader.eat(close).then_some(both)
}

/// What `read` reads, and the bytes that spell it.
fn spelt<'c, T>(
    reader: &mut Reader<'c>,
    read: impl FnOnce(&mut Reader<'c>) -> Option<T>,
) -> Option<(T, &'c [u8])> {
    let before = reader.rest;
    let operand = read(reader)?;
    Some((operand, &before[..before.len() - reader.rest.len()]))
}

/// Reads an operator, if one comes next. A `=` behind `<` or `>` belongs to it, as no
/// operand begins with one.
fn operator(reader: &mut Reader) -> Option<Operation> {
    let (operation, or_equal) = match reader.peek()? {
        b'+' => (Operation::Arithmetic(Operator::Add), None),
        b'-' => (Operation::Arithmetic(Operator::Subtract), None),
        b'*' => (Operation::Arithmetic(Operator::Multiply(None)), None),
        b'/' => (Operation::Arithmetic(Operator::Divide), None),
        b':' => (Operation::Join, None),
        b'=' => (Operation::Relation(Relation::Equal), None),
        b'#' => (Operation::Relation(Relation::Unequal), None),
        b'<' => {
            let or_equal = Operation::Relation(Relation::LessOrEqual);
            (Operation::Relation(Relation::Less), Some(or_equal))
        }
        b'>' => {
            let or_equal = Operation::Relation(Relation::GreaterOrEqual);
            (Operation::Relation(Relation::Greater), Some(or_equal))
        }
        _ => return None,
    };
    reader.next();
    match or_equal {
        Some(or_equal) if reader.eat(b'=') => Some(or_equal),
        _ => Some(operation),
    }
}

impl Expression<'_> {
    /// The F text: "operands in written order and spelling, each operator in F's
    /// spelling straight after its operands".
    pub fn text(&self) -> Vec<u8> {
        let mut text = vec![b'F'];
        self.put_elms(&mut text);
        text
    }

    fn put_elms(&self, text: &mut Vec<u8>) {
        let elm = match self {
            Expression::Attribute(_, spelling) | Expression::Literal(_, spelling) => spelling,
            Expression::Operation(operation, left, right) => {
                left.put_elms(text);
                right.put_elms(text);
                operation.in_f()
            }
            Expression::Extract(whole, start, length) => {
                whole.put_elms(text);
                start.put_elms(text);
                length.put_elms(text);
                b"[]"
            }
        };
        text.push(b';');
        text.extend_from_slice(elm);
    }
}

impl Operation {
    /// The operation in F's spelling: `>=` becomes `]` and `<=` becomes `[`.
    fn in_f(self) -> &'static [u8] {
        match self {
            Operation::Arithmetic(Operator::Add) => b"+",
            Operation::Arithmetic(Operator::Subtract) => b"-",
            Operation::Arithmetic(Operator::Multiply(_)) => b"*",
            Operation::Arithmetic(Operator::Divide) => b"/",
            Operation::Arithmetic(Operator::Remainder) => b"R",
            Operation::Join => b":",
            Operation::Relation(Relation::Equal) => b"=",
            Operation::Relation(Relation::Unequal) => b"#",
            Operation::Relation(Relation::Less) => b"<",
            Operation::Relation(Relation::Greater) => b">",
            Operation::Relation(Relation::GreaterOrEqual) => b"]",
            Operation::Relation(Relation::LessOrEqual) => b"[",
        }
    }

    /// What the operation makes of the left value and the right one.
    fn of(self, left: &[u8], right: &[u8]) -> Result<Vec<u8>, Refusal> {
        match self {
            Operation::Arithmetic(operator) => arithmetic(operator, left, right).map(written),
            Operation::Join => Ok([left, right].concat()),
            Operation::Relation(relation) => {
                let order = compare(left, right)?;
                Ok(written(i64::from(holds(relation, order))))
            }
        }
    }
}

/// A number's text.
fn written(value: i64) -> Vec<u8> {
    let mut text = vec![0; 20];
    let length = number::write(value, &mut text);
    text.truncate(length);
    text
}

/// The value of an expression at the position (v, s) of a record that finding
/// accepts: its bytes, or the first refusal in written order, left before right
/// before the operation.
pub fn value(record: &[u8], v: u64, s: u64, expression: &Expression) -> Result<Vec<u8>, Refusal> {
    let of = |part: &Expression| value(record, v, s, part);
    let bytes = match expression {
        Expression::Attribute(load, _) => loaded(record, *load, v, s).to_vec(),
        Expression::Literal(bytes, _) => bytes.to_vec(),
        Expression::Operation(operation, left, right) => {
            let (left, right) = (of(left)?, of(right)?);
            operation.of(&left, &right)?
        }
        Expression::Extract(whole, start, length) => {
            let (whole, start, length) = (of(whole)?, of(start)?, of(length)?);
            whole[extracted(whole.len(), &start, &length)?].to_vec()
        }
    };
    within_limit(bytes)
}

/// The bytes themselves, or refusal 9: the limit "holds for each load and each result
/// where it is made".
fn within_limit(bytes: Vec<u8>) -> Result<Vec<u8>, Refusal> {
    match bytes.len() {
        0..=ENTRY_LENGTH => Ok(bytes),
        _ => Err(Refusal::ElementTooLong),
    }
}

/// The values of an expression at the positions of all elements inside the place
/// `at`, the marks kept between; or refusal 1 to 4, or that of the first element that
/// has one. What converting by the F text comes to, with all that it needs.
pub fn values(record: &[u8], at: Address, expression: &Expression) -> Result<Vec<u8>, Refusal> {
    record::admit(record, at)?;
    let mut values = Vec::new();
    for element in record::elements(record, at) {
        // "The run refuses 9 before the first step of an over-long element."
        if element.bytes.len() > ENTRY_LENGTH {
            return Err(Refusal::ElementTooLong);
        }
        values.extend(value(record, element.v, element.s, expression)?);
        values.extend(element.mark);
    }
    Ok(values)
}

#[cfg(test)]
mod tests {
    use super::*;

    fn shown(code: &str) -> Result<String, u64> {
        let mut output = [0; CODE_LENGTH];
        match show(code.as_bytes(), &mut output) {
            Ok(length) => Ok(String::from_utf8_lossy(&output[..length]).into_owned()),
            Err(refusal) => Err(refusal.number()),
        }
    }

    /// The value of an A code at (v, s), or its refusal.
    fn valued(record: &[u8], (v, s): (u64, u64), code: &str) -> Result<String, u64> {
        let expression = read(code.as_bytes()).expect("an A code");
        match value(record, v, s, &expression) {
            Ok(bytes) => Ok(String::from_utf8_lossy(&bytes).into_owned()),
            Err(refusal) => Err(refusal.number()),
        }
    }

    /// Brackets belong to the operand before them, operators to all that is left of
    /// them.
    #[test]
    fn what_belongs_together() {
        let attribute = |spelling: &'static str| {
            let load = grammar::load(&mut Reader {
                rest: spelling.as_bytes(),
            });
            Expression::Attribute(load.expect("a load"), spelling.as_bytes())
        };
        let boxed = |spelling| Box::new(attribute(spelling));
        let part = Expression::Extract(boxed("2R"), boxed("3"), boxed("004"));
        let joined = Expression::Operation(Operation::Join, boxed("1"), Box::new(part));
        let less = Operation::Relation(Relation::LessOrEqual);
        let whole = Expression::Operation(less, Box::new(joined), boxed("5RR"));
        assert_eq!(read(b"A1:2R[3,004]<=5RR").as_ref(), Ok(&whole));
        assert_eq!(read(b"A((1:(2R)[(3),004]))<=5RR").as_ref(), Ok(&whole));
        assert_ne!(read(b"A1:(2R[3,004]<=5RR)").as_ref(), Ok(&whole));
        assert_ne!(read(b"A(1:2R)[3,004]<=5RR").as_ref(), Ok(&whole));
    }

    /// As deep as 512 bytes go, closed or not.
    #[test]
    fn deep_nesting() {
        let deep = |pairs: usize| format!("A{}1{}", "(".repeat(pairs), ")".repeat(pairs));
        assert_eq!(shown(&deep(255)), Ok("F;1".to_owned()));
        assert_eq!(shown(&deep(256)), Err(5));
        assert_eq!(shown(&format!("A{}", "(".repeat(511))), Err(6));
        assert_eq!(shown(&format!("A{}", "R(".repeat(255))), Err(6));
        assert_eq!(shown(&format!("A{}", "1[".repeat(255))), Err(6));
        let parts = |count: usize| format!("A1{}", "[1,1]".repeat(count));
        let text = format!("F;1{}", ";1;1;[]".repeat(72));
        assert_eq!(shown(&parts(72)), Ok(text));
        assert_eq!(shown(&parts(73)), Err(5));
    }

    /// "the first refusal in written order wins", and none but 9, 10 and 11.
    #[test]
    fn first_refusal() {
        let (p, q) = ("'1'/'0'", "'9'*'999999999999999'");
        let long = [b"K1\xfe", [b'a'; 1_025].as_slice()].concat();
        for (code, refusal) in [
            (format!("A({p})+({q})"), 11),
            (format!("A({q})+({p})"), 10),
            (format!("A({p})+1"), 11),
            (format!("A1+({p})"), 9),
            (format!("A'x'[{p},{q}]"), 11),
            (format!("A'x'[{q},{p}]"), 10),
            (format!("A1[{q},{p}]"), 9),
            (format!("AR({p},{q})"), 11),
            (format!("AR({q},{p})"), 10),
            (format!("A(({q})='x')-({p})"), 10),
        ] {
            assert_eq!(valued(&long, (1, 1), &code), Err(refusal), "{code}");
        }
    }
}
