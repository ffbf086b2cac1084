//! A codes as they are spelt: cut into operands and operators without being read, and
//! what can be told of an expression that was.

use sundewfrill_host::paper::algebra::{Expression, Operation};
use sundewfrill_host::paper::grammar::{Operator, Relation};

/// An A code or an F text in pieces: attributes, literals with their quotes, `<=` and
/// `>=`, and single bytes.
pub fn pieces(text: &[u8]) -> Vec<&[u8]> {
    let mut rest = text;
    let mut pieces = Vec::new();
    while !rest.is_empty() {
        let (piece, behind) = rest.split_at(piece_length(rest));
        pieces.push(piece);
        rest = behind;
    }
    pieces
}

/// How long the piece is that a text begins with.
fn piece_length(text: &[u8]) -> usize {
    let run = |from: usize, wanted: fn(&u8) -> bool| {
        let rest = text[from..].iter();
        from + rest.take_while(|&byte| wanted(byte)).count()
    };
    match text {
        [quote @ (b'\'' | b'"'), rest @ ..] => {
            let close = rest.iter().position(|byte| byte == quote);
            close.map_or(text.len(), |place| place + 2)
        }
        [b'0'..=b'9', ..] => run(run(0, u8::is_ascii_digit), |&byte| byte == b'R'),
        [b'<' | b'>', b'=', ..] => 2,
        _ => 1,
    }
}

/// Whether a piece, or an elm of the F text, is an attribute or a literal.
pub fn is_operand(piece: &[u8]) -> bool {
    piece[0].is_ascii_digit() || is_literal(piece)
}

/// Whether a piece is a literal.
pub fn is_literal(piece: &[u8]) -> bool {
    matches!(piece[0], b'\'' | b'"')
}

/// The elms of an F text, as they are spelt.
pub fn elms(text: &[u8]) -> Vec<Vec<u8>> {
    let pieces = pieces(&text[2..]);
    let elms = pieces.split(|piece| *piece == b";");
    elms.map(<[&[u8]]>::concat).collect()
}

/// The operation that a piece of an A code brings about, in F's spelling.
pub fn operation_of(piece: &[u8]) -> Option<&[u8]> {
    match piece {
        b">=" => Some(b"]"),
        b"<=" => Some(b"["),
        b"[" => Some(b"[]"),
        b"+" | b"-" | b"*" | b"/" | b":" | b"=" | b"#" | b"<" | b">" | b"R" => Some(piece),
        _ => None,
    }
}

/// Where the last operator of an expression stands outside of parentheses and brackets,
/// its last bracket there, and the last comma inside of just one pair.
#[derive(Default)]
struct Places<'t> {
    operator: Option<(usize, &'t [u8])>,
    bracket: Option<usize>,
    comma: Option<usize>,
}

fn places(expression: &[u8]) -> Places<'_> {
    let (mut place, mut depth) = (0, 0);
    let mut places = Places::default();
    for piece in pieces(expression) {
        match (depth, piece) {
            (0, b"[") => places.bracket = Some(place),
            (0, b"R") => {}
            (0, sign) if operation_of(sign).is_some() => places.operator = Some((place, sign)),
            (1, b",") => places.comma = Some(place),
            _ => {}
        }
        match piece {
            b"(" | b"[" => depth += 1,
            b")" | b"]" => depth -= 1,
            _ => {}
        }
        place += piece.len();
    }
    places
}

/// An expression as it is spelt, cut at what is done last: what that is done to, in
/// written order, and itself in F's spelling; nothing is done for parentheses. `None`
/// for an attribute or a literal.
///
/// "strictly left to right with no precedence": the last operator is done last; where
/// there is none, the last bracket of the one operand, then `R(x,y)`.
pub fn cut_last(expression: &[u8]) -> Option<(Vec<&[u8]>, &[u8])> {
    let places = places(expression);
    if let Some((place, sign)) = places.operator {
        let right = &expression[place + sign.len()..];
        return Some((vec![&expression[..place], right], operation_of(sign)?));
    }
    let last = expression.len() - 1;
    let two = |open: usize, comma: usize| [&expression[open..comma], &expression[comma + 1..last]];
    match (places.bracket, places.comma, expression[0]) {
        (Some(open), Some(comma), _) => {
            let [start, length] = two(open + 1, comma);
            Some((vec![&expression[..open], start, length], b"[]"))
        }
        (None, Some(comma), _) => Some((two(2, comma).to_vec(), b"R")),
        (None, None, b'(') => Some((vec![&expression[1..last]], b"")),
        _ => None,
    }
}

/// How deep parentheses and brackets stand in one another.
pub fn nesting(code: &[u8]) -> usize {
    let (mut depth, mut deepest) = (0_usize, 0);
    for piece in pieces(code) {
        match piece {
            b"(" | b"[" => depth += 1,
            b")" | b"]" => depth = depth.saturating_sub(1),
            _ => {}
        }
        deepest = deepest.max(depth);
    }
    deepest
}

/// The expressions that an expression is made of, in written order.
pub fn parts<'e, 'c>(expression: &'e Expression<'c>) -> Vec<&'e Expression<'c>> {
    match expression {
        Expression::Attribute(..) | Expression::Literal(..) => Vec::new(),
        Expression::Operation(_, left, right) => vec![left, right],
        Expression::Extract(whole, start, length) => vec![whole, start, length],
    }
}

/// An expression and all that stands in it.
pub fn all<'e, 'c>(expression: &'e Expression<'c>) -> Vec<&'e Expression<'c>> {
    let mut all = vec![expression];
    for part in parts(expression) {
        all.extend(self::all(part));
    }
    all
}

/// How many entries an expression comes to hold: each part stands on those before it.
pub fn entries(expression: &Expression) -> usize {
    let below = parts(expression).into_iter().zip(0..);
    let deepest = below.map(|(part, below)| below + entries(part)).max();
    deepest.unwrap_or(1)
}

/// An A code of the same expression with parentheses round every operation, so that
/// nothing is left to the order of operators.
pub fn parenthesised(expression: &Expression) -> Vec<u8> {
    [b"A", spelt(expression).as_slice()].concat()
}

fn spelt(expression: &Expression) -> Vec<u8> {
    let parts: Vec<_> = parts(expression).into_iter().map(spelt).collect();
    match (expression, parts.as_slice()) {
        (Expression::Operation(operation, ..), [left, right]) => match spelling(*operation) {
            "R" => [b"R(", left.as_slice(), b",", right, b")"].concat(),
            sign => [b"(", left.as_slice(), sign.as_bytes(), right, b")"].concat(),
        },
        (Expression::Extract(..), [whole, start, length]) => {
            [b"(", whole.as_slice(), b"[", start, b",", length, b"])"].concat()
        }
        (Expression::Attribute(_, spelling) | Expression::Literal(_, spelling), _) => {
            spelling.to_vec()
        }
        _ => unreachable!("an operation has two parts and `[]` three"),
    }
}

/// How an A code spells an operation.
pub fn spelling(operation: Operation) -> &'static str {
    match operation {
        Operation::Arithmetic(operator) => match operator {
            Operator::Add => "+",
            Operator::Subtract => "-",
            Operator::Multiply(_) => "*",
            Operator::Divide => "/",
            Operator::Remainder => "R",
        },
        Operation::Join => ":",
        Operation::Relation(relation) => match relation {
            Relation::Equal => "=",
            Relation::Unequal => "#",
            Relation::Less => "<",
            Relation::Greater => ">",
            Relation::GreaterOrEqual => ">=",
            Relation::LessOrEqual => "<=",
        },
    }
}
