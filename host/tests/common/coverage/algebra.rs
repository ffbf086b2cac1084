//! A codes: every operator and operand, what stands in what, what is nearly one, and
//! the limits on both sides.

use sundewfrill_host::outcome::Algebra;
use sundewfrill_host::paper::algebra::{self, Expression};
use sundewfrill_host::paper::grammar::{Load, Which};
use sundewfrill_host::paper::{LEAST_MARK, VALUE_MARK};

use super::super::buffers::Buffers;
use super::super::calls::{AlgebraCall, PAPER};
use super::super::expressions::{all, entries, is_literal, nesting, pieces, spelling};
use super::super::generator::NEARLY_SHOWN;
use super::limits::refusal;
use super::values::VALUES;
use super::Coverage;

/// Every operator of an A code that is shown.
const OPERATORS: [(&str, &str); 11] = [
    ("+", "A +"),
    ("-", "A -"),
    ("*", "A *"),
    ("/", "A /"),
    (":", "A :"),
    ("=", "A ="),
    ("#", "A #"),
    ("<", "A <"),
    (">", "A >"),
    (">=", "A >="),
    ("<=", "A <="),
];

/// Every kind of operand of an A code that is shown.
const OPERANDS: [&str; 21] = [
    "A n",
    "A nR",
    "A nRR",
    "A 0",
    "A n of 3 digits",
    "A zero before n",
    "A literal in single quotes",
    "A literal in double quotes",
    "A empty literal",
    "A literal with a quote",
    "A literal with ;",
    "A literal with )",
    "A literal with ,",
    "A literal with ]",
    "A literal with a blank",
    "A (",
    "A ((",
    "A R(",
    "A [",
    "A ][",
    "A )[",
];

/// What stands in what, in an A code that is shown.
const SHAPES: [&str; 8] = [
    "A operator in R(",
    "A operator in a start",
    "A operator in a length",
    "A [ in a start",
    "A [ behind R()",
    "A [ behind (+)",
    "A [ behind a right operand",
    "A + before * by itself",
];

/// The limits of an A code, and the order of its refusals.
const LIMITS: [&str; 17] = [
    "A code of 511",
    "A code of 512",
    "A code of 513",
    "A code of 513 with a mark",
    "F text of 511",
    "F text of 512",
    "F text of 513",
    "15 entries",
    "16 entries",
    "17 entries",
    "too long and too deep",
    "too deep and output short",
    "not an expression and output short",
    "nested 255 deep",
    "output met exactly",
    "output one short",
    "two A codes parted by 253",
];

/// How line 1 ends for the program that shows A codes, and what stands behind it.
const LINES: [&str; 6] = [
    "line without end",
    "line with end",
    "more lines",
    "input of 65,536",
    "input of 65,537",
    "line of more than is read",
];

const IN_QUOTES: [&str; 5] = [
    "251 in quotes", "252 in quotes", "253 in quotes", "254 in quotes", "255 in quotes",
];
const OUTSIDE_QUOTES: [&str; 5] = [
    "251 outside quotes", "252 outside quotes", "253 outside quotes", "254 outside quotes",
    "255 outside quotes",
];

impl Coverage {
    /// Fails unless showing A codes has reached everything.
    pub fn require_of_algebra(&self) {
        let operators = OPERATORS.map(|(_, tag)| tag);
        let shown = [operators.as_slice(), &OPERANDS, &SHAPES].concat();
        let marks = [IN_QUOTES, OUTSIDE_QUOTES].concat();
        let tags: [&[&str]; 5] = [&shown, &LIMITS, &marks, &NEARLY_SHOWN, &VALUES];
        self.require("algebra", &[5, 6, 7, 16], &tags);
    }

    /// Notes what a showing of an A code has reached.
    pub fn algebra(&mut self, call: &AlgebraCall, outcome: &Algebra) {
        let (code, refusal) = (call.code.as_slice(), outcome.refusal);
        self.refusal(refusal);
        self.code_length(call, refusal);
        let miss = NEARLY_SHOWN.iter().find(|miss| miss.as_bytes() == code);
        self.tags.extend(miss.filter(|_| refusal == 6));
        match algebra::read(code) {
            Ok(expression) => self.expression(call, &expression, refusal),
            Err(_) => self.marks(code, refusal),
        }
    }

    /// Fails unless the program that shows A codes has reached everything.
    pub fn require_of_formula(&self) {
        self.require("formula", &[5, 6, 7], &[&LINES]);
    }

    /// Notes what the program that shows A codes writes. How its line ended counts
    /// where a text is shown.
    pub fn formula(&mut self, input: &[u8], written: &[u8]) {
        let refusal = refusal(written);
        self.refusal(refusal);
        let (shown, length) = (refusal == 0, input.len());
        let end = input.iter().position(|&byte| byte == b'\n');
        let behind = end.map(|end| length - end - 1);
        let is_more = behind.is_some_and(|behind| behind > 0);
        for (reached, tag) in [
            (shown && end.is_none(), "line without end"),
            (shown && behind == Some(0), "line with end"),
            (shown && is_more, "more lines"),
            (shown && length == 65_536, "input of 65,536"),
            (shown && length == 65_537, "input of 65,537"),
            (end.unwrap_or(length) > 65_536, "line of more than is read"),
        ] {
            self.tag_if(reached, tag);
        }
    }

    fn code_length(&mut self, call: &AlgebraCall, refusal: u64) {
        let length = call.code.len();
        self.tag_if(refusal == 0 && length == 511, "A code of 511");
        self.tag_if(refusal == 0 && length == 512, "A code of 512");
        let over = refusal == 5 && length == 513;
        self.tag_if(over, "A code of 513");
        let marked = call.code.iter().any(|&byte| byte >= LEAST_MARK);
        self.tag_if(over && marked, "A code of 513 with a mark");
        let short = refusal == 6 && call.output_length == 0;
        self.tag_if(short, "not an expression and output short");
    }

    /// Notes an A code that is refused for a mark alone: without it there is an
    /// expression, or one on either side of it.
    fn marks(&mut self, code: &[u8], refusal: u64) {
        let is_mark = |byte: &u8| *byte >= LEAST_MARK;
        let Some(place) = code.iter().position(is_mark).filter(|_| refusal == 6) else {
            return;
        };
        let is_good = |code: &[u8]| algebra::read(code).is_ok();
        let codes: Vec<&[u8]> = code.split(|&byte| byte == VALUE_MARK).collect();
        let two = codes.len() == 2 && codes.into_iter().all(is_good);
        self.tag_if(two, "two A codes parted by 253");
        if is_good(&[&code[..place], &code[place + 1..]].concat()) {
            let mut literals = pieces(code).into_iter().filter(|piece| is_literal(piece));
            let tags = match literals.any(|literal| literal.iter().any(is_mark)) {
                true => IN_QUOTES,
                false => OUTSIDE_QUOTES,
            };
            self.tags
                .insert(tags[usize::from(code[place] - LEAST_MARK)]);
        }
    }

    /// Notes what comes of an expression.
    fn expression(&mut self, call: &AlgebraCall, expression: &Expression, refusal: u64) {
        if refusal == 0 {
            self.spelt(&call.code);
            for part in all(expression) {
                self.shape(part, &call.code);
            }
        }
        let (length, entries) = (expression.text().len(), entries(expression));
        let (shown, room) = (refusal == 0, call.output_length);
        for (reached, tag) in [
            (shown && length == 511, "F text of 511"),
            (shown && length == 512, "F text of 512"),
            (refusal == 5 && length == 513, "F text of 513"),
            (shown && entries == 15, "15 entries"),
            (shown && entries == 16, "16 entries"),
            (refusal == 7 && entries == 17, "17 entries"),
            (refusal == 5 && entries > 16, "too long and too deep"),
            (refusal == 7 && room < length, "too deep and output short"),
            (shown && room == length, "output met exactly"),
        ] {
            self.tag_if(reached, tag);
        }
        self.tag_until("nested 255 deep", || shown && nesting(&call.code) == 255);
        self.tag_until("output one short", || refusal == 16 && is_one_short(call));
    }

    /// Notes the pieces of an A code that is shown.
    fn spelt(&mut self, code: &[u8]) {
        let pieces = pieces(code);
        for (&before, &piece) in pieces.iter().zip(&pieces[1..]) {
            let operators = OPERATORS.iter();
            let tags = operators.filter(|(spelling, _)| spelling.as_bytes() == piece);
            self.tags.extend(tags.map(|(_, tag)| *tag));
            self.tag_if(piece == b"(" && before != b"R", "A (");
            self.tag_if(piece == b"[", "A [");
            for (two, tag) in [
                ([b"(", b"("], "A (("),
                ([b"R", b"("], "A R("),
                ([b"]", b"["], "A ]["),
                ([b")", b"["], "A )["),
            ] {
                self.tag_if([before, piece] == two, tag);
            }
            if is_literal(piece) {
                self.tags.extend(literal_tags(piece));
            }
        }
    }

    /// Notes what an expression in an A code that is shown is made of.
    fn shape(&mut self, expression: &Expression, code: &[u8]) {
        let is_operation = |part: &Expression| matches!(part, Expression::Operation(..));
        let is_part = |part: &Expression| matches!(part, Expression::Extract(..));
        match expression {
            Expression::Attribute(load, spelling) => {
                self.tags.extend(attribute_tags(*load, spelling));
            }
            Expression::Literal(..) => {}
            Expression::Operation(operation, left, right) => {
                let remainder = spelling(*operation) == "R";
                let inside = is_operation(left) || is_operation(right);
                self.tag_if(remainder && inside, "A operator in R(");
                let behind = !remainder && is_part(right);
                self.tag_if(behind, "A [ behind a right operand");
                let product = spelling(*operation) == "*" && is(left, "+");
                self.tag_if(product && !code.contains(&b'('), "A + before * by itself");
            }
            Expression::Extract(whole, start, length) => {
                self.tag_if(is_operation(start), "A operator in a start");
                self.tag_if(is_operation(length), "A operator in a length");
                self.tag_if(is_part(start), "A [ in a start");
                self.tag_if(is(whole, "R"), "A [ behind R()");
                self.tag_if(is(whole, "+"), "A [ behind (+)");
            }
        }
    }
}

/// Whether an expression is an operation that is spelt so.
fn is(expression: &Expression, sign: &str) -> bool {
    match expression {
        Expression::Operation(operation, ..) => spelling(*operation) == sign,
        _ => false,
    }
}

/// Whether one byte more of output would do.
fn is_one_short(call: &AlgebraCall) -> bool {
    let longer = AlgebraCall {
        output_length: call.output_length + 1,
        ..call.clone()
    };
    longer.run(&PAPER, &mut Buffers::default()).refusal == 0
}

/// What an attribute and its spelling have in them.
fn attribute_tags(load: Load, spelling: &[u8]) -> Vec<&'static str> {
    let digits = spelling.iter().filter(|byte| byte.is_ascii_digit()).count();
    let mut tags = vec![match load.which {
        _ if load.attribute == 0 => "A 0",
        Which::Same => "A n",
        Which::FirstValue => "A nR",
        Which::First => "A nRR",
    }];
    if digits == 3 {
        tags.push("A n of 3 digits");
    }
    if digits > 1 && spelling[0] == b'0' {
        tags.push("A zero before n");
    }
    tags
}

/// What a literal, with its quotes, has in it.
fn literal_tags(literal: &[u8]) -> Vec<&'static str> {
    let bytes = &literal[1..literal.len() - 1];
    let (quotes, other) = match literal[0] {
        b'\'' => ("A literal in single quotes", b'"'),
        _ => ("A literal in double quotes", b'\''),
    };
    let mut tags = vec![quotes];
    if bytes.is_empty() {
        tags.push("A empty literal");
    }
    for (byte, tag) in [
        (other, "A literal with a quote"),
        (b';', "A literal with ;"),
        (b')', "A literal with )"),
        (b',', "A literal with ,"),
        (b']', "A literal with ]"),
        (b' ', "A literal with a blank"),
    ] {
        if bytes.contains(&byte) {
            tags.push(tag);
        }
    }
    tags
}
