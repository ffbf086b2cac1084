//! The code grammar: from a code string to its codes.
//!
//! Codes are read forward, byte by byte, and never cut at a `;` or a `)` first:
//! a literal and the separator of a G code may hold these bytes.

pub use super::calendar::DateForm;
pub use super::mask::{Credit, Field, Fill, Mask, Side};
pub use super::pattern::{Class, Pattern, PatternCode, Test};
pub use super::text::{CharacterCode, Cut, Group, LengthCode};
use super::{CODE_LENGTH, LEAST_MARK, STACK_DEPTH, VALUE_MARK};
use crate::refusal::Refusal;

/// A code.
#[derive(Clone, Debug, PartialEq, Eq)]
pub enum Code<'c> {
    /// An F code.
    Function(Vec<Elm<'c>>),
    /// Any other code.
    Conversion(Conversion<'c>),
}

/// A code other than F.
#[derive(Clone, Debug, PartialEq, Eq)]
pub enum Conversion<'c> {
    /// `G`
    Group(Group),
    /// `T`
    Cut(Cut),
    /// `L`
    Length(LengthCode),
    /// `MC`
    Characters(CharacterCode),
    /// `MX`
    ToHex,
    /// `MY`
    FromHex,
    /// `ML` and `MR`
    Mask(Mask),
    /// `D`
    Date(DateForm),
    /// `P`
    Pattern(PatternCode<'c>),
}

/// An elm of an F code.
#[derive(Clone, Debug, PartialEq, Eq)]
pub enum Elm<'c> {
    /// An attribute load.
    Load(Load),
    /// Bytes in quotes.
    Literal(&'c [u8]),
    /// `LPV`
    Previous,
    /// An operator on two numbers.
    Arithmetic(Operator),
    /// A relation between two entries.
    Relation(Relation),
    /// `:`
    Join,
    /// `[]`
    Extract,
    /// `_`
    Exchange,
    /// `P`
    Duplicate,
    /// A code in parentheses.
    Convert(Conversion<'c>),
}

/// An attribute load.
#[derive(Clone, Copy, Debug, PartialEq, Eq)]
pub struct Load {
    /// The attribute, 0 for the item-id.
    pub attribute: u16,
    /// Which of its elements.
    pub which: Which,
}

/// Which element of an attribute is loaded.
#[derive(Clone, Copy, Debug, PartialEq, Eq)]
pub enum Which {
    /// `n`: the element at the same value and subvalue.
    Same,
    /// `nR`: that of the first value at the same subvalue.
    FirstValue,
    /// `nRR`: the first subvalue of the first value.
    First,
}

/// An operator on two numbers.
#[derive(Clone, Copy, Debug, PartialEq, Eq)]
pub enum Operator {
    /// `*` and a digit, absent if there is none.
    Multiply(Option<u8>),
    /// `/`
    Divide,
    /// `R`
    Remainder,
    /// `+`
    Add,
    /// `-`
    Subtract,
}

/// A relation, read second entry against top.
#[derive(Clone, Copy, Debug, PartialEq, Eq)]
pub enum Relation {
    /// `=`
    Equal,
    /// `#`
    Unequal,
    /// `>`
    Greater,
    /// `<`
    Less,
    /// `]`
    GreaterOrEqual,
    /// `[`
    LessOrEqual,
}

/// How many steps a code string has, and how many tests.
#[derive(Clone, Copy, Debug, Default, PartialEq, Eq)]
pub struct Counts {
    /// A: the attribute loads.
    pub loads: u64,
    /// B: the steps that are neither loads nor P codes.
    pub others: u64,
    /// P: the P codes.
    pub patterns: u64,
    /// T: the tests of all P codes.
    pub tests: u64,
}

impl Counts {
    fn add_elm(&mut self, elm: &Elm) {
        match elm {
            Elm::Load(_) => self.loads += 1,
            Elm::Convert(conversion) => self.add_conversion(conversion),
            _ => self.others += 1,
        }
    }

    fn add_conversion(&mut self, conversion: &Conversion) {
        match conversion {
            Conversion::Pattern(code) => {
                self.patterns += 1;
                self.tests += code.tests() as u64;
            }
            _ => self.others += 1,
        }
    }
}

/// The first bad code of a string.
#[derive(Clone, Copy, Debug, PartialEq, Eq)]
pub struct Bad {
    /// 5, 6, 7 or 18.
    pub refusal: Refusal,
    /// Which code, from 1; 0 for a string that is too long.
    pub number: u64,
}

/// Checks a code string and counts its steps.
pub fn check(string: &[u8]) -> Result<Counts, Bad> {
    let mut counts = Counts::default();
    for_each_code(string, |code| {
        match elms(code)? {
            Some(elms) => checked_elms(elms, |elm| counts.add_elm(&elm))?,
            None => counts.add_conversion(&whole_conversion(code)?),
        }
        Ok(())
    })?;
    Ok(counts)
}

/// Reads a code string into its codes.
pub fn read(string: &[u8]) -> Result<Vec<Code<'_>>, Refusal> {
    let mut codes = Vec::new();
    let read = for_each_code(string, |code| {
        codes.push(match elms(code)? {
            Some(elms) => {
                let mut list = Vec::new();
                checked_elms(elms, |elm| list.push(elm))?;
                Code::Function(list)
            }
            None => Code::Conversion(whole_conversion(code)?),
        });
        Ok(())
    });
    match read {
        Ok(()) => Ok(codes),
        Err(bad) => Err(bad.refusal),
    }
}

/// The form of a date from a string that is exactly one D code: refusals 5
/// and 6.
pub fn date_code(string: &[u8]) -> Result<DateForm, Refusal> {
    if string.len() > CODE_LENGTH {
        return Err(Refusal::CodeTooLong);
    }
    match whole_conversion(string)? {
        Conversion::Date(form) => Ok(form),
        _ => Err(Refusal::NotInGrammar),
    }
}

/// Takes the codes of a string from the left until one is bad.
fn for_each_code<'c>(
    string: &'c [u8],
    mut take: impl FnMut(&'c [u8]) -> Result<(), Refusal>,
) -> Result<(), Bad> {
    if string.len() > CODE_LENGTH {
        return Err(Bad {
            refusal: Refusal::CodeTooLong,
            number: 0,
        });
    }
    if string.is_empty() {
        return Ok(());
    }
    for (code, number) in string.split(|&byte| byte == VALUE_MARK).zip(1..) {
        take(code).map_err(|refusal| Bad { refusal, number })?;
    }
    Ok(())
}

/// The elms of an F code; `None` if the code is no F code.
pub fn elms(code: &[u8]) -> Result<Option<Elms<'_>>, Refusal> {
    if code.iter().any(|&byte| byte >= LEAST_MARK) {
        return Err(Refusal::NotInGrammar);
    }
    match code {
        [b'F', rest @ ..] if rest.first() == Some(&b';') => Ok(Some(Elms {
            reader: Reader { rest },
        })),
        [b'F', ..] => Err(Refusal::NotInGrammar),
        _ => Ok(None),
    }
}

/// Hands out the elms of an F code that is in the grammar (else refusal 6), keeps to
/// the stack (else refusal 7) and ends with exactly one entry (else refusal 18).
fn checked_elms<'c>(elms: Elms<'c>, mut take: impl FnMut(Elm<'c>)) -> Result<(), Refusal> {
    let mut depth = Some(0);
    for elm in elms {
        let elm = elm?;
        depth = depth.and_then(|depth| depth_after(depth, &elm));
        take(elm);
    }
    // Each refusal is tried on the whole code before the next: only a code that was
    // read to its end can misuse the stack, and only one that never did can leave
    // entries over.
    match depth {
        Some(1) => Ok(()),
        Some(_) => Err(Refusal::EntriesLeftOver),
        None => Err(Refusal::StackMisused),
    }
}

/// How many entries an elm takes and puts.
pub fn entries(elm: &Elm) -> (usize, usize) {
    match elm {
        Elm::Load(_) | Elm::Literal(_) | Elm::Previous => (0, 1),
        Elm::Arithmetic(_) | Elm::Relation(_) | Elm::Join => (2, 1),
        Elm::Extract => (3, 1),
        Elm::Exchange => (2, 2),
        Elm::Duplicate => (1, 2),
        Elm::Convert(_) => (1, 1),
    }
}

/// How many entries the stack has after an elm, if it may be carried out.
fn depth_after(depth: usize, elm: &Elm) -> Option<usize> {
    let (takes, puts) = entries(elm);
    let after = depth.checked_sub(takes)? + puts;
    (after <= STACK_DEPTH).then_some(after)
}

/// The elms of an F code, read one by one; a refusal ends them.
pub struct Elms<'c> {
    reader: Reader<'c>,
}

impl<'c> Elms<'c> {
    /// The bytes of the code that were not read yet.
    pub fn rest(&self) -> &'c [u8] {
        self.reader.rest
    }
}

impl<'c> Iterator for Elms<'c> {
    type Item = Result<Elm<'c>, Refusal>;

    fn next(&mut self) -> Option<Self::Item> {
        if self.reader.at_end() {
            return None;
        }
        let semicolon = self.reader.eat(b';');
        match semicolon.then(|| elm(&mut self.reader)).flatten() {
            Some(elm) => Some(Ok(elm)),
            None => {
                self.reader.rest = &[];
                Some(Err(Refusal::NotInGrammar))
            }
        }
    }
}

/// Reads one elm; `None` if there is none in the grammar.
fn elm<'c>(reader: &mut Reader<'c>) -> Option<Elm<'c>> {
    Some(match reader.peek()? {
        b'0'..=b'9' => Elm::Load(load(reader)?),
        b'\'' | b'"' => Elm::Literal(literal(reader)?),
        b'(' => Elm::Convert(in_parentheses(reader)?),
        b'L' => reader.eat_all(b"LPV").then_some(Elm::Previous)?,
        b'*' => Elm::Arithmetic(multiply(reader)),
        _ => sign(reader)?,
    })
}

/// Reads an attribute load: 1 to 3 digits, then nothing, `R` or `RR`.
pub(super) fn load(reader: &mut Reader) -> Option<Load> {
    let attribute = reader.number(3)?;
    let which = match (reader.eat(b'R'), reader.eat(b'R')) {
        (false, _) => Which::Same,
        (true, false) => Which::FirstValue,
        (true, true) => Which::First,
    };
    Some(Load { attribute, which })
}

/// Reads a literal and gives its bytes without the quotes.
pub(super) fn literal<'c>(reader: &mut Reader<'c>) -> Option<&'c [u8]> {
    let quote = reader.next()?;
    let length = reader.rest.iter().position(|&byte| byte == quote)?;
    let literal = &reader.rest[..length];
    reader.rest = &reader.rest[length + 1..];
    Some(literal)
}

fn in_parentheses<'c>(reader: &mut Reader<'c>) -> Option<Conversion<'c>> {
    reader.next()?;
    let conversion = conversion(reader)?;
    reader.eat(b')').then_some(conversion)
}

fn multiply(reader: &mut Reader) -> Operator {
    reader.next();
    Operator::Multiply(reader.digit())
}

/// An elm of one sign, or `[]`.
fn sign<'c>(reader: &mut Reader<'c>) -> Option<Elm<'c>> {
    Some(match reader.next()? {
        b'/' => Elm::Arithmetic(Operator::Divide),
        b'R' => Elm::Arithmetic(Operator::Remainder),
        b'+' => Elm::Arithmetic(Operator::Add),
        b'-' => Elm::Arithmetic(Operator::Subtract),
        b':' => Elm::Join,
        b'_' => Elm::Exchange,
        b'P' => Elm::Duplicate,
        b'[' if reader.eat(b']') => Elm::Extract,
        b'[' => Elm::Relation(Relation::LessOrEqual),
        b']' => Elm::Relation(Relation::GreaterOrEqual),
        b'=' => Elm::Relation(Relation::Equal),
        b'#' => Elm::Relation(Relation::Unequal),
        b'>' => Elm::Relation(Relation::Greater),
        b'<' => Elm::Relation(Relation::Less),
        _ => return None,
    })
}

/// The conversion that is the whole of `code`, else refusal 6.
fn whole_conversion(code: &[u8]) -> Result<Conversion<'_>, Refusal> {
    let mut reader = Reader { rest: code };
    match conversion(&mut reader) {
        Some(conversion) if reader.at_end() => Ok(conversion),
        _ => Err(Refusal::NotInGrammar),
    }
}

/// Reads a code other than F; `None` if there is none in the grammar.
fn conversion<'c>(reader: &mut Reader<'c>) -> Option<Conversion<'c>> {
    Some(match reader.next()? {
        b'P' => Conversion::Pattern(pattern_code(reader)?),
        b'G' => Conversion::Group(group(reader)?),
        b'T' => Conversion::Cut(cut(reader)?),
        b'L' => Conversion::Length(length_code(reader)?),
        b'D' => Conversion::Date(date_form(reader)),
        b'M' => match reader.next()? {
            b'C' => Conversion::Characters(character_code(reader)?),
            b'X' => Conversion::ToHex,
            b'Y' => Conversion::FromHex,
            b'L' => Conversion::Mask(mask(Side::Left, reader)?),
            b'R' => Conversion::Mask(mask(Side::Right, reader)?),
            _ => return None,
        },
        _ => return None,
    })
}

/// Reads patterns for as long as a `;` announces another one. Behind the last
/// one anything may stand: it is no longer the code's.
fn pattern_code<'c>(reader: &mut Reader<'c>) -> Option<PatternCode<'c>> {
    let mut patterns = vec![pattern(reader)?];
    while reader.eat(b';') {
        patterns.push(pattern(reader)?);
    }
    Some(PatternCode { patterns })
}

fn pattern<'c>(reader: &mut Reader<'c>) -> Option<Pattern<'c>> {
    reader.eat(b'(').then_some(())?;
    let mut tests = vec![test(reader)?];
    while !reader.eat(b')') {
        tests.push(test(reader)?);
    }
    Some(Pattern { tests })
}

fn test<'c>(reader: &mut Reader<'c>) -> Option<Test<'c>> {
    if matches!(reader.peek()?, b'\'' | b'"') {
        return Some(Test::Literal(literal(reader)?));
    }
    let count = usize::from(reader.number(3)?);
    let class = match reader.next()? {
        b'N' => Class::Numeric,
        b'A' => Class::Alphabetic,
        b'X' => Class::Any,
        _ => return None,
    };
    Some(match count {
        0 => Test::AnyNumber(class),
        _ => Test::Exactly(count, class),
    })
}

fn group(reader: &mut Reader) -> Option<Group> {
    let skip = reader.num();
    let separator = reader.eat_if(|byte| !byte.is_ascii_digit() && byte < LEAST_MARK)?;
    let take = reader.num()?;
    (take >= 1).then_some(Group {
        skip,
        separator,
        take,
    })
}

fn cut(reader: &mut Reader) -> Option<Cut> {
    let first = reader.num()?;
    if !reader.eat(b',') {
        return Some(Cut {
            start: None,
            length: first,
        });
    }
    let length = reader.num()?;
    (first >= 1).then_some(Cut {
        start: Some(first),
        length,
    })
}

fn length_code(reader: &mut Reader) -> Option<LengthCode> {
    let Some(first) = reader.num() else {
        return Some(LengthCode::Give);
    };
    if !reader.eat(b',') {
        return Some(LengthCode::AtMost(first));
    }
    Some(LengthCode::Between(first, reader.num()?))
}

fn character_code(reader: &mut Reader) -> Option<CharacterCode> {
    Some(match reader.next()? {
        b'/' => match reader.next()? {
            b'A' => CharacterCode::NoLetters,
            b'N' => CharacterCode::NoDigits,
            _ => return None,
        },
        b'A' => CharacterCode::Letters,
        b'N' => CharacterCode::Digits,
        b'U' => CharacterCode::Upper,
        b'L' => CharacterCode::Lower,
        b'T' => CharacterCode::Title,
        _ => return None,
    })
}

fn mask(side: Side, reader: &mut Reader) -> Option<Mask> {
    let decimals = reader.digit();
    let scale = decimals.and_then(|_| reader.digit());
    Some(Mask {
        side,
        decimals,
        scale,
        zero_as_empty: reader.eat(b'Z'),
        commas: reader.eat(b','),
        credit: credit(reader),
        dollar: reader.eat(b'$'),
        field: match reader.eat(b'(') {
            true => Some(field(reader)?),
            false => None,
        },
    })
}

fn credit(reader: &mut Reader) -> Option<Credit> {
    let credit = match reader.peek()? {
        b'C' => Credit::Cr,
        b'D' => Credit::Db,
        b'E' => Credit::Brackets,
        b'M' => Credit::Minus,
        b'N' => Credit::Nothing,
        _ => return None,
    };
    reader.next();
    Some(credit)
}

/// The field of a mask, read from behind its parenthesis.
fn field(reader: &mut Reader) -> Option<Field> {
    let fill = match reader.next()? {
        b'#' => Fill::Blanks,
        b'*' => Fill::Asterisks,
        b'%' => Fill::Zeros,
        _ => return None,
    };
    let width = reader.num()?;
    let good = reader.eat(b')') && (1..=99).contains(&width);
    good.then_some(Field {
        fill,
        width: width as u8,
    })
}

fn date_form(reader: &mut Reader) -> DateForm {
    let year_digits = reader.eat_if(|byte| matches!(byte, b'0'..=b'4'));
    DateForm {
        year_digits: year_digits.map(|digit| digit - b'0'),
        separator: reader.eat_if(is_date_separator),
    }
}

fn is_date_separator(byte: u8) -> bool {
    matches!(byte, b' '..=b'~')
        && !byte.is_ascii_alphanumeric()
        && !matches!(byte, b'(' | b')' | b';')
}

/// What is still to be read of a code.
#[derive(Clone, Copy)]
pub(super) struct Reader<'c> {
    /// The bytes that were not read yet.
    pub(super) rest: &'c [u8],
}

impl Reader<'_> {
    pub(super) fn at_end(&self) -> bool {
        self.rest.is_empty()
    }

    /// The next byte, left where it is.
    pub(super) fn peek(&self) -> Option<u8> {
        self.rest.first().copied()
    }

    /// The next byte, whatever it is.
    pub(super) fn next(&mut self) -> Option<u8> {
        self.eat_if(|_| true)
    }

    /// The next byte, if it is wanted.
    fn eat_if(&mut self, wanted: impl Fn(u8) -> bool) -> Option<u8> {
        let (&byte, rest) = self.rest.split_first()?;
        wanted(byte).then(|| {
            self.rest = rest;
            byte
        })
    }

    /// Reads this byte, if it comes next.
    pub(super) fn eat(&mut self, byte: u8) -> bool {
        self.eat_if(|next| next == byte).is_some()
    }

    /// Reads these bytes, if they come next.
    pub(super) fn eat_all(&mut self, bytes: &[u8]) -> bool {
        let rest = self.rest.strip_prefix(bytes);
        self.rest = rest.unwrap_or(self.rest);
        rest.is_some()
    }

    /// A digit, if one comes next.
    fn digit(&mut self) -> Option<u8> {
        self.eat_if(|byte| byte.is_ascii_digit())
            .map(|digit| digit - b'0')
    }

    /// The paper's num: 1 to 4 digits.
    fn num(&mut self) -> Option<u16> {
        self.number(4)
    }

    /// A number of 1 to `most` digits, as many as come.
    fn number(&mut self, most: usize) -> Option<u16> {
        let mut value = u16::from(self.digit()?);
        for _ in 1..most {
            let Some(digit) = self.digit() else {
                break;
            };
            value = value * 10 + u16::from(digit);
        }
        Some(value)
    }
}

#[cfg(test)]
mod tests {
    use super::*;

    fn refusal(code: &str) -> u64 {
        check(code.as_bytes()).map_or_else(|bad| bad.refusal.number(), |_| 0)
    }

    #[test]
    fn in_the_grammar() {
        for code in [
            "F;1;(G1;1)", "F;1;(G)1)", "F;1;(G(1)", "F;';)'", "F;\"'\"", "F;''", "F;0RR", "F;999",
            "T0", "T1,0", "L", "L5,3", "G0*1", "G*1", "F;1;2;*0", "D", "D ", "D4'", "D0/",
            "MR2(#0099)", "ML", "MR99Z,N$(%1)", "MRZ", "MR,", "MR$", "ML(*5)", "F;1;(MR2(#4))",
            "F;1;P;[", "F;1;P;P;[]", "P(3N)", "P(1N2A3X)", "P(\"it's\")", "P(')')", "P('')",
            "P('(;')", "P(1N);(2A'-'0X)", "P('a''b')", "P(0N00A000X)", "P(999N)",
            "F;1;(P(1N);(2A))", "F;1;(P(1N));(L)", "F;1;(P(');('))", "F;1;P;+",
        ] {
            assert_eq!(refusal(code), 0, "{code}");
        }
    }

    #[test]
    fn outside_the_grammar() {
        for code in [
            "F", "F;", "F1", "F;;1", "F;1;", "F;1RRR", "F;1000", "F;(F;1)", "F;1;()", "F;1;(T1",
            "F;1;+;ZZ", "F;'x", "FS;1", "T", "T,3", "T0,3", "T1,", "T12345", "L,3", "L1,", "G1*",
            "G1*0", "G11", "D5", "D44", "D(", "D;", "Da", "MC", "MC/U", "MCD", "MT", "MX1",
            "MR123", "MR,Z", "MR(#00)", "MR(#100)", "MR(#00099)", "MR(#)", "MR(x4)", "MR(#4", "A1",
            " L", "L ", "F;1;*10", "F;LP", "P", "P()", "P(N)", "P(1)", "P(1n)", "P(1a)", "P(1x)",
            "P(1234N)", "P(0000N)", "P(1N)(2A)", "P(1N);", "P(1N);;(2A)", "P(1N;2A)", "P(1N,2A)",
            "P(1N 2A)", "P;(1N)", "P(\"a')", "P('a)", "P(1N", "P(1N))", "P(1N)x", "P 1N", "p(1N)",
            "P('a'b)", "P(-1N)", "F;1;(P)", "F;1;P(1N)", "F;1;(P(1N));(2A)", "F;1;(P(1N);(L))",
            "F;1;(P(1N)", "F;1;(P(1N);)",
        ] {
            assert_eq!(refusal(code), 6, "{code}");
        }
    }

    #[test]
    fn patterns_and_tests() {
        for (code, loads, others, patterns, tests) in [
            ("P(1N);(2A'-'0X)", 0, 0, 1, 4),
            ("F;1;(P(1N);(2A))", 1, 0, 1, 2),
            ("F;1;(P(1N));(L);P;(P(''\"\"));:", 1, 3, 2, 3),
            ("F;1;P;+", 1, 2, 0, 0),
        ] {
            let counts = Counts {
                loads,
                others,
                patterns,
                tests,
            };
            assert_eq!(check(code.as_bytes()), Ok(counts), "{code}");
        }
        // As many tests as a string has room for.
        let most = format!("P({})", "1N".repeat(254));
        assert_eq!(check(most.as_bytes()).map(|counts| counts.tests), Ok(254));
        assert_eq!(refusal(&format!("P({})", "1N".repeat(255))), 5);
    }

    #[test]
    fn stack_rules() {
        for code in [
            "F;+", "F;1;+", "F;1;_", "F;P", "F;(L)", "F;1;2;[]", "F;1;+;2;2;2", "F;1;2;3;[];+",
        ] {
            assert_eq!(refusal(code), 7, "{code}");
        }
        assert_eq!(refusal(&format!("F{}", ";'1'".repeat(17))), 7);
        assert_eq!(refusal(&format!("F{};P", ";'1'".repeat(16))), 7);
    }

    #[test]
    fn entries_left_over() {
        for code in [
            "F;1;2", "F;1;2;3;+", "F;1;P", "F;1;2;_", "F;1;2;(L)", "F;LPV;''", "F;1;P;P;[];P",
        ] {
            assert_eq!(refusal(code), 18, "{code}");
        }
        assert_eq!(refusal("F;1;2;ZZ"), 6);
        for literals in 1..=16 {
            let code = format!("F{}", ";'1'".repeat(literals));
            let joins = ";:".repeat(literals - 1);
            assert_eq!(refusal(&code), if literals == 1 { 0 } else { 18 }, "{code}");
            assert_eq!(refusal(&[code, joins].concat()), 0, "{literals}");
        }
    }

    /// The first bad code decides, whatever is wrong with those behind it.
    #[test]
    fn first_bad_code() {
        for (codes, number, refusal) in [
            (["F;1;2", "ZZ", "F;+"], 1, 18),
            (["L", "F;1;2", "ZZ"], 2, 18),
            (["F;1", "F;1;2;+", "F;1;2"], 3, 18),
            (["F;+", "F;1;2", "ZZ"], 1, 7),
            (["L", "ZZ", "F;1;2"], 2, 6),
        ] {
            let bad = check(&codes.map(str::as_bytes).join(&VALUE_MARK)).expect_err("a bad code");
            assert_eq!(
                (bad.number, bad.refusal.number()),
                (number, refusal),
                "{codes:?}"
            );
        }
    }
}
