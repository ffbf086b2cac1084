//! The steps of a code string: every code letter, every elm, every mask option;
//! and the stack that they take.

use sundewfrill_host::paper::grammar::{
    self, CharacterCode, Conversion, Credit, Cut, DateForm, Elm, Fill, Group, LengthCode, Mask,
    Side,
};
use sundewfrill_host::paper::{STACK_DEPTH, VALUE_MARK};

use super::patterns::{pattern_tags, PATTERNS};
use super::Coverage;

impl Coverage {
    /// Notes all steps of an accepted code string.
    pub fn steps(&mut self, string: &[u8]) {
        if string.is_empty() {
            self.tags.insert("no codes");
            return;
        }
        for code in string.split(|&byte| byte == VALUE_MARK) {
            match grammar::elms(code) {
                Ok(Some(elms)) => self.function(elms),
                _ => {
                    let codes = grammar::read(code).expect("the string was accepted");
                    for parsed in codes {
                        if let grammar::Code::Conversion(conversion) = parsed {
                            self.tags.extend(code_tags(&conversion, code));
                        }
                    }
                }
            }
        }
    }

    fn function(&mut self, mut elms: grammar::Elms) {
        loop {
            let before = elms.rest();
            match elms.next() {
                Some(Ok(elm)) => {
                    // Without the `;` in front of it.
                    let text = &before[1..before.len() - elms.rest().len()];
                    self.tags.insert(elm_tag(&elm, text[0]));
                    if let Elm::Convert(conversion) = &elm {
                        let code = &text[1..text.len() - 1];
                        self.tags.extend(code_tags(conversion, code));
                    }
                }
                _ => break,
            }
        }
    }
}

/// How many entries the F codes of a string hold at most, if it is in the
/// grammar, counted up to the first that is one too many; `None` if an elm takes
/// more than are there.
pub fn deepest(string: &[u8]) -> Option<usize> {
    let mut deepest = 0;
    for code in string.split(|&byte| byte == VALUE_MARK) {
        let mut depth: usize = 0;
        for elm in grammar::elms(code).ok().flatten().into_iter().flatten() {
            let (takes, puts) = grammar::entries(&elm.ok()?);
            depth = depth.checked_sub(takes)? + puts;
            deepest = deepest.max(depth);
            if depth > STACK_DEPTH {
                return Some(depth);
            }
        }
    }
    Some(deepest)
}

/// What an elm is; `first` is its first byte.
fn elm_tag(elm: &Elm, first: u8) -> &'static str {
    use grammar::{Operator, Relation, Which};
    match elm {
        Elm::Load(load) if load.attribute == 0 => "elm 0",
        Elm::Load(load) => match load.which {
            Which::Same => "elm n",
            Which::FirstValue => "elm nR",
            Which::First => "elm nRR",
        },
        Elm::Literal(_) if first == b'"' => "elm in double quotes",
        Elm::Literal(_) => "elm in single quotes",
        Elm::Previous => "elm LPV",
        Elm::Arithmetic(operator) => match operator {
            Operator::Multiply(None) => "elm *",
            Operator::Multiply(Some(digit)) => TIMES[usize::from(*digit)],
            Operator::Divide => "elm /",
            Operator::Remainder => "elm R",
            Operator::Add => "elm +",
            Operator::Subtract => "elm -",
        },
        Elm::Relation(relation) => match relation {
            Relation::Equal => "elm =",
            Relation::Unequal => "elm #",
            Relation::Greater => "elm >",
            Relation::Less => "elm <",
            Relation::GreaterOrEqual => "elm ]",
            Relation::LessOrEqual => "elm [",
        },
        Elm::Join => "elm :",
        Elm::Extract => "elm []",
        Elm::Exchange => "elm _",
        Elm::Duplicate => "elm P",
        Elm::Convert(conversion) => match conversion {
            Conversion::Group(_) => "elm (G)",
            Conversion::Cut(_) => "elm (T)",
            Conversion::Length(_) => "elm (L)",
            Conversion::Characters(_) => "elm (MC)",
            Conversion::ToHex => "elm (MX)",
            Conversion::FromHex => "elm (MY)",
            Conversion::Mask(_) => "elm (ML) or (MR)",
            Conversion::Date(_) => "elm (D)",
            Conversion::Pattern(_) => "elm (P)",
        },
    }
}

/// What a code other than F has in it, and in its text.
fn code_tags(conversion: &Conversion, text: &[u8]) -> Vec<&'static str> {
    match conversion {
        Conversion::Group(Group { skip: None, .. }) => vec!["G without skip"],
        Conversion::Group(Group { skip: Some(_), .. }) => vec!["G with skip"],
        Conversion::Cut(Cut { start: None, .. }) => vec!["Tn"],
        Conversion::Cut(Cut { start: Some(_), .. }) => vec!["Tm,n"],
        Conversion::Length(LengthCode::Give) => vec!["L"],
        Conversion::Length(LengthCode::AtMost(_)) => vec!["Ln"],
        Conversion::Length(LengthCode::Between(..)) => vec!["Ln,m"],
        Conversion::Characters(code) => vec![match code {
            CharacterCode::Letters => "MCA",
            CharacterCode::NoLetters => "MC/A",
            CharacterCode::Digits => "MCN",
            CharacterCode::NoDigits => "MC/N",
            CharacterCode::Upper => "MCU",
            CharacterCode::Lower => "MCL",
            CharacterCode::Title => "MCT",
        }],
        Conversion::ToHex => vec!["MX"],
        Conversion::FromHex => vec!["MY"],
        Conversion::Mask(mask) => mask_tags(*mask),
        Conversion::Date(form) => date_tags(*form),
        Conversion::Pattern(_) => pattern_tags(text),
    }
}

fn date_tags(form: DateForm) -> Vec<&'static str> {
    let digits = form
        .year_digits
        .map_or("D without n", |digits| DATES[usize::from(digits)]);
    let separator = form.separator.map_or("D without s", |_| "D with s");
    vec![digits, separator]
}

fn mask_tags(mask: Mask) -> Vec<&'static str> {
    let mut tags = vec![
        match mask.side {
            Side::Left => "ML",
            Side::Right => "MR",
        },
        mask.decimals
            .map_or("mask without n", |digit| DECIMALS[usize::from(digit)]),
        mask.scale
            .map_or("mask without m", |digit| SCALES[usize::from(digit)]),
        match mask.credit {
            None => "mask without credit",
            Some(Credit::Cr) => "mask C",
            Some(Credit::Db) => "mask D",
            Some(Credit::Brackets) => "mask E",
            Some(Credit::Minus) => "mask M",
            Some(Credit::Nothing) => "mask N",
        },
        match mask.field.map(|field| field.fill) {
            None => "mask without fill",
            Some(Fill::Blanks) => "mask #",
            Some(Fill::Asterisks) => "mask *",
            Some(Fill::Zeros) => "mask %",
        },
    ];
    let flags = [
        (mask.zero_as_empty, "mask Z"),
        (mask.commas, "mask ,"),
        (mask.dollar, "mask $"),
    ];
    tags.extend(flags.iter().filter(|flag| flag.0).map(|flag| flag.1));
    tags
}

const TIMES: [&str; 10] = [
    "elm *0", "elm *1", "elm *2", "elm *3", "elm *4", "elm *5", "elm *6", "elm *7", "elm *8",
    "elm *9",
];
const DECIMALS: [&str; 10] = [
    "mask n 0", "mask n 1", "mask n 2", "mask n 3", "mask n 4", "mask n 5", "mask n 6", "mask n 7",
    "mask n 8", "mask n 9",
];
const SCALES: [&str; 10] = [
    "mask m 0", "mask m 1", "mask m 2", "mask m 3", "mask m 4", "mask m 5", "mask m 6", "mask m 7",
    "mask m 8", "mask m 9",
];
const DATES: [&str; 5] = ["D0", "D1", "D2", "D3", "D4"];

/// Every kind of step that an accepted string can have.
pub const STEPS: [&[&str]; 7] = [&TIMES, &DECIMALS, &SCALES, &DATES, &PATTERNS, &ELMS, &CODES];

const ELMS: [&str; 32] = [
    "elm 0", "elm n", "elm nR", "elm nRR", "elm in single quotes", "elm in double quotes",
    "elm LPV", "elm *", "elm /", "elm R", "elm +", "elm -", "elm :", "elm []", "elm _", "elm P",
    "elm =", "elm #", "elm >", "elm <", "elm ]", "elm [", "elm (G)", "elm (T)", "elm (L)",
    "elm (MC)", "elm (MX)", "elm (MY)", "elm (ML) or (MR)", "elm (D)", "elm (P)", "no codes",
];
const CODES: [&str; 36] = [
    "G without skip", "G with skip", "Tn", "Tm,n", "L", "Ln", "Ln,m", "MCA", "MC/A", "MCN", "MC/N",
    "MCU", "MCL", "MCT", "MX", "MY", "ML", "MR", "mask without n", "mask without m", "mask Z",
    "mask ,", "mask without credit", "mask C", "mask D", "mask E", "mask M", "mask N", "mask $",
    "mask without fill", "mask #", "mask *", "mask %", "D without n", "D without s", "D with s",
];
