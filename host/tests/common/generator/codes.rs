//! Code strings: by the grammar, then sometimes damaged.

use super::elements::{self, Kind};
use super::{patterns, Rng};
use sundewfrill_host::paper::{CODE_LENGTH, STACK_DEPTH, VALUE_MARK};

/// A code string and the kind of elements that suits its first code.
pub fn string(rng: &mut Rng) -> (Vec<u8>, Kind) {
    if rng.one_in(50) {
        return (patterns::near_miss(rng), Kind::Text);
    }
    let count = match rng.below(40) {
        0 => 0,
        1..=28 => 1,
        29..=34 => 2,
        35..=38 => rng.below(4) + 1,
        _ => rng.below(60) + 1,
    };
    let mut string = Vec::new();
    let mut kind = Kind::Any;
    for number in 0..count {
        let (code, suits) = code(rng);
        if number == 0 {
            kind = suits;
        } else {
            string.push(VALUE_MARK);
        }
        string.extend(code);
    }
    if rng.one_in(60) {
        stretch(rng, &mut string);
    }
    if rng.one_in(8) {
        rng.damage(&mut string, damaged_byte);
    }
    (string, kind)
}

fn damaged_byte(rng: &mut Rng) -> u8 {
    match rng.below(8) {
        0 => rng.between(251, 255) as u8,
        1 => rng.next() as u8,
        _ => *rng.pick(b"F;GTLDMRCAXYUNZEP0123456789'\"()[]<>=#+-*/:_,$%/ VSW"),
    }
}

/// Puts an F code in front that brings the string to about its greatest length.
fn stretch(rng: &mut Rng, string: &mut Vec<u8>) {
    let target = match rng.one_in(30) {
        true => 65_536 + rng.below(600) as usize,
        false => *rng.pick(&[511, 512, 512, 513, 514, 600]),
    };
    let mut front = b"F;'".to_vec();
    let rest = string.len() + 2;
    front.resize(target.max(rest + 3) - rest, *rng.pick(b"7aA"));
    front.extend_from_slice(b"'\xfd");
    if string.is_empty() {
        front.pop();
        front.insert(3, b'7');
    }
    front.append(string);
    *string = front;
}

fn code(rng: &mut Rng) -> (Vec<u8>, Kind) {
    match rng.below(30) {
        0 => patterns::function(rng),
        1 if rng.one_in(4) => rounding_function(rng),
        1..=9 if rng.one_in(3) => (function(rng), Kind::Any),
        1..=9 => (function(rng), Kind::Number),
        _ => conversion(rng),
    }
}

/// An F code; mostly one that keeps to its stack and ends with one entry.
fn function(rng: &mut Rng) -> Vec<u8> {
    let (mut function, depth) = opened(rng);
    let entries = match rng.below(50) {
        0..=2 => 2,
        3 => rng.between(3, 14) as usize,
        4 => STACK_DEPTH - 1,
        5 | 6 => STACK_DEPTH,
        7 => STACK_DEPTH + 1,
        _ => 1,
    };
    end_with(rng, &mut function, depth, entries);
    function
}

/// An F code that is not brought to its end yet, and the entries that it holds there.
fn opened(rng: &mut Rng) -> (Vec<u8>, usize) {
    let careful = !rng.one_in(12);
    let eager = rng.one_in(12);
    let elms = match rng.below(12) {
        // About as many as the stack holds.
        _ if eager && rng.one_in(2) => rng.between(14, 17),
        0 => rng.below(60),
        1..=4 => rng.below(3),
        _ => rng.below(12),
    };
    let mut function = vec![b'F'];
    let mut depth = 0;
    for _ in 0..=elms {
        let (text, takes, puts) = loop {
            let elm = if eager && !rng.one_in(8) {
                operand(rng)
            } else {
                elm(rng)
            };
            let fits = elm.1 <= depth && depth - elm.1 + elm.2 <= STACK_DEPTH;
            // At the rim of the stack one step too far is let through at times.
            if fits || !careful || (eager && depth == STACK_DEPTH && rng.one_in(20)) {
                break elm;
            }
        };
        // An operator for each entry must still have room behind it.
        if function.len() + text.len() + 2 * depth > CODE_LENGTH {
            break;
        }
        depth = (depth.max(takes) - takes + puts).min(STACK_DEPTH);
        function.push(b';');
        function.extend(text);
    }
    (function, depth)
}

/// Brings an F code of `depth` entries to so many, by operators or by more operands.
fn end_with(rng: &mut Rng, function: &mut Vec<u8>, mut depth: usize, entries: usize) {
    while depth > entries {
        let (sign, fewer) = match rng.below(12) {
            0 if depth >= entries + 2 => ("[]", 2),
            0 | 1 => (*rng.pick(&["=", "#", ">", "<", "]", "["]), 1),
            2 | 3 => (*rng.pick(&["+", "-", "*", "/", "R"]), 1),
            _ => (":", 1),
        };
        depth -= fewer;
        function.push(b';');
        function.extend_from_slice(sign.as_bytes());
    }
    for _ in depth..entries {
        let operand = *rng.pick(&["1", "LPV", "''", "'x'", "\"7\"", "P", "2R"]);
        function.push(b';');
        function.extend_from_slice(operand.as_bytes());
    }
}

/// An elm with the entries that it takes and puts.
type StackElm = (Vec<u8>, usize, usize);

fn elm(rng: &mut Rng) -> StackElm {
    let one = |sign: &[u8], takes, puts| (sign.to_vec(), takes, puts);
    match rng.below(24) {
        0..=7 => operand(rng),
        8 => one(b"+", 2, 1),
        9 => one(b"-", 2, 1),
        10 => one(b"/", 2, 1),
        11 => one(b"R", 2, 1),
        12 => one(b"*", 2, 1),
        13 => (format!("*{}", rng.below(10)).into_bytes(), 2, 1),
        14 => one(b":", 2, 1),
        15 => one(b"[]", 3, 1),
        16 => one(b"_", 2, 2),
        17 => one(b"P", 1, 2),
        18..=20 => (vec![*rng.pick(b"=#><][")], 2, 1),
        _ => {
            let (code, _) = conversion(rng);
            ([b"(", code.as_slice(), b")"].concat(), 1, 1)
        }
    }
}

/// An elm that only puts: a load, a literal or LPV.
fn operand(rng: &mut Rng) -> StackElm {
    let text = match rng.below(8) {
        0..=2 => load(rng),
        3 => b"LPV".to_vec(),
        _ => literal(rng),
    };
    (text, 0, 1)
}

/// An attribute load.
pub fn load(rng: &mut Rng) -> Vec<u8> {
    let attribute = match rng.below(20) {
        0 => "999".to_owned(),
        1 => format!("{:03}", rng.below(5)),
        2 => rng.below(1_000).to_string(),
        _ => rng.below(5).to_string(),
    };
    let suffix = *rng.pick(&["", "", "R", "RR"]);
    format!("{attribute}{suffix}").into_bytes()
}

/// A literal, in either quote.
pub fn literal(rng: &mut Rng) -> Vec<u8> {
    let quote = *rng.pick(b"'\"");
    let mut content = match rng.below(12) {
        0 => Vec::new(),
        1 => b";)".to_vec(),
        2 => elements::element(rng, &Kind::Text),
        3 => elements::element(rng, &Kind::Any),
        4 => vec![b'x'; rng.small(300) as usize],
        _ => elements::blanked_number(rng),
    };
    content.retain(|&byte| byte != quote);
    content.truncate(300);
    [&[quote], content.as_slice(), &[quote]].concat()
}

/// A code other than F and the kind of elements that suits it.
fn conversion(rng: &mut Rng) -> (Vec<u8>, Kind) {
    match rng.below(18) {
        0 | 1 => (group(rng), Kind::Fields),
        2 => (cut(rng), Kind::Text),
        3 => (length_code(rng), Kind::Text),
        4 | 5 => {
            let letters = *rng.pick(&["A", "/A", "N", "/N", "U", "L", "T"]);
            (format!("MC{letters}").into_bytes(), Kind::Text)
        }
        6 if rng.one_in(3) => (b"MX".to_vec(), Kind::Long),
        6 => (b"MX".to_vec(), Kind::Text),
        7 => (b"MY".to_vec(), Kind::Hex),
        8..=11 => (date_code(rng), Kind::Day),
        12 | 13 => patterns::code(rng),
        14 => rounding_mask(rng),
        _ => (mask(rng), Kind::Number),
    }
}

/// The paper's num: 1 to 4 digits, mostly of a small number.
fn num(rng: &mut Rng) -> String {
    match rng.below(20) {
        0 => rng.below(10_000).to_string(),
        1 => format!("{:04}", rng.below(20)),
        2 => rng
            .pick(&["1023", "1024", "1025", "512", "9999", "0"])
            .to_string(),
        3 => rng.below(100_000).to_string(),
        _ => rng.below(12).to_string(),
    }
}

fn group(rng: &mut Rng) -> Vec<u8> {
    let skip = if rng.one_in(2) {
        num(rng)
    } else {
        String::new()
    };
    let separator = match rng.below(20) {
        0 => rng.next() as u8,
        _ => *rng.pick(b"*-/. ;,)('\"A"),
    };
    let take = if rng.one_in(3) {
        num(rng)
    } else {
        rng.between(1, 4).to_string()
    };
    [b"G", skip.as_bytes(), &[separator], take.as_bytes()].concat()
}

fn cut(rng: &mut Rng) -> Vec<u8> {
    match rng.one_in(2) {
        true => format!("T{}", num(rng)).into_bytes(),
        false => format!("T{},{}", num(rng), num(rng)).into_bytes(),
    }
}

fn length_code(rng: &mut Rng) -> Vec<u8> {
    match rng.below(3) {
        0 => b"L".to_vec(),
        1 => format!("L{}", num(rng)).into_bytes(),
        _ => format!("L{},{}", num(rng), num(rng)).into_bytes(),
    }
}

/// A D code.
pub fn date_code(rng: &mut Rng) -> Vec<u8> {
    let digits = match rng.below(20) {
        0 => rng.below(10).to_string(),
        1..=8 => String::new(),
        _ => rng.below(5).to_string(),
    };
    let separator = match rng.below(20) {
        0 => (rng.next() as u8 as char).to_string(),
        1..=7 => String::new(),
        _ => (*rng.pick(b"/-. :,'\"*^]~!") as char).to_string(),
    };
    let mut code = format!("D{digits}").into_bytes();
    code.extend(separator.chars().map(|c| c as u8));
    code
}

/// An ML or MR code.
pub fn mask(rng: &mut Rng) -> Vec<u8> {
    let mut digits = String::new();
    if !rng.one_in(4) {
        digits += &rng.small(10).to_string();
        if rng.one_in(2) {
            digits += &rng.small(10).to_string();
        }
    }
    mask_with(rng, &digits)
}

/// An ML or MR code that drops digits, and numbers about its halves.
pub fn rounding_mask(rng: &mut Rng) -> (Vec<u8>, Kind) {
    let m = rng.between(1, 9);
    let n = rng.below(m);
    let code = mask_with(rng, &format!("{n}{m}"));
    (code, Kind::Half(10_u64.pow((m - n) as u32)))
}

/// An F code that takes a number through such a mask.
fn rounding_function(rng: &mut Rng) -> (Vec<u8>, Kind) {
    let (code, kind) = rounding_mask(rng);
    let function = [b"F;LPV;(", code.as_slice(), b")"].concat();
    (function, kind)
}

/// An ML or MR code with these digits for n and m.
pub fn mask_with(rng: &mut Rng, digits: &str) -> Vec<u8> {
    let mut code = vec![b'M', *rng.pick(b"LR")];
    code.extend_from_slice(digits.as_bytes());
    if rng.one_in(4) {
        code.push(b'Z');
    }
    if rng.one_in(3) {
        code.push(b',');
    }
    if rng.one_in(2) {
        code.push(*rng.pick(b"CDEMN"));
    }
    if rng.one_in(3) {
        code.push(b'$');
    }
    if rng.one_in(2) {
        code.extend(field(rng));
    }
    code
}

fn field(rng: &mut Rng) -> Vec<u8> {
    let fill = *rng.pick(b"#*%");
    let width = match rng.below(20) {
        0 => rng
            .pick(&["0", "00", "100", "0099", "99", "00099", "1"])
            .to_string(),
        1 => num(rng),
        2..=5 => rng.between(1, 99).to_string(),
        6 | 7 => rng.between(1, 5).to_string(),
        _ => rng.between(6, 24).to_string(),
    };
    [b"(", &[fill] as &[u8], width.as_bytes(), b")"].concat()
}
