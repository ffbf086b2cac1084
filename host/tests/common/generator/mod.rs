//! Generated calls: short and long, good and damaged, from a fixed seed.
//!
//! The codes follow the grammar and the elements mostly suit them, so that runs
//! get far; then some bytes are changed, some lengths put on a limit, some
//! buffers made too short. `coverage` says whether everything was reached.

mod algebra;
mod blanks;
mod codes;
mod dates;
mod elements;
mod patterns;
mod records;
mod rng;
mod words;

use sundewfrill_host::outcome::Address;
use sundewfrill_host::{paper, Refusal, SCRATCH_LENGTH};

use super::buffers::Buffers;
use super::calls::{
    AlgebraCall, CeilingCall, CheckCall, ConvertCall, DateCall, FindCall, ReplaceCall, PAPER,
};
pub use algebra::NEARLY_SHOWN;
pub use blanks::NO_BLANKS;
pub use elements::Kind;
pub use patterns::NEAR_MISSES;
pub use rng::Rng;

/// A call of finding.
pub fn find(rng: &mut Rng) -> FindCall {
    let record = records::record(rng, &Kind::Any);
    let at = records::address(rng, &record);
    FindCall { record, at }
}

/// A call of replacing. The output is often just long enough, or just not.
pub fn replace(rng: &mut Rng, buffers: &mut Buffers) -> ReplaceCall {
    let record = records::record(rng, &Kind::Any);
    let at = records::address(rng, &record);
    let new = new_element(rng, at);
    let mut call = ReplaceCall {
        record,
        at,
        new,
        output_length: paper::RECORD_LENGTH,
    };
    let mut length = call.run(&PAPER, buffers).length as usize;
    if rng.one_in(200) {
        let target = rng.between(32_766, 32_770) as usize;
        call.record.push(paper::ATTRIBUTE_MARK);
        call.record
            .resize(call.record.len() + target.saturating_sub(length + 1), b'x');
        length = call.run(&PAPER, buffers).length as usize;
    }
    call.output_length = output_length(rng, length);
    call
}

/// A new element for replacing at this place.
fn new_element(rng: &mut Rng, at: Address) -> Vec<u8> {
    let mut new = match rng.below(10) {
        0 => Vec::new(),
        1 => elements::of_length(rng, &[1_023, 1_024, 1_025, 1_300]),
        2 if rng.one_in(50) => elements::of_length(rng, &[65_536, 65_540]),
        3..=5 if at.a == 0 => elements::of_length(rng, &[47, 48, 49]),
        _ => elements::element(rng, &Kind::Any),
    };
    if rng.one_in(20) {
        let mark = rng.between(251, 255) as u8;
        rng.insert(&mut new, mark);
    }
    new
}

/// A call of checking.
pub fn check(rng: &mut Rng) -> CheckCall {
    let (code, _) = codes::string(rng);
    CheckCall { code }
}

/// A call of converting.
pub fn convert(rng: &mut Rng, buffers: &mut Buffers) -> ConvertCall {
    let (record, code, at) = match rng.below(2_000) {
        0 => swelling(rng),
        1..=15 => at_an_end(rng),
        16..=40 => at_a_half(rng),
        41..=140 => blanks::operation(rng),
        _ => suited(rng),
    };
    // Long records with many elements are kept from running for minutes.
    let most = if record.len() > 4_096 {
        500_000
    } else {
        u64::MAX
    };
    let roomy = 4_096 + 2 * record.len();
    let mut call = ConvertCall {
        record,
        code,
        at,
        budget: most,
        output_length: roomy,
        scratch_length: SCRATCH_LENGTH,
    };
    let mut outcome = call.run(&PAPER, buffers);
    if outcome.refusal == Refusal::OutputTooShort.number() {
        call.output_length = 1 << 20;
        outcome = call.run(&PAPER, buffers);
    }
    call.budget = budget(rng, outcome.steps).min(most);
    call.output_length = output_length(rng, outcome.length as usize);
    call.scratch_length = scratch_length(rng);
    call
}

/// A code string, a record whose elements mostly suit it, and an address.
fn suited(rng: &mut Rng) -> (Vec<u8>, Vec<u8>, Address) {
    let (code, kind) = codes::string(rng);
    let kind = if rng.one_in(6) { Kind::Any } else { kind };
    let record = records::record(rng, &kind);
    let at = records::address(rng, &record);
    (record, code, at)
}

/// Many empty elements, each of which becomes a long one.
fn swelling(rng: &mut Rng) -> (Vec<u8>, Vec<u8>, Address) {
    let mark = *rng.pick(&[paper::VALUE_MARK, paper::SUBVALUE_MARK]);
    let marks = vec![mark; rng.between(100, 900) as usize];
    let literal = vec![b'x'; rng.between(100, 500) as usize];
    let record = [b"K1\xfe", marks.as_slice()].concat();
    let code = [b"F;'", literal.as_slice(), b"'"].concat();
    (record, code, Address::new(1, 0, 0))
}

/// One number at an end of the range, or one past it: as it stands, or as the
/// sum, the difference or the product of two that are inside.
fn at_an_end(rng: &mut Rng) -> (Vec<u8>, Vec<u8>, Address) {
    const LAST: i64 = 999_999_999_999_999;
    let past = rng.one_in(2);
    let end = LAST + i64::from(past);
    let sign = if rng.one_in(2) { 1 } else { -1 };
    let less = rng.between(1, LAST as u64) as i64;
    let factor = match past {
        false => *rng.pick(&[1, 3, 27, 37, 41, 271]),
        true => *rng.pick(&[2, 5, 8, 1_000, 32_768, 10_000_000]),
    };
    let two = |number: i64, other: i64, operator: char| {
        (number, format!("F;LPV;'{other}';{operator}").into_bytes())
    };
    let (number, code) = match rng.below(6) {
        0..=2 => (sign * end, codes::mask(rng)),
        3 => two(sign * (end - less), sign * less, '+'),
        4 => two(sign * (end - less), sign * -less, '-'),
        _ => two(sign * (end / factor), factor, '*'),
    };
    let record = [b"K1\xfe", number.to_string().as_bytes()].concat();
    (record, code, Address::new(1, 0, 0))
}

/// One number at a half that a mask rounds, or one beside it.
fn at_a_half(rng: &mut Rng) -> (Vec<u8>, Vec<u8>, Address) {
    let (code, kind) = codes::rounding_mask(rng);
    let number = elements::element(rng, &kind);
    let record = [b"K1\xfe", number.as_slice()].concat();
    (record, code, Address::new(1, 0, 0))
}

/// A budget that is mostly enough for a run of `steps` steps.
fn budget(rng: &mut Rng, steps: u64) -> u64 {
    match rng.below(16) {
        0 => rng.below(steps + 1),
        1 => steps.saturating_sub(1),
        2 => steps,
        3 => rng.below(100),
        4 => 0,
        5 => u64::MAX,
        6 => u64::MAX - rng.below(40_000),
        7 => (1 << 32) + rng.below(10),
        _ => 3_000_000,
    }
}

/// A length for an output that has to hold `length` bytes.
fn output_length(rng: &mut Rng, length: usize) -> usize {
    match rng.below(16) {
        0 => length.saturating_sub(1),
        1 => rng.below(length as u64 + 1) as usize,
        2 => 0,
        3 => paper::RECORD_LENGTH,
        4 => rng.below(70_000) as usize,
        5..=8 => length,
        9 => length + 1,
        _ => length + rng.below(300) as usize,
    }
}

fn scratch_length(rng: &mut Rng) -> usize {
    match rng.below(100) {
        0 => 0,
        1 => rng.below(SCRATCH_LENGTH as u64) as usize,
        2 | 3 => SCRATCH_LENGTH - 1,
        4..=7 => SCRATCH_LENGTH + 1,
        8 | 9 => SCRATCH_LENGTH + rng.below(20_000) as usize,
        10 => 65_536 + rng.below(100) as usize,
        _ => SCRATCH_LENGTH,
    }
}

/// A call for the ceiling of converting.
pub fn ceiling(rng: &mut Rng) -> CeilingCall {
    let (record, code, at) = match rng.below(200) {
        0 => vast_run(rng),
        _ => suited(rng),
    };
    CeilingCall { record, code, at }
}

/// As many elements as a record has, or nearly, each through many steps.
fn vast_run(rng: &mut Rng) -> (Vec<u8>, Vec<u8>, Address) {
    let mut record = rng.pick(&["", "", "K1"]).as_bytes().to_vec();
    record.push(paper::ATTRIBUTE_MARK);
    let mark = *rng.pick(&[paper::VALUE_MARK, paper::SUBVALUE_MARK]);
    record.resize(paper::RECORD_LENGTH, mark);
    let one = *rng.pick(&[
        "L", "F;1", "F;0RR", "F;LPV;1;:", "F;1;2;3;4;5;+;+;+;+", "P(1N)", "F;1;(P(0N'a'))",
    ]);
    let most = (paper::CODE_LENGTH + 1) / (one.len() + 1);
    let count = rng.between(1, most as u64) as usize;
    let code = vec![one.as_bytes(); count].join(&paper::VALUE_MARK);
    (record, code, Address::new(1, 0, 0))
}

/// A call of reading a typed date.
pub fn date(rng: &mut Rng) -> DateCall {
    dates::call(rng)
}

/// A call of showing an A code as F. The output is often just long enough, or just
/// not.
pub fn algebra(rng: &mut Rng, buffers: &mut Buffers) -> AlgebraCall {
    let mut call = AlgebraCall {
        code: algebra::code(rng),
        output_length: paper::CODE_LENGTH,
    };
    let length = call.run(&PAPER, buffers).length as usize;
    call.output_length = output_length(rng, length);
    call
}

/// A conversion by an F text that shows an A code, with budget and scratch enough.
pub fn conversion_by_text(rng: &mut Rng, text: &[u8]) -> ConvertCall {
    algebra::conversion(rng, text)
}

/// An A code as line 1 for the program that shows it: the line ends or the input does,
/// and more may stand behind it, at times more than is read.
pub fn formula(rng: &mut Rng) -> Vec<u8> {
    let mut input = algebra::code(rng);
    match rng.below(8) {
        0 | 1 => {}
        2 | 3 => input.push(b'\n'),
        4 | 5 => input = [input, algebra::code(rng), Vec::new()].join(&b'\n'),
        _ => {
            input.push(*rng.pick(b"\n\n\n1"));
            input.resize(rng.between(65_534, 65_540) as usize, *rng.pick(b"1\n"));
        }
    }
    input
}

/// Three lines for the program, now and then a damaged or a missing one.
pub fn program(rng: &mut Rng, buffers: &mut Buffers) -> Vec<u8> {
    let call = convert(rng, buffers);
    let mut address = format!("{},{},{}", call.at.a, call.at.v, call.at.s).into_bytes();
    match rng.below(20) {
        0 | 1 => {
            let byte = *rng.pick(b",0 9-\r");
            rng.insert(&mut address, byte);
        }
        2 | 3 => address = blanks::beside(rng, &address),
        _ => {}
    }
    let mut lines = [&call.code, &address, &call.record]
        .map(Vec::as_slice)
        .join(&b'\n');
    match rng.below(8) {
        0 => lines.truncate(rng.below(lines.len() as u64 + 1) as usize),
        1..=3 => lines.push(b'\n'),
        4 => lines.extend_from_slice(b"\nmore\n"),
        _ => {}
    }
    lines
}

/// A call that `./console` has words for, as the program of these calls reads it.
pub fn words(rng: &mut Rng, buffers: &mut Buffers) -> Vec<u8> {
    words::call(rng, buffers)
}
