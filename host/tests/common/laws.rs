//! What documents 01 and 02 promise of every call, whoever carries it out.

pub mod algebra;
pub mod codes;

use std::fmt::Display;
use std::ops::RangeInclusive;

use sundewfrill_host::fields;
use sundewfrill_host::outcome::{
    Address, Ceiling, Check, Convert, Find, Implementation, Replace, TypedDate,
};
use sundewfrill_host::paper::{self, grammar::Elm};

use super::buffers::{all_zero, Buffers};
use super::calls::{CeilingCall, CheckCall, ConvertCall, DateCall, FindCall, ReplaceCall};
use super::masks::{figures, filled, without_field};
use super::numbers::{is_digits, is_number, negated};
use super::operations::{fit, operation, Operation};
use super::patterns::{has_cut, patterns, tests};

/// The days of the calendar.
pub const DAYS: RangeInclusive<i64> = -718_430..=2_933_628;

/// Fails with the call that broke a law.
fn law(holds: bool, name: &str, call: &impl Display, outcome: &impl std::fmt::Debug) {
    assert!(holds, "{name}: {outcome:?}\n{call}");
}

/// A refusal and a missing place give no part; a part lies in the record.
pub fn find(call: &FindCall, outcome: &Find) {
    let nothing = (outcome.found, outcome.start, outcome.length) == (0, 0, 0);
    let end = outcome.start.checked_add(outcome.length);
    let inside = end.is_some_and(|end| end <= call.record.len() as u64);
    let found = outcome.refusal == 0 && outcome.found == 1 && inside;
    law(nothing || found, "finding", call, outcome);
}

/// The output holds the answer and then zeros; zeros throughout on a refusal.
pub fn replace(call: &ReplaceCall, outcome: &Replace, buffers: &Buffers) {
    let behind = buffers.output.after().get(outcome.length as usize..);
    let clear = behind.is_some_and(all_zero);
    let settled = clear && (outcome.refusal == 0 || outcome.length == 0);
    law(settled, "the output after replacing", call, outcome);
}

/// After replacing, the place holds the new bytes, and `other`, if it is apart
/// from the place, reads as before, missing counted as empty.
pub fn replace_reads_back(
    call: &ReplaceCall,
    outcome: &Replace,
    other: Address,
    implementation: &Implementation,
    buffers: &Buffers,
) {
    if outcome.refusal != 0 {
        return;
    }
    let after = &buffers.output.after()[..outcome.length as usize];
    let there = (implementation.find)(after, call.at);
    let new = there.found == 1 && part(after, &there) == call.new;
    law(new, "the replaced place", call, outcome);
    let before = (implementation.find)(&call.record, other);
    if before.refusal == 0 && apart(call.at, other) {
        let now = (implementation.find)(after, other);
        let same = now.refusal == 0 && part(after, &now) == part(&call.record, &before);
        law(
            same,
            &format!("{other:?}, apart from the replaced place"),
            call,
            outcome,
        );
    }
}

/// What finding has found of a record; nothing where it is missing.
pub fn part<'r>(record: &'r [u8], found: &Find) -> &'r [u8] {
    &record[found.start as usize..(found.start + found.length) as usize]
}

/// Whether neither address contains the other.
fn apart(one: Address, other: Address) -> bool {
    !contains(one, other) && !contains(other, one)
}

fn contains(one: Address, other: Address) -> bool {
    one.a == other.a && (one.v == 0 || one.v == other.v && (one.s == 0 || one.s == other.s))
}

/// An accepted string has a step or more in each code, and a test or more in each
/// P code; a refused one has no counts. A bad code has its number, from 1; no
/// other outcome has one.
pub fn check(call: &CheckCall, outcome: &Check) {
    let length = call.code.len() as u64;
    let marks = call.code.iter().filter(|&&byte| byte == paper::VALUE_MARK);
    let codes = if length == 0 {
        0
    } else {
        1 + marks.count() as u64
    };
    let steps = [outcome.loads, outcome.others, outcome.patterns];
    let steps = steps.into_iter().fold(0, u64::saturating_add);
    let tested = (outcome.patterns..=254).contains(&outcome.tests);
    let counted = match outcome.refusal {
        0 => (codes..=length).contains(&steps) && tested,
        _ => (steps, outcome.tests) == (0, 0),
    };
    law(counted, "the counts of a checked string", call, outcome);
    let none = (outcome.patterns == 0) == (outcome.tests == 0);
    law(none, "tests where there are P codes", call, outcome);
    let numbered = match outcome.refusal {
        0 | 5 => outcome.code_number == 0,
        6 | 7 | 18 => (1..=codes).contains(&outcome.code_number),
        _ => false,
    };
    law(numbered, "the number of a bad code", call, outcome);
    let long = (outcome.refusal == 5) == (length > 512);
    law(long, "a string over 512", call, outcome);
}

/// The output holds the answer and then zeros, scratch holds zeros, a refusal
/// gives no answer, and the steps are within the budget.
pub fn convert(call: &ConvertCall, outcome: &Convert, buffers: &Buffers) {
    let behind = buffers.output.after().get(outcome.length as usize..);
    let clear = behind.is_some_and(all_zero) && all_zero(buffers.scratch.after());
    let settled = clear && (outcome.refusal == 0 || outcome.length == 0);
    law(
        settled,
        "output and scratch after converting",
        call,
        outcome,
    );
    law(
        outcome.steps <= call.budget,
        "steps within the budget",
        call,
        outcome,
    );
    let never_began = matches!(outcome.refusal, 1..=8 | 18);
    law(
        !never_began || outcome.steps == 0,
        "no steps before the run",
        call,
        outcome,
    );
}

/// The ceiling is what document 01 makes of the numbers that finding and
/// checking give; where one of them refuses, so does the ceiling.
pub fn ceiling(call: &CeilingCall, outcome: &Ceiling, implementation: &Implementation) {
    let found = (implementation.find)(&call.record, call.at);
    let counts = (implementation.check)(&call.code);
    let refusal = match found.refusal {
        0 => counts.refusal,
        refusal => refusal,
    };
    let marks = part(&call.record, &found).iter();
    let elements = 1 + marks.filter(|&&byte| byte >= paper::LEAST_MARK).count() as u64;
    let length = call.record.len() as u64;
    let ceiling = match refusal {
        0 => {
            let loads = counts.loads * (1_025 + length);
            let patterns = (counts.patterns + counts.tests) * 1_025;
            elements * (loads + counts.others * 4_097 + patterns)
        }
        _ => 0,
    };
    let expected = Ceiling { refusal, ceiling };
    law(*outcome == expected, "the ceiling", call, outcome);
}

/// What is refused before the run, with its number, and no more steps than the
/// ceiling says.
pub fn within_ceiling(call: &ConvertCall, outcome: &Convert, ceiling: &Ceiling) {
    let name = format!("converting, for its {ceiling:?}");
    law(is_within(outcome, ceiling), &name, call, outcome);
}

/// Whether an outcome of converting and a ceiling can be those of one call.
pub fn is_within(outcome: &Convert, ceiling: &Ceiling) -> bool {
    let before_run = match outcome.refusal {
        refusal @ (1..=7 | 18) => refusal,
        _ => 0,
    };
    before_run == ceiling.refusal && outcome.steps <= ceiling.ceiling
}

/// Whether all steps were completed: nothing was refused, or only the output
/// was too short at the end.
pub fn came_to_end(outcome: &Convert) -> bool {
    matches!(outcome.refusal, 0 | 16)
}

/// The budgets to try a completed run with again, and whether each is enough: at
/// the count the outcome must be the same, one below it refusal 15.
pub fn budgets(outcome: &Convert) -> Vec<(u64, bool)> {
    let mut budgets = Vec::new();
    if came_to_end(outcome) {
        budgets.push((outcome.steps, true));
        budgets.extend(outcome.steps.checked_sub(1).map(|below| (below, false)));
    }
    budgets
}

/// What a call with another budget, enough or not, must have given: `first` and
/// `answer` are the outcome and the output of the completed run.
pub fn budget(
    call: &ConvertCall,
    enough: bool,
    (first, answer): (&Convert, &[u8]),
    outcome: &Convert,
    buffers: &Buffers,
) {
    convert(call, outcome, buffers);
    let right = if enough {
        outcome == first && buffers.output.after() == answer
    } else {
        outcome.refusal == 15
    };
    law(right, "another budget", call, outcome);
}

/// A conversion by one P code alone gives each element back whole or empty, for
/// the price of its step: whole exactly where one of its patterns alone does. In
/// an F code's parentheses the code gives the same.
pub fn pattern_code(call: &ConvertCall, implementation: &Implementation, buffers: &mut Buffers) {
    let Some(elements) = pattern_elements(call, implementation) else {
        return;
    };
    let mut given = |code: &[u8]| given_back(call, code, &elements, implementation, buffers);
    let (steps, kept) = given(&call.code);
    let patterns = patterns(&call.code);
    let tests: usize = patterns.iter().map(|pattern| tests(pattern).len()).sum();
    let prices = elements.iter().zip(&kept);
    let price: usize = prices
        .map(|(element, &kept)| 1 + tests * (element.len() + 1) + kept)
        .sum();
    law(steps == price as u64, "the price of P", call, &steps);

    let mut by_one = vec![0; elements.len()];
    for pattern in patterns {
        let (_, alone) = given(&[b"P", pattern].concat());
        cut(call, pattern, &elements, &alone);
        let most = by_one.iter().zip(alone).map(|(&one, other)| one.max(other));
        by_one = most.collect();
    }
    law(kept == by_one, "several patterns", call, &(&kept, by_one));

    let function = [b"F;LPV;(", call.code.as_slice(), b")"].concat();
    if function.len() <= paper::CODE_LENGTH {
        let pushed: usize = elements.iter().map(|element| 1 + element.len()).sum();
        let in_function = given(&function);
        let expected = (steps + pushed as u64, kept);
        law(in_function == expected, "P inside F", call, &in_function);
    }
}

/// A pattern alone leaves all of an element exactly if there is a cut: told of
/// short elements and few tests, for which all cuts can be tried.
fn cut(call: &ConvertCall, pattern: &[u8], elements: &[&[u8]], kept: &[usize]) {
    let tests = tests(pattern);
    for (element, &kept) in elements.iter().zip(kept) {
        if element.len() <= 10 && tests.len() <= 5 {
            let expected = match has_cut(element, &tests) {
                true => element.len(),
                false => 0,
            };
            law(kept == expected, "the cut of an element", call, &kept);
        }
    }
}

/// The elements that a call takes through one P code alone; `None` for another
/// call, and for one that has an element over 1,024 or a long record.
fn pattern_elements<'c>(
    call: &'c ConvertCall,
    implementation: &Implementation,
) -> Option<Vec<&'c [u8]>> {
    if call.record.len() > 4_096 {
        return None;
    }
    let elements = pieces(taken(call, b"P", implementation)?);
    fit(&elements).then_some(elements)
}

/// What a call takes through one accepted code alone that begins with `letters`;
/// `None` for another call.
fn taken<'c>(
    call: &'c ConvertCall,
    letters: &[u8],
    implementation: &Implementation,
) -> Option<&'c [u8]> {
    if !call.code.starts_with(letters) || call.code.contains(&paper::VALUE_MARK) {
        return None;
    }
    let found = (implementation.find)(&call.record, call.at);
    let checked = (implementation.check)(&call.code);
    let accepted = (found.refusal, checked.refusal) == (0, 0);
    accepted.then(|| part(&call.record, &found))
}

/// The steps of converting by `code`, and how much it leaves of each of the
/// elements: all or nothing.
fn given_back(
    call: &ConvertCall,
    code: &[u8],
    elements: &[&[u8]],
    implementation: &Implementation,
    buffers: &mut Buffers,
) -> (u64, Vec<usize>) {
    let call = ConvertCall {
        code: code.to_vec(),
        ..call.with_enough()
    };
    let outcome = call.run(implementation, buffers);
    law(outcome.refusal == 0, "P refuses nothing", &call, &outcome);
    let answer = pieces(&buffers.output.after()[..outcome.length as usize]);
    let mut pairs = answer.iter().zip(elements);
    let whole_or_empty = pairs.all(|(kept, element)| kept.is_empty() || kept == element);
    let all = answer.len() == elements.len();
    law(all && whole_or_empty, "what P gives", &call, &outcome);
    let kept = answer.iter().map(|kept| kept.len()).collect();
    (outcome.steps, kept)
}

/// What stands between the marks of a part.
fn pieces(part: &[u8]) -> Vec<&[u8]> {
    part.split(|&byte| byte >= paper::LEAST_MARK).collect()
}

/// A conversion of one number by one ML or MR code alone. Before fill, the number
/// and its negative show the same digits, point and commas, or both are refused 10;
/// their texts differ by the sign, unless the digits are zeros or N hides it.
pub fn mask_code(call: &ConvertCall, implementation: &Implementation, buffers: &mut Buffers) {
    let Some(number) = masked_number(call, implementation) else {
        return;
    };
    let mut given = |number: &[u8]| before_fill(call, number, implementation, buffers);
    let both = (given(number), given(&negated(number)));
    let symmetric = match &both {
        (Ok(text), Ok(other)) => figures(text) == figures(other),
        (one, other) => (one, other) == (&Err(10), &Err(10)),
    };
    law(symmetric, "a number and its negative", call, &both);
    if let (Ok(text), Ok(other)) = &both {
        let zero = !figures(text).contains(|digit| ('1'..='9').contains(&digit));
        let signless = zero || call.code.contains(&b'N');
        let signed = (text == other) == signless;
        law(signed, "the sign of what is shown", call, &both);
    }
}

/// The number that a call takes through one ML or MR code alone; `None` for another
/// call, and for a number that has no room for a sign.
fn masked_number<'c>(call: &'c ConvertCall, implementation: &Implementation) -> Option<&'c [u8]> {
    let mut codes = [b"ML", b"MR"].into_iter();
    let number = codes.find_map(|letters| taken(call, letters, implementation))?;
    (is_number(number) && number.len() < paper::ENTRY_LENGTH).then_some(number)
}

/// What a call's code without its field gives of a number, or the number of its
/// refusal. The field must fill that text up, and be 14 where it is too narrow.
fn before_fill(
    call: &ConvertCall,
    number: &[u8],
    implementation: &Implementation,
    buffers: &mut Buffers,
) -> Result<String, u64> {
    let mut given = |code: &[u8]| {
        let call = ConvertCall::of_element(code, number);
        let (_, given) = steps_and_given(&call, implementation, buffers);
        given.map(|answer| answer.escape_ascii().to_string())
    };
    let (bare, field) = without_field(&call.code);
    let text = given(bare);
    if let Some(field) = field {
        let expected = match &text {
            Ok(text) => filled(bare, text, field).ok_or(14),
            Err(refusal) => Err(*refusal),
        };
        let in_field = given(&call.code);
        let right = in_field == expected;
        law(right, "the field of a mask", call, &(&text, in_field));
    }
    text
}

/// The steps of a call, and its answer or the number of its refusal.
fn steps_and_given(
    call: &ConvertCall,
    implementation: &Implementation,
    buffers: &mut Buffers,
) -> (u64, Result<Vec<u8>, u64>) {
    let outcome = call.run(implementation, buffers);
    let given = match outcome.refusal {
        0 => Ok(buffers.output.after()[..outcome.length as usize].to_vec()),
        refusal => Err(refusal),
    };
    (outcome.steps, given)
}

/// "Numeric form should ignore blanks (byte 32) before and after, not between": a
/// conversion of one element that comes down to one operation on numbers gives the
/// same wherever the operands stand, with the blanks round them taken away and with
/// others put there. ML, MR and D refuse 12 exactly what is neither empty nor numeric.
pub fn blanks(call: &ConvertCall, implementation: &Implementation, buffers: &mut Buffers) {
    let Some(operation) = operation(call, implementation) else {
        return;
    };
    if !fit(&operation.operands) || !fit(&[operation.element]) {
        return;
    }
    let (_, by_call) = steps_and_given(&call.with_enough(), implementation, buffers);
    let mut of = |operands: &[Vec<u8>]| operated(&operation, operands, implementation, buffers);
    let given = of(&operation.operands);
    let same = given == by_call;
    law(same, "operands in attributes", call, &(&given, &by_call));
    for operands in operation.alike() {
        let other = of(&operands);
        let (same, shown) = (other == given, (&given, operands, other));
        law(same, "blanks round numbers", call, &shown);
    }
    if let (Elm::Convert(_), [taken]) = (&operation.elm, operation.operands.as_slice()) {
        let refused = !taken.is_empty() && !is_number(taken);
        let told = (given == Err(12)) == refused;
        law(told, "what has no numeric form", call, &given);
    }
}

/// What an operation gives of operands that are loaded from attributes of their own.
/// "Step costs still count the bytes as they stand": what is loaded, what the
/// operation takes, and what it puts.
fn operated(
    operation: &Operation,
    operands: &[Vec<u8>],
    implementation: &Implementation,
    buffers: &mut Buffers,
) -> Result<Vec<u8>, u64> {
    let (mut record, mut code) = (b"K1".to_vec(), b"F;".to_vec());
    for (operand, attribute) in operands.iter().zip(1..) {
        record.push(paper::ATTRIBUTE_MARK);
        record.extend(operand);
        code.extend(format!("{attribute};").bytes());
    }
    code.extend(&operation.spelling);
    let call = ConvertCall {
        record,
        code,
        ..ConvertCall::of_element(b"", b"")
    };
    let (steps, given) = steps_and_given(&call, implementation, buffers);
    let bytes: usize = operands.iter().map(Vec::len).sum();
    let loads = operands.len() * (1 + call.record.len()) + bytes;
    let step = given.as_ref().map_or(0, |answer| 1 + bytes + answer.len());
    let priced = steps == (loads + step) as u64;
    law(priced, "bytes as they stand", &call, &(steps, &given));
    given
}

/// An accepted date has a day of the calendar, day 0 without a sign, and a digit at
/// either end, no blank; a refused one has no day.
pub fn date(call: &DateCall, outcome: &TypedDate) {
    let given = match outcome.refusal {
        0 => is_day(outcome.negative, outcome.size),
        5 | 6 | 12 => (outcome.negative, outcome.size) == (0, 0),
        _ => false,
    };
    law(given, "the day of a typed date", call, outcome);
    let ends = [call.text.first(), call.text.last()].map(|end| end.is_some_and(u8::is_ascii_digit));
    let typed = outcome.refusal != 0 || ends == [true, true];
    law(typed, "the ends of a typed date", call, outcome);
    let long = (outcome.refusal == 5) == (call.code.len() > 512);
    law(long, "a code over 512", call, outcome);
}

/// Whether sign and size are those of a day of the calendar.
fn is_day(negative: u64, size: u64) -> bool {
    let Ok(size) = i64::try_from(size) else {
        return false;
    };
    match negative {
        0 => DAYS.contains(&size),
        1 => size > 0 && DAYS.contains(&-size),
        _ => false,
    }
}

/// The program writes a refusal number, steps and an answer, which a refusal has not,
/// parted by single blanks. "If line 2 is not three numbers of 1 to 5 digits parted by
/// commas, it prints `4 0 ` and a line end".
pub fn program(input: &[u8], written: &[u8]) {
    let (call, shown) = (fields::write(input), written.escape_ascii().to_string());
    let words: Vec<&[u8]> = written.splitn(3, |&byte| byte == b' ').collect();
    let three = match words.as_slice() {
        [refusal, steps, answer] => {
            let counted = [refusal, steps].into_iter().all(|word| is_digits(word));
            counted && answer.ends_with(b"\n") && (*refusal == b"0" || *answer == b"\n")
        }
        _ => false,
    };
    law(three, "what the program writes", &call, &shown);
    // "only 65,536 bytes are read"
    let read = &input[..input.len().min(65_536)];
    let address = read.split(|&byte| byte == b'\n').nth(1).unwrap_or(&[]);
    let right = is_address(address) || written == b"4 0 \n";
    law(right, "line 2 of the program", &call, &shown);
}

fn is_address(line: &[u8]) -> bool {
    let numbers: Vec<&[u8]> = line.split(|&byte| byte == b',').collect();
    let is_short = |number: &[u8]| is_digits(number) && number.len() <= 5;
    numbers.len() == 3 && numbers.into_iter().all(is_short)
}
