//! What document 02 promises of A codes: the F text, its refusals, and the value of the
//! expression that it shows.

use sundewfrill_host::fields;
use sundewfrill_host::outcome::{Algebra, Check, Implementation};
use sundewfrill_host::paper::algebra::{read, values};
use sundewfrill_host::paper::{CODE_LENGTH, LEAST_MARK};

use super::super::buffers::{all_zero, Buffers};
use super::super::calls::{AlgebraCall, ConvertCall};
use super::super::expressions::{
    cut_last, elms, entries, is_operand, operation_of, parenthesised, pieces,
};
use super::{law, steps_and_given};

/// All that is promised of a call whose output is still in the buffers. Gives the F
/// text of an A code that is shown.
pub fn all(
    call: &AlgebraCall,
    outcome: &Algebra,
    implementation: &Implementation,
    buffers: &mut Buffers,
) -> Option<Vec<u8>> {
    settled(call, outcome, buffers);
    refusal(call, outcome, implementation);
    let text = buffers.output.after()[..outcome.length as usize].to_vec();
    parentheses(call, (outcome, &text), implementation, buffers);
    (outcome.refusal == 0).then(|| {
        spelling(call, &text);
        steps(call, &text, implementation);
        composed(call, &text, implementation, buffers);
        outputs(call, &text, implementation, buffers);
        text
    })
}

/// What the program that shows A codes writes is one line: a refusal, which is never 16,
/// a blank, and a text exactly where there is none.
pub fn formula(input: &[u8], written: &[u8]) {
    let (text, end) = written.split_at(written.len().saturating_sub(1));
    let shown = text.starts_with(b"0 F;") && !text.contains(&b'\n');
    let refused = [b"5 ", b"6 ", b"7 "].iter().any(|line| text == *line);
    let one_line = (shown || refused) && end == b"\n";
    let (input, written) = (fields::write(input), written.escape_ascii().to_string());
    law(one_line, "what the program writes", &input, &written);
}

/// The output holds the F text and then zeros; zeros throughout on a refusal.
fn settled(call: &AlgebraCall, outcome: &Algebra, buffers: &Buffers) {
    let behind = buffers.output.after().get(outcome.length as usize..);
    let clear = behind.is_some_and(all_zero);
    let settled = clear && (outcome.refusal == 0 || outcome.length == 0);
    law(settled, "the output after showing", call, outcome);
}

/// "5 for an A code over 512, 6 if not an expression, 5 if the F text would pass 512
/// bytes, 7 as the F text earns it, 16, in that order": 7 where more than 16 entries
/// are held, and the check of the F text, which is never 6, says the same. A is no code
/// of strings: to the check it is a first code that is 6.
fn refusal(call: &AlgebraCall, outcome: &Algebra, implementation: &Implementation) {
    let expected = match read(&call.code) {
        _ if call.code.len() > 512 => 5,
        _ if call.code.iter().any(|&byte| byte >= LEAST_MARK) => 6,
        Err(_) => 6,
        Ok(expression) => {
            let text = expression.text();
            let earned = match (text.len() > 512, entries(&expression) > 16) {
                (true, _) => 5,
                (false, true) => 7,
                (false, false) => 0,
            };
            let checked = (implementation.check)(&text).refusal;
            law(checked == earned, "the check of the F text", call, &checked);
            match earned {
                0 if text.len() > call.output_length => 16,
                earned => earned,
            }
        }
    };
    let right = outcome.refusal == expected;
    law(right, "what an A code earns", call, outcome);
    if call.code.len() <= 512 && call.code.starts_with(b"A") {
        let checked = (implementation.check)(&call.code);
        let refused = (checked.refusal, checked.code_number) == (6, 1);
        law(refused, "an A code in a string", call, &checked);
    }
}

/// "operands in written order and spelling", as many operators as are written, and
/// nothing else.
fn spelling(call: &AlgebraCall, text: &[u8]) {
    let pieces = pieces(&call.code);
    let (operands, mut operators) = parted(text);
    let written = pieces.iter().filter(|piece| is_operand(piece));
    let right = operands.iter().eq(written);
    law(right, "operands as written", call, &operands);
    let signs = pieces.iter().filter_map(|piece| operation_of(piece));
    let mut signs: Vec<_> = signs.collect();
    signs.sort_unstable();
    operators.sort_unstable();
    law(operators == signs, "operators as written", call, &operators);
}

/// The operands of an F text, and its operators.
fn parted(text: &[u8]) -> (Vec<Vec<u8>>, Vec<Vec<u8>>) {
    elms(text).into_iter().partition(|elm| is_operand(elm))
}

/// The steps are operands and operators, the loads are the attributes; what they take
/// and put leaves one entry.
fn steps(call: &AlgebraCall, text: &[u8], implementation: &Implementation) {
    let (operands, operators) = parted(text);
    let attributes = operands.iter().filter(|elm| elm[0].is_ascii_digit());
    let loads = attributes.count() as u64;
    let expected = Check {
        loads,
        others: (operands.len() + operators.len()) as u64 - loads,
        ..Check::default()
    };
    let checked = (implementation.check)(text);
    let right = checked == expected;
    law(right, "the steps of an F text", call, &checked);
    // An operator makes one entry of two, `[]` one of three.
    let extracts = operators.iter().filter(|sign| *sign == b"[]").count();
    let left = operands.len().checked_sub(operators.len() + extracts);
    law(left == Some(1), "one entry at the end", call, &left);
}

/// "each operator in F's spelling straight after its operands": the F text is that of
/// each operand of what is done last, and then that operation. An attribute or a
/// literal is its own text.
fn composed(
    call: &AlgebraCall,
    text: &[u8],
    implementation: &Implementation,
    buffers: &mut Buffers,
) {
    let expression = &call.code[1..];
    let (parts, last) = cut_last(expression).unwrap_or((Vec::new(), expression));
    let mut composed = b"F".to_vec();
    for part in parts {
        let code = [b"A", part].concat();
        let (outcome, text) = shown(code, text.len(), implementation, buffers);
        law(
            outcome.refusal == 0,
            "a part of what is shown",
            call,
            &outcome,
        );
        composed.extend_from_slice(&text[1..]);
    }
    if !last.is_empty() {
        composed.push(b';');
        composed.extend_from_slice(last);
    }
    let shown = composed.escape_ascii().to_string();
    law(composed == text, "a text of its parts", call, &shown);
}

/// What comes of an A code in an output of this length, and its F text.
fn shown(
    code: Vec<u8>,
    output_length: usize,
    implementation: &Implementation,
    buffers: &mut Buffers,
) -> (Algebra, Vec<u8>) {
    let call = AlgebraCall {
        code,
        output_length,
    };
    let outcome = call.run(implementation, buffers);
    settled(&call, &outcome, buffers);
    let text = buffers.output.after()[..outcome.length as usize].to_vec();
    (outcome, text)
}

/// An output of just the length gives the same F text, one a byte shorter is 16.
fn outputs(
    call: &AlgebraCall,
    text: &[u8],
    implementation: &Implementation,
    buffers: &mut Buffers,
) {
    let mut shown = |length: usize| shown(call.code.clone(), length, implementation, buffers);
    let (outcome, same) = shown(text.len());
    let right = outcome.refusal == 0 && same == text;
    law(right, "an output met exactly", call, &outcome);
    let (outcome, _) = shown(text.len() - 1);
    law(outcome.refusal == 16, "an output one short", call, &outcome);
}

/// Parentheses round the whole expression, and round each operation in it, change
/// nothing in the F text, nor in the refusal.
fn parentheses(
    call: &AlgebraCall,
    (outcome, text): (&Algebra, &[u8]),
    implementation: &Implementation,
    buffers: &mut Buffers,
) {
    let Ok(expression) = read(&call.code) else {
        return;
    };
    let whole = [b"A(", &call.code[1..], b")"].concat();
    for code in [whole, parenthesised(&expression)] {
        if code.len() <= CODE_LENGTH {
            let again = shown(code, call.output_length, implementation, buffers);
            let same = again == (*outcome, text.to_vec());
            law(same, "parentheses round it", call, &again);
        }
    }
}

/// "running the F text with budget and buffers enough gives that value, or that same
/// refusal": `by_text` converts by the F text of an A code, and its own count is budget
/// enough. The value has no stack in it. Gives the refusal number, 0 for none.
pub fn value(
    code: &[u8],
    by_text: &ConvertCall,
    implementation: &Implementation,
    buffers: &mut Buffers,
) -> u64 {
    let expression = read(code).expect("an A code that was shown");
    let values = values(&by_text.record, by_text.at, &expression);
    let expected = values.map_err(|refusal| refusal.number());
    let mut call = by_text.clone();
    call.output_length = expected.as_ref().map_or(64, Vec::len);
    let name = format!("the value of {}", code.escape_ascii());
    let (steps, given) = steps_and_given(&call, implementation, buffers);
    law(given == expected, &name, &call, &(&given, &expected));
    call.budget = steps;
    let (_, again) = steps_and_given(&call, implementation, buffers);
    law(again == expected, "a budget of the count", &call, &again);
    let refusal = expected.map_or_else(|refusal| refusal, |_| 0);
    let known = matches!(refusal, 0..=4 | 9..=11);
    law(known, "what a value refuses", &call, &refusal);
    refusal
}
