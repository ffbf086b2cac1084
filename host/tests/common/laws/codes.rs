//! What the documents promise of the codes of a string, judged one by one: which of them
//! is bad, what entries an F code must leave, and what is refused before a run.

use sundewfrill_host::outcome::{Check, Convert, Implementation};
use sundewfrill_host::paper::{CODE_LENGTH, STACK_DEPTH, VALUE_MARK};
use sundewfrill_host::SCRATCH_LENGTH;

use super::super::buffers::Buffers;
use super::super::calls::{CheckCall, ConvertCall};
use super::{law, pieces, steps_and_given};

/// "Codes are still judged from the left and the first bad one decides": a string is
/// refused as its first bad code is by itself, with that one's number, and is counted as
/// its codes are. Each F code of it leaves one entry, or it is 18.
pub fn judged(call: &CheckCall, outcome: &Check, implementation: &Implementation) {
    if call.code.is_empty() || call.code.len() > CODE_LENGTH {
        return;
    }
    let mut expected = Check::default();
    for (code, number) in codes(&call.code).into_iter().zip(1..) {
        let alone = (implementation.check)(code);
        // No codes at all are no code that is empty.
        let refusal = if code.is_empty() { 6 } else { alone.refusal };
        if code.starts_with(b"F;") {
            entries(code, &alone, implementation);
        } else {
            law(refusal != 18, "18 of another code than F", call, &alone);
        }
        if refusal != 0 {
            expected = Check {
                refusal,
                code_number: number,
                ..Check::default()
            };
            break;
        }
        expected.loads += alone.loads;
        expected.others += alone.others;
        expected.patterns += alone.patterns;
        expected.tests += alone.tests;
    }
    law(*outcome == expected, "the first bad code", call, outcome);
}

/// The codes of a string.
fn codes(string: &[u8]) -> Vec<&[u8]> {
    string.split(|&byte| byte == VALUE_MARK).collect()
}

/// "an F code must end with exactly one entry": what more elms make of it tells how many
/// there are, whatever reads them.
fn entries(code: &[u8], alone: &Check, implementation: &Implementation) {
    let with = |more: &str| Behind::new(code, more, implementation);
    match alone.refusal {
        0 => {
            with(";'x'").must_be(18);
            with(";P").must_be(18);
            with(";:").must_be(7);
            with(";_").must_be(7);
            with(";(L)").must_count(alone, 1);
            with(";'x';:").must_count(alone, 2);
            with(";'x';:;").must_be(6);
        }
        18 => {
            with(";;").must_be(6);
            with(";P;P;P;P;P;P;P;P;P;P;P;P;P;P;P").must_be(7);
            closed(code, implementation);
        }
        7 => {
            // Nothing behind it brings back an entry that was not there.
            with(";'x'").must_be(7);
            with(";:").must_be(7);
            with(";'x';?").must_be(6);
        }
        _ => {}
    }
}

/// As many `:` as entries are too many, and no fewer, make one entry of those that a code
/// leaves over: at most 15. One more of them is 7.
fn closed(code: &[u8], implementation: &Implementation) {
    let with = |joins: usize| Behind::new(code, &";:".repeat(joins), implementation);
    for joins in 1..STACK_DEPTH {
        let behind = with(joins);
        match behind.refusal() {
            Some(0) => return with(joins + 1).must_be(7),
            Some(refusal) => behind.is(refusal == 18),
            // There is no more room.
            None => return,
        }
    }
    with(STACK_DEPTH).is(false);
}

/// The check of a code with more elms behind it, if there is room for them.
struct Behind {
    call: CheckCall,
    outcome: Option<Check>,
}

impl Behind {
    fn new(code: &[u8], more: &str, implementation: &Implementation) -> Self {
        let code = [code, more.as_bytes()].concat();
        let call = CheckCall { code };
        let fits = call.code.len() <= CODE_LENGTH;
        let outcome = fits.then(|| call.run(implementation));
        Behind { call, outcome }
    }

    fn refusal(&self) -> Option<u64> {
        self.outcome.map(|outcome| outcome.refusal)
    }

    /// Fails unless it is refused so.
    fn must_be(&self, refusal: u64) {
        self.is(self.refusal().map_or(true, |given| given == refusal));
    }

    /// Fails unless it is accepted with so many steps more.
    fn must_count(&self, before: &Check, more: u64) {
        let others = before.others + more;
        let expected = Check { others, ..*before };
        self.is(self.outcome.map_or(true, |given| given == expected));
    }

    fn is(&self, right: bool) {
        let (call, outcome) = (&self.call, &self.outcome);
        law(right, "the entries of an F code", call, outcome);
    }
}

/// "Converting: 1, 2, 3, 4, 5, 6 or 7, 8, then the run", 18 behind 7: what finding and
/// checking refuse, and a short scratch, decide which of them comes, and none else does.
pub fn before_run(call: &ConvertCall, outcome: &Convert, implementation: &Implementation) {
    let found = (implementation.find)(&call.record, call.at).refusal;
    let checked = (implementation.check)(&call.code).refusal;
    let scratch = match call.scratch_length < SCRATCH_LENGTH {
        true => 8,
        false => 0,
    };
    let refusals = [found, checked, scratch];
    let first = refusals.into_iter().find(|&refusal| refusal != 0);
    let right = match first {
        Some(first) => outcome.refusal == first,
        None => !matches!(outcome.refusal, 1..=8 | 18),
    };
    law(right, "what comes before the run", call, outcome);
}

/// The one entry of the last F code is the answer: an empty text joined to it changes
/// nothing but the price, by 1 for the text and by 1 and twice the entry for the join.
pub fn one_more(call: &ConvertCall, implementation: &Implementation, buffers: &mut Buffers) {
    let last = codes(&call.code).pop().unwrap_or_default();
    let longer = [call.code.as_slice(), b";'';:"].concat();
    if !last.starts_with(b"F;") || longer.len() > CODE_LENGTH || call.record.len() > 4_096 {
        return;
    }
    let with = |code: &[u8]| ConvertCall {
        code: code.to_vec(),
        output_length: 32_768,
        ..call.with_enough()
    };
    let (steps, given) = steps_and_given(&with(&call.code), implementation, buffers);
    let Ok(answer) = given else {
        return;
    };
    let (more_steps, again) = steps_and_given(&with(&longer), implementation, buffers);
    let prices = pieces(&answer).into_iter().map(|entry| 2 + 2 * entry.len());
    let expected = steps + prices.sum::<usize>() as u64;
    let same = again.as_ref() == Ok(&answer) && more_steps == expected;
    law(same, "an empty text joined", call, &(more_steps, again));
}
