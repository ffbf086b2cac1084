//! What document 02 promises of domains: how the check judges them, what they and S come
//! to and cost, and what the ceiling makes of them. Domains and last stretches are run and
//! judged as F codes of their own, which have no S in them.

use sundewfrill_host::outcome::{Check, Implementation};
use sundewfrill_host::paper::grammar::Which;
use sundewfrill_host::paper::{CODE_LENGTH, ENTRY_LENGTH, VALUE_MARK};
use sundewfrill_host::SCRATCH_LENGTH;

use super::super::buffers::Buffers;
use super::super::calls::{CeilingCall, ConvertCall};
use super::super::domains::{
    added, elements, has_nowhere, stretches, value_count, walk, Element, Position, Stretch,
    Stretches,
};
use super::codes::Behind;
use super::{law, part, pieces, steps_and_given};

/// The budget of a run that is looked at: some would take minutes.
const MOST_STEPS: u64 = 1_000_000;
/// At how many positions domains are run by themselves.
const MOST_POSITIONS: u64 = 150;
/// What one step that is neither a load nor a P code costs at most.
const MOST_OF_A_STEP: u64 = 4_097;

/// "each domain from 0 entries, the last stretch from as many as there are S": a code is
/// judged as its stretches are by themselves, 6 for LPV in a domain first, then 7 of any,
/// then 18 of any; and it is counted as they are, S in B.
pub fn judged(code: &[u8], alone: &Check, implementation: &Implementation) {
    let Some(Stretches { domains, last }) = stretches(code) else {
        return;
    };
    let judge = |code: Vec<u8>| (implementation.check)(&code);
    let sums = domains.len();
    let mut all: Vec<Check> = domains.iter().map(|domain| judge(domain.code())).collect();
    all.push(judge(last.code_on(&vec![String::new(); sums])));
    let is_empty = |domain: &Stretch| domain.text.is_empty();
    let any = |refusal: u64| all.iter().any(|one| one.refusal == refusal);
    let refusal = match domains.iter().any(Stretch::has_previous) {
        true => 6,
        false if any(7) || domains.iter().any(is_empty) => 7,
        false if any(18) => 18,
        false => 0,
    };
    let counted = |number: fn(&Check) -> u64| match refusal {
        0 => all.iter().map(number).sum(),
        _ => 0,
    };
    let expected = Check {
        refusal,
        code_number: u64::from(refusal != 0),
        loads: counted(|one| one.loads),
        // The last stretch had a literal for each sum, and S is a step.
        others: counted(|one| one.others),
        patterns: counted(|one| one.patterns),
        tests: counted(|one| one.tests),
    };
    let call = super::super::calls::CheckCall { code: code.to_vec() };
    law(*alone == expected, "a code and its stretches", &call, alone);
}

/// One S more makes a domain of what stands behind the last one: of a code without any it
/// is judged as before, of an accepted one that has some it lacks the sums.
pub fn one_more(code: &[u8], alone: &Check, implementation: &Implementation) {
    let behind = Behind::new(code, ";S", implementation);
    let longer = [code, b";S"].concat();
    let Some(longer) = stretches(&longer) else {
        return;
    };
    match (alone.refusal, longer.domains.len()) {
        (0 | 7 | 18, _) if longer.domains.iter().any(Stretch::has_previous) => behind.must_be(6),
        (0, 1) => behind.must_count(alone, 1),
        (refusal @ (7 | 18), 1) => behind.must_be(refusal),
        (0, _) => behind.must_be(7),
        _ => {}
    }
}

/// Whether a domain of a code leaves entries over: nothing behind its S takes them.
pub fn leaves_over(code: &[u8], implementation: &Implementation) -> bool {
    let left = |domain: &Stretch| (implementation.check)(&domain.code()).refusal == 18;
    stretches(code).is_some_and(|stretches| stretches.domains.iter().any(left))
}

/// The most that the codes of an accepted string can cost on one element: "The ceiling
/// takes a domain's elms, S included, k times".
pub fn most(call: &CeilingCall, implementation: &Implementation) -> u64 {
    let most_of = |code: &[u8]| {
        let counts = (implementation.check)(code);
        let loads = counts.loads * (1_025 + call.record.len() as u64);
        let patterns = (counts.patterns + counts.tests) * 1_025;
        loads + counts.others * MOST_OF_A_STEP + patterns
    };
    let of_code = |code: &[u8]| {
        let Some(Stretches { domains, last }) = stretches(code) else {
            return most_of(code);
        };
        let of_domain = |domain: &Stretch| {
            let once = most_of(&domain.code()) + MOST_OF_A_STEP;
            domain.positions(&call.record, implementation) * once
        };
        let sums = vec![String::new(); domains.len()];
        let by_literals = sums.len() as u64 * MOST_OF_A_STEP;
        let on_sums = most_of(&last.code_on(&sums)) - by_literals;
        domains.iter().map(of_domain).sum::<u64>() + on_sums
    };
    let codes = call.code.split(|&byte| byte == VALUE_MARK);
    codes.map(of_code).sum()
}

/// All that is promised of a conversion by one accepted F code that has domains.
pub fn all(call: &ConvertCall, implementation: &Implementation, buffers: &mut Buffers) {
    let Some(stretches) = stretches(&call.code) else {
        return;
    };
    let found = (implementation.find)(&call.record, call.at);
    let checked = (implementation.check)(&call.code);
    if (found.refusal, checked.refusal) != (0, 0) {
        return;
    }
    let whole = Whole {
        call: ConvertCall {
            budget: MOST_STEPS,
            output_length: 65_536,
            scratch_length: SCRATCH_LENGTH,
            ..call.clone()
        },
        elements: elements(call, implementation),
        stretches,
        implementation,
    };
    let outcome = steps_and_given(&whole.call, implementation, buffers);
    if matches!(outcome.1, Err(15 | 16)) {
        return;
    }
    whole.one_total(&outcome);
    whole.by_positions(&outcome, buffers);
    whole.values_summed(buffers);
}

/// The steps of a run, and its answer or the number of its refusal.
type Outcome = (u64, Result<Vec<u8>, u64>);

/// A conversion by an F code with domains, and what it is made of.
struct Whole<'c> {
    call: ConvertCall,
    elements: Vec<Element<'c>>,
    stretches: Stretches<'c>,
    implementation: &'c Implementation,
}

impl Whole<'_> {
    /// "every value of an attribute shows the same total": where the last stretch looks at
    /// no value of the position, elements of the same subvalue show the same.
    fn one_total(&self, outcome: &Outcome) {
        let last = &self.stretches.last;
        let looks = last.has_previous() || !last.loads(Which::Same).is_empty();
        let (false, Ok(answer)) = (looks, &outcome.1) else {
            return;
        };
        let shown = pieces(answer);
        let all = shown.len() == self.elements.len();
        law(all, "an answer for each element", &self.call, &outcome);
        let first_like = |element: &Element| {
            let same = |other: &Element| other.subvalue() == element.subvalue();
            self.elements.iter().position(same)
        };
        let firsts = self.elements.iter().map(first_like);
        let same = firsts.zip(&shown).all(|(first, text)| {
            let first = first.map(|place| shown[place]);
            first == Some(text)
        });
        law(same, "the same total in every value", &self.call, &outcome);
    }

    /// A domain "runs on an empty stack for value positions 1 to k, at the subvalue of the
    /// call", and "elms after the last S run once" on the sums: the run is what these come
    /// to by themselves, with the price of each S.
    fn by_positions(&self, outcome: &Outcome, buffers: &mut Buffers) {
        let (record, implementation) = (&self.call.record, self.implementation);
        let domains = self.stretches.domains.iter();
        let positions = domains.map(|domain| domain.positions(record, implementation));
        let runs = positions.sum::<u64>() * self.elements.len() as u64;
        if runs > MOST_POSITIONS || !has_nowhere(record, implementation) {
            return;
        }
        if let Some(expected) = self.taken_apart(buffers) {
            let shown = (outcome, &expected);
            let same = *outcome == expected;
            law(same, "positions by themselves", &self.call, &shown);
        }
    }

    /// `None` if the sums, as literals before the last stretch, make too long a code.
    fn taken_apart(&self, buffers: &mut Buffers) -> Option<Outcome> {
        let (record, domains) = (&self.call.record, &self.stretches.domains);
        let (mut steps, mut answer) = (0, Vec::new());
        for element in &self.elements {
            // "An over-long element of the address is 9 before its first step, though no
            // domain looks at it."
            if element.bytes.len() > ENTRY_LENGTH {
                return Some((steps, Err(9)));
            }
            let s = element.subvalue();
            let positions = walk(record, domains, s, self.implementation, buffers);
            let prices = positions.iter().map(|one| one.steps + one.price());
            steps += prices.sum::<u64>();
            if let Some(Err(refusal)) = positions.last().map(|one| one.sum) {
                return Some((steps, Err(refusal)));
            }
            let (more, given) = self.on_sums(element, &sums(&positions), buffers)?;
            steps += more;
            match given {
                Ok(bytes) => answer.extend(bytes),
                refused => return Some((steps, refused)),
            }
            answer.extend(element.mark);
        }
        Some((steps, Ok(answer)))
    }

    /// What the last stretch comes to at an element, on these sums, which cost nothing.
    fn on_sums(&self, element: &Element, sums: &[String], buffers: &mut Buffers) -> Option<Outcome> {
        let code = self.stretches.last.code_on(sums);
        let fits = code.len() <= CODE_LENGTH;
        let call = ConvertCall {
            code,
            at: element.at,
            ..self.call.with_enough()
        };
        let literals: usize = sums.iter().map(|sum| 1 + sum.len()).sum();
        fits.then(|| {
            let (steps, given) = steps_and_given(&call, self.implementation, buffers);
            (steps - literals as u64, given)
        })
    }

    /// `F;n;S` gives the sum of the numbers of the attribute's values, at the subvalue of
    /// each element, for an attribute that is loaded here.
    fn values_summed(&self, buffers: &mut Buffers) {
        let domains = self.stretches.domains.iter();
        let ways = [Which::Same, Which::FirstValue, Which::First];
        let mut loads = domains.flat_map(|domain| ways.map(|way| domain.loads(way)).concat());
        let attribute = loads.next().unwrap_or(self.call.at.a);
        let values = value_count(&self.call.record, attribute, self.implementation);
        if values * self.elements.len() as u64 > 10 * MOST_POSITIONS {
            return;
        }
        let call = ConvertCall {
            code: format!("F;{attribute};S").into_bytes(),
            ..self.call.clone()
        };
        let given = steps_and_given(&call, self.implementation, buffers);
        if given.1 != Err(15) {
            let expected = self.sum_of(attribute, values.max(1));
            let shown = (&given, &expected);
            law(given == expected, "the sum of the values", &call, &shown);
        }
    }

    /// The sums of an attribute's values, at these positions, as finding reads them.
    fn sum_of(&self, attribute: u64, values: u64) -> Outcome {
        let record = &self.call.record;
        let (mut steps, mut answer) = (0, Vec::new());
        for element in &self.elements {
            if element.bytes.len() > ENTRY_LENGTH {
                return (steps, Err(9));
            }
            let mut sum = 0;
            for v in 1..=values {
                let at = super::super::domains::value_at(attribute, v, element.subvalue());
                let value = part(record, &(self.implementation.find)(record, at));
                if value.len() > ENTRY_LENGTH {
                    return (steps, Err(9));
                }
                steps += (1 + record.len() + value.len()) as u64;
                sum = match added(sum, value) {
                    Ok(sum) => sum,
                    Err(refusal) => return (steps, Err(refusal)),
                };
                steps += (1 + value.len() + sum.to_string().len()) as u64;
            }
            answer.extend(sum.to_string().bytes());
            answer.extend(element.mark);
        }
        (steps, Ok(answer))
    }
}

/// What each domain comes to at the last of its positions.
fn sums(positions: &[Position]) -> Vec<String> {
    let mut sums: Vec<String> = Vec::new();
    for one in positions {
        sums.truncate(one.domain);
        sums.extend(one.sum.ok().map(|sum| sum.to_string()));
    }
    sums
}
