//! What generated calls have reached: every refusal, every code letter, every
//! elm, every mask option, every kind of test, every limit on both sides, the
//! halves at which masks round, blanks wherever a number is read, every operator
//! and operand of an A code, the entries that F codes leave, and the edges of months.

mod algebra;
mod blanks;
mod entries;
mod limits;
mod masks;
mod months;
mod patterns;
mod steps;
mod values;
mod words;

use std::collections::BTreeSet;

use sundewfrill_host::Refusal;

/// What was reached by the calls of one kind.
#[derive(Debug, Default)]
pub struct Coverage {
    /// How often each refusal number was given; 0 counts the accepted calls.
    refusals: [u64; Refusal::ALL.len() + 1],
    tags: BTreeSet<&'static str>,
    /// Whether there are too few calls to reach everything.
    short: bool,
}

impl Coverage {
    /// Nothing yet. Of a short run nothing will be required.
    pub fn new(short: bool) -> Self {
        Coverage {
            short,
            ..Coverage::default()
        }
    }

    /// Notes a refusal number.
    pub fn refusal(&mut self, number: u64) {
        self.refusals[number as usize] += 1;
    }

    /// Notes a tag if it holds.
    fn tag_if(&mut self, holds: bool, tag: &'static str) {
        if holds {
            self.tags.insert(tag);
        }
    }

    /// The same where it takes a while to tell: no more is asked once it held.
    fn tag_until(&mut self, tag: &'static str, holds: impl FnOnce() -> bool) {
        if !self.tags.contains(tag) && holds() {
            self.tags.insert(tag);
        }
    }

    /// How many calls were accepted, and how many refused with which number.
    pub fn summary(&self) -> String {
        let refused = self.refusals.iter().enumerate().skip(1);
        let counts: Vec<String> = refused
            .filter(|(_, &count)| count > 0)
            .map(|(number, count)| format!("{number}: {count}"))
            .collect();
        format!(
            "{} accepted, refused {}",
            self.refusals[0],
            counts.join(", ")
        )
    }

    /// Fails unless all these refusals (and acceptance) and tags were reached,
    /// or the run is a short one.
    pub fn require(&self, call: &str, refusals: &[u64], tags: &[&[&'static str]]) {
        if self.short {
            return;
        }
        let counts = &self.refusals;
        for &number in [0].iter().chain(refusals) {
            assert!(
                counts[number as usize] > 0,
                "{call}: no refusal {number}: {counts:?}"
            );
        }
        let missing: Vec<_> = tags
            .concat()
            .into_iter()
            .filter(|tag| !self.tags.contains(tag))
            .collect();
        assert!(missing.is_empty(), "{call}: not reached: {missing:?}");
    }
}
