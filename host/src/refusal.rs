//! The reasons for which a call refuses.

use std::error::Error;
use std::fmt;

/// Why a call refused. Each case has the number that the documents give it.
///
/// There may be more of them one day: a `match` outside this package needs an
/// arm for the others.
#[derive(Clone, Copy, Debug, PartialEq, Eq, PartialOrd, Ord, Hash)]
#[non_exhaustive]
#[repr(u8)]
pub enum Refusal {
    /// 1: the record, or the record after replacing, is over 32,768 bytes.
    RecordTooLong = 1,
    /// 2: byte 251 or 255 stands in the record.
    ByteNotForRecords = 2,
    /// 3: the item-id is over 48 bytes (also after replacing) or holds 252 or 253.
    BadItemId = 3,
    /// 4: the address is out of its sizes or leaves a gap.
    BadAddress = 4,
    /// 5: the code string, an A code or its F text is over 512 bytes.
    CodeTooLong = 5,
    /// 6: a code is not in the grammar, or an A code is not an expression.
    NotInGrammar = 6,
    /// 7: an F code takes more entries than are there, or would hold 17.
    StackMisused = 7,
    /// 8: scratch is under 20,480 bytes.
    ScratchTooShort = 8,
    /// 9: an element, a stack entry or a result is over 1,024 bytes.
    ElementTooLong = 9,
    /// 10: a number, product, scaled value or day is outside its range.
    OutOfRange = 10,
    /// 11: division or remainder by zero.
    DivisionByZero = 11,
    /// 12: the element cannot be converted by this code.
    NotConvertible = 12,
    /// 13: MY would produce a byte 251 to 255.
    MarkProduced = 13,
    /// 14: the text is wider than its mask.
    WiderThanMask = 14,
    /// 15: the budget does not cover the next step.
    OverBudget = 15,
    /// 16: the output is shorter than the answer.
    OutputTooShort = 16,
    /// 17: the new element for replacing holds a byte 251 to 255.
    MarkInNewElement = 17,
    /// 18: an F code ends with more than one entry.
    EntriesLeftOver = 18,
}

impl Refusal {
    /// Every refusal, in the order of the numbers.
    pub const ALL: &'static [Refusal] = &[
        Refusal::RecordTooLong,
        Refusal::ByteNotForRecords,
        Refusal::BadItemId,
        Refusal::BadAddress,
        Refusal::CodeTooLong,
        Refusal::NotInGrammar,
        Refusal::StackMisused,
        Refusal::ScratchTooShort,
        Refusal::ElementTooLong,
        Refusal::OutOfRange,
        Refusal::DivisionByZero,
        Refusal::NotConvertible,
        Refusal::MarkProduced,
        Refusal::WiderThanMask,
        Refusal::OverBudget,
        Refusal::OutputTooShort,
        Refusal::MarkInNewElement,
        Refusal::EntriesLeftOver,
    ];

    /// The last of them: no call refuses with a number over its own.
    pub const LAST: Refusal = Self::ALL[Self::ALL.len() - 1];

    /// The number that the documents give this refusal, 1 to that of [`Refusal::LAST`].
    pub const fn number(self) -> u64 {
        self as u64
    }

    /// The refusal with this number; `None` for 0 and for numbers over the last one's.
    pub fn from_number(number: u64) -> Option<Refusal> {
        let place = usize::try_from(number.checked_sub(1)?).ok()?;
        Self::ALL.get(place).copied()
    }

    /// When this refusal is given, in a sentence.
    pub fn when(self) -> &'static str {
        let [_, when, _] = self.row();
        when
    }

    /// What a learner should do about it, in a sentence or more.
    pub fn advice(self) -> &'static str {
        let [_, _, advice] = self.row();
        advice
    }

    /// The row of this refusal. The tests below see that there is one.
    fn row(self) -> Row {
        let number = self.number();
        rows()
            .find(|[cell, _, _]| cell.parse() == Ok(number))
            .expect("every refusal has a row in docs/REFUSALS.md")
    }
}

/// The document with the table of refusals, which has all their sentences.
const DOCUMENT: &str = include_str!("../../docs/REFUSALS.md");

/// A row of that table: number, when the refusal is given, and what to do.
type Row = [&'static str; 3];

/// The table's rows, its header among them.
fn rows() -> impl Iterator<Item = Row> {
    DOCUMENT.lines().filter_map(|line| {
        let line = line.strip_prefix("| ")?.strip_suffix(" |")?;
        let mut cells = line.split(" | ");
        let row = [cells.next()?, cells.next()?, cells.next()?];
        cells.next().is_none().then_some(row)
    })
}

impl fmt::Display for Refusal {
    fn fmt(&self, f: &mut fmt::Formatter<'_>) -> fmt::Result {
        let (number, [_, when, advice]) = (self.number(), self.row());
        write!(f, "refusal {number}: {when} {advice}")
    }
}

impl Error for Refusal {}

#[cfg(test)]
mod tests {
    use super::*;
    use crate::{paper, SCRATCH_LENGTH};

    #[test]
    fn numbers_and_refusals_match() {
        for (place, &refusal) in Refusal::ALL.iter().enumerate() {
            assert_eq!(refusal.number(), place as u64 + 1);
            assert_eq!(Refusal::from_number(refusal.number()), Some(refusal));
        }
        assert_eq!(Refusal::LAST, Refusal::EntriesLeftOver);
        assert_eq!(Refusal::LAST.number(), 18);
        assert_eq!(Refusal::LAST.number(), Refusal::ALL.len() as u64);
        assert_eq!(Refusal::from_number(0), None);
        assert_eq!(Refusal::from_number(Refusal::LAST.number() + 1), None);
        assert_eq!(Refusal::from_number(u64::MAX), None);
    }

    /// The table has a header, a rule, and one row for each refusal, in their order.
    #[test]
    fn every_refusal_has_its_row() {
        let table = DOCUMENT.lines().filter(|line| line.contains('|'));
        assert_eq!(table.count(), 2 + Refusal::ALL.len());
        let numbers = Refusal::ALL.iter().map(|refusal| refusal.number());
        let expected: Vec<String> = numbers.map(|number| number.to_string()).collect();
        let mut rows = rows();
        let header = ["No.", "given when", "what a learner should do"];
        assert_eq!(rows.next(), Some(header));
        assert_eq!(rows.map(|[cell, _, _]| cell).collect::<Vec<_>>(), expected);
    }

    /// All that the table says of refusals.
    fn texts() -> Vec<&'static str> {
        let both = |refusal: &Refusal| [refusal.when(), refusal.advice()];
        Refusal::ALL.iter().flat_map(both).collect()
    }

    #[test]
    fn texts_are_sentences() {
        let begins = |first: char| first.is_ascii_uppercase() || first.is_ascii_digit();
        for text in texts() {
            assert!(text.starts_with(|c| begins(c) || c == '`'), "{text}");
            assert!(text.ends_with('.'), "{text}");
            assert!(!text.contains('|') && !text.contains("  "), "{text}");
        }
    }

    #[test]
    fn every_text_is_its_own() {
        let texts = texts();
        for (place, one) in texts.iter().enumerate() {
            assert!(!texts[..place].contains(one), "twice: {one}");
        }
    }

    #[test]
    fn a_refusal_says_all() {
        let said = Refusal::StackMisused.to_string();
        let (when, advice) = (Refusal::StackMisused.when(), Refusal::StackMisused.advice());
        assert!(when.starts_with("An F code takes more entries than are there"));
        assert!(advice.starts_with("Count what each elm takes and puts"));
        assert_eq!(said, format!("refusal 7: {when} {advice}"));
    }

    /// The table is text of its own: this holds its numbers to the limits.
    #[test]
    fn sentences_have_the_limits() {
        for (refusal, limit) in [
            (Refusal::RecordTooLong, paper::RECORD_LENGTH),
            (Refusal::BadItemId, paper::ID_LENGTH),
            (Refusal::CodeTooLong, paper::CODE_LENGTH),
            (Refusal::StackMisused, paper::STACK_DEPTH),
            (Refusal::ScratchTooShort, SCRATCH_LENGTH),
            (Refusal::ElementTooLong, paper::ENTRY_LENGTH),
        ] {
            has_number(refusal.when(), limit as u64);
        }
        for limit in [paper::LAST_ATTRIBUTE, paper::LAST_VALUE] {
            has_number(Refusal::BadAddress.advice(), limit);
        }
    }

    /// Fails unless this number is a word of the text; its commas do not count.
    fn has_number(text: &str, number: u64) {
        let text = text.replace(',', "");
        let mut words = text.split([' ', '.', ':']);
        assert!(
            words.any(|word| word == number.to_string()),
            "{number}: {text}"
        );
    }
}
