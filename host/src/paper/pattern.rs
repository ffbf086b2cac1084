//! The P code: an element against patterns.

use super::ENTRY_LENGTH;

/// What a P code says: patterns of which one has to pass.
#[derive(Clone, Debug, PartialEq, Eq)]
pub struct PatternCode<'c> {
    /// The patterns, one or more.
    pub patterns: Vec<Pattern<'c>>,
}

/// A pattern: it passes an element that can be cut into consecutive parts which
/// meet its tests in turn.
#[derive(Clone, Debug, PartialEq, Eq)]
pub struct Pattern<'c> {
    /// The tests, one or more.
    pub tests: Vec<Test<'c>>,
}

/// A test of one part of an element.
#[derive(Clone, Copy, Debug, PartialEq, Eq)]
pub enum Test<'c> {
    /// An n of 0 and a class: any number of its bytes, and none.
    AnyNumber(Class),
    /// An n above 0 and a class: so many of its bytes.
    Exactly(usize, Class),
    /// Bytes in quotes.
    Literal(&'c [u8]),
}

/// A class of bytes.
#[derive(Clone, Copy, Debug, PartialEq, Eq)]
pub enum Class {
    /// `N`: the digits.
    Numeric,
    /// `A`: the letters of both cases.
    Alphabetic,
    /// `X`: all bytes.
    Any,
}

impl Class {
    fn has(self, byte: u8) -> bool {
        match self {
            Class::Numeric => byte.is_ascii_digit(),
            Class::Alphabetic => byte.is_ascii_alphabetic(),
            Class::Any => true,
        }
    }
}

impl PatternCode<'_> {
    /// T: how many tests the patterns have in all.
    pub fn tests(&self) -> usize {
        self.patterns
            .iter()
            .map(|pattern| pattern.tests.len())
            .sum()
    }

    /// How much the code leaves of an element: all of it if a pattern passes,
    /// else nothing.
    pub fn left_of(&self, element: &[u8]) -> usize {
        let passes = |pattern: &Pattern| pattern.passes(element);
        if self.patterns.iter().any(passes) {
            element.len()
        } else {
            0
        }
    }
}

/// Which ends of an element can be cut for the last tests of a pattern: place p
/// holds if the bytes from p on can.
type Ends = [bool; ENTRY_LENGTH + 1];

impl Pattern<'_> {
    /// Whether some cut of the element, at most 1,024 bytes, meets the tests.
    ///
    /// The tests are taken from the last one back. What a test makes of an end
    /// hangs only on shorter or equal ends and the tests behind it, so each end
    /// is looked at once for each test, however many cuts there are.
    pub fn passes(&self, element: &[u8]) -> bool {
        let mut ends = [false; ENTRY_LENGTH + 1];
        // For no test at all nothing may be left over.
        ends[element.len()] = true;
        for test in self.tests.iter().rev() {
            ends = with_test_before(*test, element, &ends);
        }
        ends[0]
    }
}

/// The ends that can be cut for a test and then for those behind it, whose ends
/// are `behind`.
fn with_test_before(test: Test, element: &[u8], behind: &Ends) -> Ends {
    let mut ends = [false; ENTRY_LENGTH + 1];
    let length = element.len();
    match test {
        Test::AnyNumber(class) => {
            // None of the class, or one and then any number of it again.
            let mut good = behind[length];
            ends[length] = good;
            let places = ends[..length].iter_mut().zip(&behind[..length]);
            for ((end, &rest), &byte) in places.zip(element).rev() {
                good = rest || (good && class.has(byte));
                *end = good;
            }
        }
        Test::Exactly(count, class) => {
            // How many bytes of the class stand together from the place on.
            let mut together = 0;
            for place in (0..length).rev() {
                together = if class.has(element[place]) {
                    together + 1
                } else {
                    0
                };
                ends[place] = together >= count && behind[place + count];
            }
        }
        Test::Literal(bytes) => {
            for (end, &rest) in behind[..=length].iter().enumerate().skip(bytes.len()) {
                let start = end - bytes.len();
                ends[start] = rest && element[start..end] == *bytes;
            }
        }
    }
    ends
}

#[cfg(test)]
mod tests {
    use super::*;

    const TESTS: [Test; 14] = [
        Test::AnyNumber(Class::Numeric),
        Test::AnyNumber(Class::Alphabetic),
        Test::AnyNumber(Class::Any),
        Test::Exactly(1, Class::Numeric),
        Test::Exactly(2, Class::Numeric),
        Test::Exactly(1, Class::Alphabetic),
        Test::Exactly(2, Class::Alphabetic),
        Test::Exactly(1, Class::Any),
        Test::Exactly(3, Class::Any),
        Test::Literal(b""),
        Test::Literal(b"a"),
        Test::Literal(b"aa"),
        Test::Literal(b"1a"),
        Test::Literal(b"-"),
    ];

    /// Whether a part meets a test.
    fn meets(part: &[u8], test: Test) -> bool {
        match test {
            Test::AnyNumber(class) => part.iter().all(|&byte| class.has(byte)),
            Test::Exactly(count, class) => {
                part.len() == count && part.iter().all(|&byte| class.has(byte))
            }
            Test::Literal(bytes) => part == bytes,
        }
    }

    /// Whether there is a cut, by trying all of them.
    fn has_cut(element: &[u8], tests: &[Test]) -> bool {
        let Some((&test, others)) = tests.split_first() else {
            return element.is_empty();
        };
        let mut cuts = (0..=element.len()).map(|place| element.split_at(place));
        cuts.any(|(part, rest)| meets(part, test) && has_cut(rest, others))
    }

    fn passes(tests: &[Test], element: &[u8]) -> bool {
        let tests = tests.to_vec();
        Pattern { tests }.passes(element)
    }

    /// All elements of at most this length of three bytes, one of each kind.
    fn elements(length: usize) -> Vec<Vec<u8>> {
        let mut elements = vec![Vec::new()];
        let mut from = 0;
        for _ in 0..length {
            let until = elements.len();
            for place in from..until {
                elements.extend(b"a1-".map(|byte| [&elements[place], &[byte][..]].concat()));
            }
            from = until;
        }
        elements
    }

    /// All patterns of one, two and three tests on all short elements.
    #[test]
    fn passes_where_a_cut_exists() {
        let elements = elements(5);
        assert_eq!(elements.len(), 364);
        let agree = |tests: &[Test]| {
            for element in &elements {
                let cut = has_cut(element, tests);
                assert_eq!(passes(tests, element), cut, "{tests:?} on {element:02x?}");
            }
        };
        for one in TESTS {
            agree(&[one]);
            for two in TESTS {
                agree(&[one, two]);
                for three in TESTS {
                    agree(&[one, two, three]);
                }
            }
        }
    }

    /// The classes hold what their letters say, and no byte beside them.
    #[test]
    fn classes() {
        for byte in 0..=255 {
            let digit = (48..=57).contains(&byte);
            assert_eq!(Class::Numeric.has(byte), digit, "{byte}");
            let letter = (65..=90).contains(&byte) || (97..=122).contains(&byte);
            assert_eq!(Class::Alphabetic.has(byte), letter, "{byte}");
            assert!(Class::Any.has(byte), "{byte}");
        }
    }

    /// The longest elements, and more cuts than anybody could try.
    #[test]
    fn long_elements() {
        let element = [b'a'; ENTRY_LENGTH];
        let any = Test::AnyNumber(Class::Any);
        let many = [[any; 200].as_slice(), &[Test::Literal(b"b")]].concat();
        assert!(!passes(&many, &element));
        assert!(passes(&many[..200], &element));
        let whole = Test::Exactly(ENTRY_LENGTH, Class::Alphabetic);
        assert!(passes(&[whole], &element));
        assert!(!passes(&[whole], &element[1..]));
        assert!(passes(&[any, Test::Literal(&element)], &element));
    }
}
