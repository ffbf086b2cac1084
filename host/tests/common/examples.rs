//! The examples of document 01 and of requests L1 to L5 of document 02, and the
//! points at which their readings part.

mod algebra;
mod entries;

use sundewfrill_host::outcome::{Address, Ceiling, Check, Convert, Implementation, TypedDate};
use sundewfrill_host::{paper, SCRATCH_LENGTH};

use super::buffers::Buffers;
use super::calls::{ConvertCall, ReplaceCall};
use super::generator::NEAR_MISSES;
use super::marks::marked;

/// Converts `record` at `at` by `code` and gives refusal, steps and answer.
fn converted(
    implementation: &Implementation,
    record: &[u8],
    code: &[u8],
    at: Address,
    budget: u64,
) -> (Convert, Vec<u8>) {
    let call = ConvertCall {
        record: record.to_vec(),
        code: code.to_vec(),
        at,
        budget,
        output_length: paper::RECORD_LENGTH,
        scratch_length: SCRATCH_LENGTH,
    };
    outcome(implementation, &call)
}

/// The refusal number and the answer of `code` on one element.
fn given(implementation: &Implementation, code: &str, element: &str) -> (u64, String) {
    let call = ConvertCall::of_element(code.as_bytes(), element.as_bytes());
    let (outcome, answer) = outcome(implementation, &call);
    (
        outcome.refusal,
        String::from_utf8_lossy(&answer).into_owned(),
    )
}

/// What comes of a call, and its answer.
fn outcome(implementation: &Implementation, call: &ConvertCall) -> (Convert, Vec<u8>) {
    let mut buffers = Buffers::default();
    let outcome = call.run(implementation, &mut buffers);
    let answer = buffers.output.after()[..outcome.length as usize].to_vec();
    (outcome, answer)
}

/// Runs all examples.
pub fn run(implementation: &Implementation) {
    counted(implementation);
    ceilings(implementation);
    single_codes(implementation);
    halves(implementation);
    blanks(implementation);
    patterns(implementation);
    pattern_prices(implementation);
    lengths(implementation);
    replacing(implementation);
    checking(implementation);
    checking_patterns(implementation);
    typed_dates(implementation);
    algebra::run(implementation);
    entries::run(implementation);
}

/// Steps and budget.
fn counted(implementation: &Implementation) {
    let record = marked("K1^10]20^3");
    let at = Address::new(1, 0, 0);
    let code = b"F;1;2R;*";
    let whole = converted(implementation, &record, code, at, 1_000_000);
    let expected = Convert {
        refusal: 0,
        steps: 62,
        length: 5,
    };
    assert_eq!(whole, (expected, marked("30]60")));
    let exact = converted(implementation, &record, code, at, 62);
    assert_eq!(exact, whole);
    let short = converted(implementation, &record, code, at, 61);
    let expected = Convert {
        refusal: 15,
        steps: 56,
        length: 0,
    };
    assert_eq!(short, (expected, Vec::new()));
    let input = b"F;1;2R;*\n1,0,0\nK1\xfe10\xfd20\xfe3";
    let output = paper::program_with(input, implementation.convert);
    assert_eq!(output, b"0 62 30]60\n");
}

/// Ceilings, and what is refused before a run.
fn ceilings(implementation: &Implementation) {
    let whole = (1, 0, 0);
    for (record, code, (a, v, s), refusal, ceiling) in [
        ("K1^10]20^3", "F;1;2R;*", whole, 0, 12_334),
        // The elements of a value, of a subvalue, of the id, of a missing place.
        ("K1^A\\B]C^D", "L", whole, 0, 3 * 4_097),
        ("K1^A\\B]C^D", "L", (1, 1, 0), 0, 2 * 4_097),
        ("K1^A\\B]C^D", "L", (1, 1, 2), 0, 4_097),
        ("K1^A\\B]C^D", "F;0", (0, 0, 0), 0, 1_025 + 10),
        ("K1", "F;1;LPV;:]MCU", (7, 0, 0), 0, 1_025 + 2 + 3 * 4_097),
        ("K1", "", whole, 0, 0),
        ("K1^10]20^3", "F;1;(P(1N);(2A))", whole, 0, 8_220),
        ("K1", "P(1N);(2A'-'0X)]L]P('')", whole, 0, 7 * 1_025 + 4_097),
        // An element over 1,024 bytes is refused by the run alone.
        (&["K1^", &"A".repeat(1_025)].concat(), "L", whole, 0, 4_097),
        // In converting's order.
        (&"A".repeat(32_769), "?", (1, 0, 1), 1, 0),
        ("A]^", "?", (1, 0, 1), 3, 0),
        ("K1", "?", (1, 0, 1), 4, 0),
        ("K1", &"?".repeat(513), whole, 5, 0),
        ("K1", "L]F;1;+;?", whole, 6, 0),
        ("K1", "L]F;1;+]?", whole, 7, 0),
        ("K1", "L]F;1;P]?", whole, 18, 0),
    ] {
        let at = Address::new(a, v, s);
        let outcome = (implementation.ceiling)(&marked(record), &marked(code), at);
        let expected = Ceiling { refusal, ceiling };
        assert_eq!(outcome, expected, "{code} on {record} at {at:?}");
    }
    let outcome = (implementation.ceiling)(b"A\xfd\xff", b"?", Address::new(1, 0, 1));
    assert_eq!((outcome.refusal, outcome.ceiling), (2, 0));
}

/// A code, an element, and what that gives: a refusal number and an answer.
type Given = (&'static str, &'static str, u64, &'static str);

/// Fails unless each code of the table gives what it says.
fn all_given(implementation: &Implementation, table: &[Given]) {
    for &(code, element, refusal, answer) in table {
        let outcome = given(implementation, code, element);
        assert_eq!(
            outcome,
            (refusal, answer.to_owned()),
            "{code} on {element:?}"
        );
    }
}

/// The same with the steps before the answer.
type Counted = (&'static str, &'static str, u64, u64, &'static str);

/// Fails unless each code of the table gives what it says, for so many steps.
fn all_counted(implementation: &Implementation, table: &[Counted]) {
    for &(code, element, refusal, steps, answer) in table {
        let call = ConvertCall::of_element(code.as_bytes(), element.as_bytes());
        let expected = Convert {
            refusal,
            steps,
            length: answer.len() as u64,
        };
        let expected = (expected, answer.as_bytes().to_vec());
        let outcome = outcome(implementation, &call);
        assert_eq!(outcome, expected, "{code} on {element:?}");
    }
}

/// What single codes give, or with which number they refuse.
fn single_codes(implementation: &Implementation) {
    const TABLE: [Given; 57] = [
        // From the paper.
        ("F;'7';'2';-", "", 0, "5"),
        ("F;'-7';'2';/", "", 0, "-3"),
        ("F;'-7';'2';R", "", 0, "-1"),
        ("F;'7';'0';/", "", 11, ""),
        ("F;1;+", "", 7, ""),
        ("D", "0", 0, "31 DEC 1967"),
        ("D", "60", 0, "29 FEB 1968"),
        ("D2/", "1", 0, "01/01/68"),
        ("D", "10000", 0, "18 MAY 1995"),
        ("D", "-1", 0, "30 DEC 1967"),
        ("D", "2933628", 0, "31 DEC 9999"),
        ("D", "2933629", 10, ""),
        ("MR2", "1234", 0, "12.34"),
        ("MR2M", "-5", 0, "0.05-"),
        ("MR2(#4)", "1234", 14, ""),
        ("G1*1", "AB*CD*EF", 0, "CD"),
        ("T2,3", "ABCDE", 0, "BCD"),
        // Where it can be misread.
        ("D", "-718430", 0, "01 JAN 0001"),
        ("D", "-718431", 10, ""),
        ("D0", "0", 0, "31 DEC"),
        ("D0/", "0", 0, "12/31"),
        ("D ", "0", 0, "12 31 1967"),
        ("D1", "0", 0, "31 DEC 7"),
        ("D", "", 0, ""),
        ("D", "x", 12, ""),
        ("MR2$", "-5", 0, "$-0.05"),
        ("MR2E$", "-5", 0, "$<0.05>"),
        ("MR2E", "5", 0, "0.05 "),
        ("MR0D", "-5", 0, "-5  "),
        ("MR0D", "5", 0, "5DB"),
        ("MR0C", "-5", 0, "5CR"),
        ("MR0C", "0", 0, "0  "),
        ("MR0N", "-5", 0, "5"),
        ("MR(%5)", "-5", 0, "000-5"),
        ("ML(*5)", "-5", 0, "-5***"),
        ("MRZ(*3)", "-0", 0, "   "),
        ("MRZC$", "000", 0, ""),
        ("MR01Z", "4", 0, "0"),
        ("MR20", "5", 0, "5.00"),
        ("MR,", "-1234567", 0, "-1,234,567"),
        ("MR9", "1234567890123", 0, "1234.567890123"),
        ("MR", "999999999999999", 0, "999999999999999"),
        ("MR(#3)", "", 0, ""),
        ("MR", "1.5", 12, ""),
        ("MY", "4b31", 0, "K1"),
        ("MY", "FB", 13, ""),
        ("MY", "FBx", 12, ""),
        ("MX", "K1", 0, "4B31"),
        ("MCT", "3rd of JULY", 0, "3Rd Of July"),
        ("L", "", 0, "0"),
        ("G2*1", "A*B", 0, ""),
        ("F;LPV;'5';[", "3", 0, "1"),
        ("F;LPV;'0';=", "", 0, "0"),
        ("F;'9999999999999999';P;=", "", 10, ""),
        ("F;'9999999999999999';'x';<", "", 0, "1"),
        ("F;'ABC';'-3';'2';[]", "", 0, "AB"),
        ("F;'999999999999999';'10';*1", "", 10, ""),
    ];
    all_given(implementation, &TABLE);
}

/// Masks round halves away from zero; nothing else does.
fn halves(implementation: &Implementation) {
    const TABLE: [Given; 19] = [
        ("MR01", "25", 0, "3"),
        ("MR01", "-25", 0, "-3"),
        ("MR01", "-24", 0, "-2"),
        ("MR01", "-26", 0, "-3"),
        ("MR01", "-5", 0, "-1"),
        ("MR01", "-4", 0, "0"),
        ("MR01C", "-5", 0, "1CR"),
        ("MR01C", "-4", 0, "0  "),
        ("MR01Z", "-4", 0, "0"),
        ("MR01Z", "-5", 0, "-1"),
        ("MR01(#1)", "25", 0, "3"),
        ("MR01(#1)", "-25", 14, ""),
        ("MR01,", "-9995", 0, "-1,000"),
        ("MR24,", "-123456750", 0, "-12,345.68"),
        ("MR01", "-999999999999995", 0, "-100000000000000"),
        ("MR90", "1000000", 10, ""),
        ("MR90", "-1000000", 10, ""),
        ("F;'-25';'1';*1", "", 0, "-2"),
        ("F;'-25';'10';/", "", 0, "-2"),
    ];
    all_given(implementation, &TABLE);
}

/// Numbers with blanks round them, texts that are none, what they cost, and an address
/// with a blank.
fn blanks(implementation: &Implementation) {
    const TABLE: [Counted; 29] = [
        // Of the readings.
        ("F;' 42';'1';+", "", 0, 13, "43"),
        ("F;' +5 ';'1';+", "", 0, 14, "6"),
        ("F;'  ';'1';+", "", 0, 10, "1"),
        ("F;'- 5';'1';+", "", 0, 12, "1"),
        ("F;'4 2';'1';+", "", 0, 12, "1"),
        ("F;'\t5';'1';+", "", 0, 10, "1"),
        ("F;'abcdef';' 2 ';' 3';[]", "", 0, 29, "bcd"),
        ("F;'42 ';' 42';=", "", 0, 16, "1"),
        ("F;' 9';'10';<", "", 0, 12, "1"),
        ("F;'  ';'0';=", "", 0, 10, "0"),
        ("F;' 1000000000000000 ';'1';+", "", 10, 21, ""),
        ("F;' 1000000000000000 ';'x';=", "", 0, 42, "0"),
        ("F;' 42';'';:", "", 0, 12, " 42"),
        ("MR2", " 1234 ", 0, 12, "12.34"),
        ("MR2", "  ", 12, 0, ""),
        ("MR2Z", " 0 ", 0, 4, ""),
        ("MR2Z(#4)", " 00 ", 0, 9, "    "),
        ("D", " 0", 0, 14, "31 DEC 1967"),
        ("D", " ", 12, 0, ""),
        ("D", "0\t", 12, 0, ""),
        ("D", " 2933629 ", 10, 0, ""),
        ("L", " 42", 0, 5, "3"),
        ("MY", " 41", 12, 0, ""),
        // Where they could be misread.
        ("ML", " -5  ", 0, 8, "-5"),
        ("F;LPV;' 7 ';*", "6 ", 0, 15, "42"),
        ("F;LPV;'0 ';/", " 7", 11, 6, ""),
        ("F;' 42 ';P;_;:", "", 0, 52, " 42  42 "),
        ("F;'ab';'1';'  ';[]", "", 0, 14, ""),
        ("F;LPV;(MR0M);(MR2)", "5", 0, 13, "0.05"),
    ];
    all_counted(implementation, &TABLE);
    let written = paper::program_with(b"MR2\n 1,0,0\nK\xfe5", implementation.convert);
    assert_eq!(written, b"4 0 \n");
}

/// Which elements patterns pass and which they empty, parted by `|`. A P code
/// gives the element or nothing.
fn patterns(implementation: &Implementation) {
    for (code, passed, emptied) in [
        ("P(3N)", "123", "12|1234|12a|-12| 42"),
        ("P(2N)", "42", " 42|42 |+4|-4|4/|:4"),
        ("P(2A)", "aZ|Az", "a|a1|a-|@a|[a|`a|{a|a\u{e4}"),
        ("P(3X)", "abc|1 -", "ab|abcd"),
        ("P(1N2A3X)", "1ab?? ", "1ab??|ab1???"),
        ("P(1N1N1X)", "777|77a", "77|7777|7a7"),
        ("P(0N1N)", "7|77", "a|7a"),
        ("P(0N1A0N)", "a|7a|a7|77a7", "7|aa|7a7a"),
        ("P(0N500N0N)", "", "7"),
        ("P(0X'a')", "a|banana", "b|ab"),
        ("P(0X'aa')", "aa|aaa", "a|aab"),
        ("P(001N)", "7", "77"),
        ("P(00N)", "7|77", "a"),
        ("P(000A)", "ab", "a1"),
        ("P('')", "", "a|'"),
        ("P('a''b')", "ab", "a'b|a''b"),
        ("P(\"it's\")", "it's", "its"),
        ("P(');(')", ");(", ";"),
        ("P(1N);(2A)", "1|ab", "1ab|a|12"),
        ("P(1N);(2A'-'0X)", "7|ab-|ab-12", "ab|7-"),
        ("F;LPV;(P(1N);(2A))", "1|ab", "1ab|a"),
    ] {
        for element in passed.split('|') {
            let outcome = given(implementation, code, element);
            assert_eq!(outcome, (0, element.to_owned()), "{code} on {element:?}");
        }
        for element in emptied.split('|') {
            let outcome = given(implementation, code, element);
            assert_eq!(outcome, (0, String::new()), "{code} on {element:?}");
        }
    }
}

/// What P steps cost: all tests of the code, tried or not, look at every place
/// of the element.
fn pattern_prices(implementation: &Implementation) {
    let longest = "a".repeat(1_024);
    for (code, element, steps) in [
        ("P(1N);(2A)", "AB", 1 + 2 * 3 + 2),
        ("P(1N);(2A)", "A1", 1 + 2 * 3),
        ("P(2A);(1N)", "AB", 1 + 2 * 3 + 2),
        ("P(0N)", "", 2),
        ("P(1N)", "", 2),
        ("P('')", "x", 3),
        ("P(0X'a')", "banana", 1 + 2 * 7 + 6),
        ("F;LPV;(P(1N));(L)", "7", 2 + (1 + 2 + 1) + (1 + 1 + 1)),
        ("P(1A)]P(1N)]P(0X0X)", "a", (1 + 2 + 1) + (1 + 2) + (1 + 2)),
        // As much as the ceiling says.
        ("P(0X)", &longest, 2 * 1_025),
        ("P(1N);(0A'a'0X)", &longest, 5 * 1_025),
    ] {
        let record = [b"K1\xfe", element.as_bytes()].concat();
        let (code, at) = (marked(code), Address::new(1, 0, 0));
        let (outcome, _) = converted(implementation, &record, &code, at, steps);
        assert_eq!((outcome.refusal, outcome.steps), (0, steps), "{code:02x?}");
        let (outcome, _) = converted(implementation, &record, &code, at, steps - 1);
        assert_eq!(outcome.refusal, 15, "{code:02x?}");
    }
}

/// Lengths on both sides of a limit.
fn lengths(implementation: &Implementation) {
    for (code, length, refusal) in [
        ("MX", 512, 0),
        ("MX", 513, 9),
        ("", 1_024, 0),
        ("", 1_025, 9),
        ("F;1;P;:", 512, 0),
        ("F;1;P;:", 513, 9),
    ] {
        let outcome = given(implementation, code, &"a".repeat(length));
        assert_eq!(outcome.0, refusal, "{code} on {length} bytes");
    }
}

/// Places replaced and made.
fn replacing(implementation: &Implementation) {
    for (record, (a, v, s), new, result) in [
        ("K1^A", (3, 2, 1), "X", "K1^A^^]X"),
        ("K1", (1, 0, 0), "", "K1^"),
        ("K1", (1, 1, 1), "X", "K1^X"),
        ("K1^A\\B]C^D", (1, 1, 3), "X", "K1^A\\B\\X]C^D"),
        ("K1^A\\B]C^D", (1, 1, 0), "X", "K1^X]C^D"),
        ("K1^A\\B]C^D", (1, 4, 2), "X", "K1^A\\B]C]]\\X^D"),
        ("K1^A", (0, 0, 0), "", "^A"),
    ] {
        let call = ReplaceCall {
            record: marked(record),
            at: Address::new(a, v, s),
            new: new.as_bytes().to_vec(),
            output_length: 100,
        };
        let mut buffers = Buffers::default();
        let outcome = call.run(implementation, &mut buffers);
        assert_eq!(outcome.refusal, 0, "{record}");
        let answer = &buffers.output.after()[..outcome.length as usize];
        assert_eq!(answer, marked(result), "{record}");
    }
}

/// Code strings and their counts: A, B, P, T.
fn checking(implementation: &Implementation) {
    let sixteen = format!("F{}", ";'1'".repeat(16));
    let seventeen = format!("F{}", ";'1'".repeat(17));
    for (code, refusal, code_number, counts) in [
        ("", 0, 0, [0; 4]),
        ("F;1;2R;*", 0, 0, [2, 1, 0, 0]),
        ("F;0;LPV;:]MCU", 0, 0, [1, 3, 0, 0]),
        ("]", 6, 1, [0; 4]),
        ("L]F;1;+", 7, 2, [0; 4]),
        ("L]F;1;P", 18, 2, [0; 4]),
        ("L]F;1;+;ZZ]?", 6, 2, [0; 4]),
        (&sixteen, 18, 1, [0; 4]),
        (&seventeen, 7, 1, [0; 4]),
        (&"x".repeat(512), 6, 1, [0; 4]),
        (&"x".repeat(513), 5, 0, [0; 4]),
    ] {
        checked(implementation, code, (refusal, code_number, counts));
    }
}

/// Code strings with P codes, or nearly.
fn checking_patterns(implementation: &Implementation) {
    let most_tests = format!("P({})", "1N".repeat(254));
    for (code, refusal, code_number, counts) in [
        ("P(3N)", 0, 0, [0, 0, 1, 1]),
        ("P(1N);(2A'-'0X)", 0, 0, [0, 0, 1, 4]),
        ("F;1;(P(1N);(2A))", 0, 0, [1, 0, 1, 2]),
        ("F;1;(P(1N));(L)", 0, 0, [1, 1, 1, 1]),
        ("F;1;(P(1N));(2A)", 6, 1, [0; 4]),
        ("F;1;(P(1N);(L))", 6, 1, [0; 4]),
        ("F;1;P;+", 0, 0, [1, 2, 0, 0]),
        ("F;1;(P)", 6, 1, [0; 4]),
        ("F;1;P(1N)", 6, 1, [0; 4]),
        ("F;(P(1N))", 7, 1, [0; 4]),
        ("P('a]b')", 6, 1, [0; 4]),
        ("P('^')", 6, 1, [0; 4]),
        ("P(1N)]MX]P(''\"\")", 0, 0, [0, 1, 2, 3]),
        ("P(1N)]MX]P(''\"\")]P(1N 2A)", 6, 4, [0; 4]),
        (&most_tests, 0, 0, [0, 0, 1, 254]),
    ] {
        checked(implementation, code, (refusal, code_number, counts));
    }
    for code in NEAR_MISSES {
        checked(implementation, code, (6, 1, [0; 4]));
    }
}

/// A refusal, a code number, and counts.
type Checked = (u64, u64, [u64; 4]);

/// Fails unless checking a string, its marks drawn, gives this.
fn checked(implementation: &Implementation, code: &str, expected: Checked) {
    checked_bytes(implementation, &marked(code), expected);
}

/// The same of a string as it is.
fn checked_bytes(implementation: &Implementation, code: &[u8], expected: Checked) {
    let (refusal, code_number, [loads, others, patterns, tests]) = expected;
    let expected = Check {
        refusal,
        code_number,
        loads,
        others,
        patterns,
        tests,
    };
    let shown = code.escape_ascii();
    assert_eq!((implementation.check)(code), expected, "{shown}");
}

/// Typed dates.
fn typed_dates(implementation: &Implementation) {
    for (code, text, refusal, day) in [
        ("D", "31 DEC 1967", 0, 0),
        ("D2", "30 dec 1967", 0, -1),
        ("D4/", "1/1/68", 0, 1),
        ("D/", "2/29/00", 0, 11_748),
        ("D", "1 JAN 0001", 0, -718_430),
        ("D", "31 Dec 9999", 0, 2_933_628),
        ("D", "1 JAN 29", 0, 22_282),
        ("D", "1 JAN 30", 0, -13_878),
        ("D", "29 FEB 1967", 12, 0),
        ("D", "1 JAN 0000", 12, 0),
        ("D", "1 JAN 967", 12, 0),
        ("D", "1/1/1967", 12, 0),
        ("D", " 1 JAN 1968", 12, 0),
        ("D4/", "1/1/1968 ", 12, 0),
        ("D", "", 12, 0),
        ("D0", "1 JAN 1967", 12, 0),
        ("L", "1 JAN 1967", 6, 0),
        ("D]D", "1 JAN 1967", 6, 0),
        ("P(0X)", "1 JAN 1967", 6, 0),
        ("", "1 JAN 1967", 6, 0),
        (&"D".repeat(513), "1 JAN 1967", 5, 0),
    ] {
        let expected = TypedDate {
            refusal,
            ..TypedDate::of_day(day)
        };
        let outcome = (implementation.typed_date)(&marked(code), text.as_bytes());
        assert_eq!(outcome, expected, "{code} {text}");
    }
}
