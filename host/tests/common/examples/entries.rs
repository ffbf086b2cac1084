//! F codes that leave one entry, and such as leave more: 18, where 6 and 7 do not come
//! before it.

use sundewfrill_host::outcome::{Address, Ceiling, Convert, Implementation, TypedDate};
use sundewfrill_host::{paper, SCRATCH_LENGTH};

use super::super::calls::ConvertCall;
use super::{all_given, checked, checked_bytes, converted, marked, outcome, Given};

/// Runs all examples of left-over entries.
pub fn run(implementation: &Implementation) {
    codes(implementation);
    literals(implementation);
    strings(implementation);
    given(implementation);
    before_and_behind(implementation);
    other_calls(implementation);
}

/// Single codes, each refused one beside one that is mended.
fn codes(implementation: &Implementation) {
    for (code, refusal, counts) in [
        ("F;1;2;3;+", 18, [0; 4]),
        ("F;1;2;3;+;+", 0, [3, 2, 0, 0]),
        ("F;2;3;+", 0, [2, 1, 0, 0]),
        ("F;1;P", 18, [0; 4]),
        ("F;1;P;*", 0, [1, 2, 0, 0]),
        ("F;1;2;_", 18, [0; 4]),
        ("F;1;2;_;-", 0, [2, 2, 0, 0]),
        ("F;1;2", 18, [0; 4]),
        ("F;1", 0, [1, 0, 0, 0]),
        ("F;LPV;''", 18, [0; 4]),
        ("F;LPV", 0, [0, 1, 0, 0]),
        ("F;1;2;(P(1N))", 18, [0; 4]),
        ("F;1;(P(1N))", 0, [1, 0, 1, 1]),
        ("F;1;2;3;4;[]", 18, [0; 4]),
        ("F;1;2;3;[]", 0, [3, 1, 0, 0]),
        // Entries that are left under others, and taken later.
        ("F;1;2;3;+;P;*", 18, [0; 4]),
        ("F;1;2;3;+;P;*;-", 0, [3, 4, 0, 0]),
        // "7 is decided on the whole code first", and 6 before that.
        ("F;1;2;3;[];+", 7, [0; 4]),
        ("F;+;1;2", 7, [0; 4]),
        ("F;1;2;ZZ", 6, [0; 4]),
        ("F;1;2;", 6, [0; 4]),
        ("F;+;1;2;ZZ", 6, [0; 4]),
    ] {
        let number = u64::from(refusal != 0);
        checked_bytes(implementation, code.as_bytes(), (refusal, number, counts));
    }
}

/// So many literals, and so many `:` behind them.
fn joined(literals: usize, joins: usize) -> String {
    ["F", &";'1'".repeat(literals), &";:".repeat(joins)].concat()
}

/// "Document 01's case of sixteen literals now gives 18"; seventeen are still 7.
fn literals(implementation: &Implementation) {
    for literals in 1..=17 {
        for joins in 0..=literals {
            let (refusal, others) = match literals - joins {
                _ if literals == 17 => (7, 0),
                // The last `:` finds one entry.
                0 => (7, 0),
                1 => (0, literals + joins),
                _ => (18, 0),
            };
            let number = u64::from(refusal != 0);
            let expected = (refusal, number, [0, others as u64, 0, 0]);
            checked(implementation, &joined(literals, joins), expected);
        }
    }
}

/// The first bad code decides, and its number is told; other codes than F are never 18.
fn strings(implementation: &Implementation) {
    let (long, longest) = (
        format!("F;1;'{}'", "x".repeat(507)),
        format!("F;1;'{}'", "x".repeat(506)),
    );
    for (string, refusal, number, counts) in [
        ("F;1;2]ZZ", 18, 1, [0; 4]),
        ("F;1;2]F;+", 18, 1, [0; 4]),
        ("F;+]F;1;2", 7, 1, [0; 4]),
        ("ZZ]F;1;2", 6, 1, [0; 4]),
        ("MX]F;1;2", 18, 2, [0; 4]),
        ("F;1]F;1;2;+]F;1;2]ZZ", 18, 3, [0; 4]),
        ("F;1]F;1;2;+]F;LPV", 0, 0, [3, 2, 0, 0]),
        // What one code leaves another cannot take.
        ("F;1;2]F;LPV;+", 18, 1, [0; 4]),
        ("F;1]F;2]F;LPV", 0, 0, [2, 1, 0, 0]),
        ("MCU]D]P(1N);(2A)]T1]G*1]L]MR2]MY", 0, 0, [0, 7, 1, 2]),
        (&longest, 18, 1, [0; 4]),
        (&long, 5, 0, [0; 4]),
    ] {
        checked(implementation, string, (refusal, number, counts));
    }
}

/// What codes give that leave one entry, and that those which leave more give nothing.
fn given(implementation: &Implementation) {
    const TABLE: [Given; 10] = [
        ("F;LPV;'2';'3';+;+", "1", 0, "6"),
        ("F;LPV;'2';'3';+", "1", 18, ""),
        ("F;LPV;P;*", "12", 0, "144"),
        ("F;LPV;P", "12", 18, ""),
        ("F;'7';'2';_;-", "", 0, "-5"),
        ("F;'7';'2';_", "", 18, ""),
        ("F;'a';'b';'c';:;:", "", 0, "abc"),
        ("F;'a';'b';'c';:", "", 18, ""),
        // Neither is the run begun that would refuse.
        ("F;'1';'0';/;'x'", "", 18, ""),
        ("F;'1';'0';/", "", 11, ""),
    ];
    all_given(implementation, &TABLE);
    let sixteen = ConvertCall::of_element(joined(16, 15).as_bytes(), b"");
    let (_, answer) = outcome(implementation, &sixteen);
    assert_eq!(answer, b"1111111111111111");
}

/// "In converting after 5 and before 8, count 0."
fn before_and_behind(implementation: &Implementation) {
    let over_long = ["K1^", &"x".repeat(1_025)].concat();
    for (record, code, (a, v, s), scratch_length, refusal) in [
        ("A]^", "F;1;2", (1, 0, 0), 0, 3),
        ("K1", "F;1;2", (1, 0, 1), 0, 4),
        ("K1", &"F;1;2".repeat(103), (1, 0, 0), 0, 5),
        ("K1", "F;1;2", (1, 0, 0), 0, 18),
        ("K1", "F;1;2", (1, 0, 0), SCRATCH_LENGTH - 1, 18),
        ("K1", "F;1;2;:", (1, 0, 0), SCRATCH_LENGTH - 1, 8),
        (&over_long, "F;1;2", (1, 0, 0), SCRATCH_LENGTH, 18),
        (&over_long, "F;1;2;:", (1, 0, 0), SCRATCH_LENGTH, 9),
    ] {
        let call = ConvertCall {
            record: marked(record),
            code: code.as_bytes().to_vec(),
            at: Address::new(a, v, s),
            budget: 1_000_000,
            output_length: 64,
            scratch_length,
        };
        let expected = Convert {
            refusal,
            ..Convert::default()
        };
        let refused = outcome(implementation, &call);
        assert_eq!(refused, (expected, Vec::new()), "{call}");
    }
    // A budget of nothing is no matter of the check's.
    let at = Address::new(1, 0, 0);
    let (refused, _) = converted(implementation, b"K1", b"F;1;2", at, 0);
    assert_eq!((refused.refusal, refused.steps), (18, 0));
    let written = paper::program_with(b"F;1;2\n1,0,0\nK1\xfe5", implementation.convert);
    assert_eq!(written, b"18 0 \n");
}

/// The ceiling is refused as converting is; a typed date and an A code never so.
fn other_calls(implementation: &Implementation) {
    let at = Address::new(1, 0, 0);
    for (code, refusal, ceiling) in [
        ("F;1;2", 18, 0),
        ("L]F;1;P", 18, 0),
        ("F;1;2;:", 0, 2 * (1_025 + 2) + 4_097),
        ("F;1;+]F;1;2", 7, 0),
    ] {
        let outcome = (implementation.ceiling)(b"K1", &marked(code), at);
        assert_eq!(outcome, Ceiling { refusal, ceiling }, "{code}");
    }
    let refused = TypedDate {
        refusal: 6,
        ..TypedDate::default()
    };
    let dated = (implementation.typed_date)(b"F;1;2", b"1 JAN 1968");
    assert_eq!(dated, refused);
    let mut output = [7; 16];
    for (code, refusal) in [("A1", 0), ("A1+2", 0), ("A1[2,3]", 0), ("A1,2", 6)] {
        let shown = (implementation.algebra)(code.as_bytes(), &mut output);
        assert_eq!(shown.refusal, refusal, "{code}");
    }
}
