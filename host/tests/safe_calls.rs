//! The safe calls: what they make of the proved library's numbers.
//!
//! Needs the archive.

use sundewfrill_host::{
    algebra, ceiling, check, convert, find, replace, typed_date, Address, BadCode, Converted,
    Refusal, StepCounts, Stopped, SCRATCH_LENGTH,
};

const RECORD: &[u8] = b"K1\xfe10\xfd20\xfe3";

#[test]
fn finding() {
    let part = find(RECORD, Address::new(1, 2, 0)).unwrap().unwrap();
    assert_eq!((part.bytes, part.range), (b"20".as_slice(), 6..8));
    let whole = find(RECORD, Address::new(1, 0, 0)).unwrap().unwrap();
    assert_eq!(whole.bytes, b"10\xfd20");
    let empty = find(b"K1\xfe", Address::new(1, 1, 1)).unwrap().unwrap();
    assert_eq!((empty.bytes, empty.range), (b"".as_slice(), 3..3));
    assert_eq!(find(RECORD, Address::new(1, 3, 0)), Ok(None));
    assert_eq!(
        find(RECORD, Address::new(1, 0, 1)),
        Err(Refusal::BadAddress)
    );
    assert_eq!(
        find(b"\xff", Address::new(0, 0, 0)),
        Err(Refusal::ByteNotForRecords)
    );
}

#[test]
fn replacing() {
    let mut output = [7; 12];
    let made = replace(b"K1\xfeA", b"X", Address::new(3, 2, 1), &mut output);
    assert_eq!(made, Ok(b"K1\xfeA\xfe\xfe\xfdX".as_slice()));
    assert_eq!(output, *b"K1\xfeA\xfe\xfe\xfdX\0\0\0\0");
    let short = replace(RECORD, b"four", Address::new(4, 0, 0), &mut output);
    assert_eq!(short, Err(Refusal::OutputTooShort));
    assert_eq!(output, [0; 12]);
}

#[test]
fn checking() {
    let counts = StepCounts {
        loads: 2,
        others: 1,
        patterns: 0,
        tests: 0,
    };
    assert_eq!(check(b"F;1;2R;*"), Ok(counts));
    let counts = StepCounts {
        loads: 1,
        others: 1,
        patterns: 2,
        tests: 5,
    };
    assert_eq!(check(b"P(0X'a'0X)\xfdF;1;(P(1N);(2A));(L)"), Ok(counts));
    let bad = BadCode {
        refusal: Refusal::StackMisused,
        code_number: 2,
    };
    assert_eq!(check(b"L\xfdF;1;+"), Err(bad));
    let said = both_texts(Refusal::StackMisused);
    assert_eq!(bad.to_string(), format!("code 2: refusal 7: {said}"));
    let bad = check(b"L\xfdF;1\xfdF;1;2;3;+").unwrap_err();
    assert_eq!(
        (bad.refusal, bad.code_number),
        (Refusal::EntriesLeftOver, 3)
    );
    let said = both_texts(Refusal::EntriesLeftOver);
    assert_eq!(bad.to_string(), format!("code 3: refusal 18: {said}"));
    let long = check(&[b'L'; 513]).unwrap_err();
    assert_eq!((long.refusal, long.code_number), (Refusal::CodeTooLong, 0));
    let said = both_texts(Refusal::CodeTooLong);
    assert_eq!(long.to_string(), format!("refusal 5: {said}"));
}

/// What the table of refusals says of this one: when it is given and what to do.
fn both_texts(refusal: Refusal) -> String {
    [refusal.when(), refusal.advice()].join(" ")
}

#[test]
fn converting() {
    let at = Address::new(1, 0, 0);
    let mut output = [7; 8];
    let mut scratch = [7; SCRATCH_LENGTH];
    let whole = convert(RECORD, b"F;1;2R;*", at, 62, &mut output, &mut scratch);
    let expected = Converted {
        answer: b"30\xfd60",
        steps: 62,
    };
    assert_eq!(whole, Ok(expected));
    assert_eq!(output, *b"30\xfd60\0\0\0");
    let stopped = convert(RECORD, b"F;1;2R;*", at, 61, &mut output, &mut scratch).unwrap_err();
    let expected = Stopped {
        refusal: Refusal::OverBudget,
        steps: 56,
    };
    assert_eq!(stopped, expected);
    let said = both_texts(Refusal::OverBudget);
    assert!(said.starts_with("The next step would bring"), "{said}");
    assert_eq!(
        stopped.to_string(),
        format!("after 56 steps: refusal 15: {said}")
    );
    assert_eq!(output, [0; 8]);
    assert!(scratch.iter().all(|&byte| byte == 0));
    output.fill(7);
    let left_over = convert(RECORD, b"F;1;2R", at, 62, &mut output, &mut scratch);
    let expected = Stopped {
        refusal: Refusal::EntriesLeftOver,
        steps: 0,
    };
    assert_eq!(left_over, Err(expected));
    assert_eq!(output, [0; 8]);
}

#[test]
fn ceilings() {
    let all_of_one = Address::new(1, 0, 0);
    assert_eq!(ceiling(RECORD, b"F;1;2R;*", all_of_one), Ok(12_334));
    assert_eq!(ceiling(RECORD, b"F;1;(P(1N);(2A))", all_of_one), Ok(8_220));
    assert_eq!(ceiling(RECORD, b"", all_of_one), Ok(0));
    assert_eq!(ceiling(RECORD, b"L", Address::new(9, 0, 0)), Ok(4_097));
    for (record, code, at, refusal) in [
        (RECORD, "L", Address::new(1, 0, 1), Refusal::BadAddress),
        (RECORD, "F;1;+", all_of_one, Refusal::StackMisused),
        (RECORD, "F;1;P", all_of_one, Refusal::EntriesLeftOver),
        (RECORD, "?", all_of_one, Refusal::NotInGrammar),
        (b"\xff", "?", all_of_one, Refusal::ByteNotForRecords),
    ] {
        assert_eq!(ceiling(record, code.as_bytes(), at), Err(refusal));
    }
}

#[test]
fn patterns() {
    let (mut output, mut scratch) = ([7; 5], [7; SCRATCH_LENGTH]);
    let record = b"K1\xfe7\xfdAB\xfdA1";
    let at = Address::new(1, 0, 0);
    let passed = convert(record, b"P(1N);(2A)", at, 22, &mut output, &mut scratch);
    let expected = Converted {
        answer: b"7\xfdAB\xfd",
        steps: 6 + 9 + 7,
    };
    assert_eq!(passed, Ok(expected));
}

/// A budget as great as the ceiling is never used up.
#[test]
fn a_ceiling_is_enough() {
    let (mut output, mut scratch) = ([0; 8], [0; SCRATCH_LENGTH]);
    let at = Address::new(1, 0, 0);
    let most = ceiling(RECORD, b"F;1;2R;*", at).unwrap();
    let whole = convert(RECORD, b"F;1;2R;*", at, most, &mut output, &mut scratch);
    assert_eq!(whole.unwrap().steps, 62);
}

#[test]
fn typed_dates() {
    assert_eq!(typed_date(b"D", b"31 dec 1967"), Ok(0));
    assert_eq!(typed_date(b"D2/", b"12/30/67"), Ok(-1));
    assert_eq!(
        typed_date(b"D", b"29 FEB 1967"),
        Err(Refusal::NotConvertible)
    );
    assert_eq!(typed_date(b"L", b"1 JAN 1967"), Err(Refusal::NotInGrammar));
}

#[test]
fn algebra_shown() {
    let mut output = [7; 14];
    let shown = algebra(b"A1+2*3", &mut output);
    assert_eq!(shown, Ok(b"F;1;2;+;3;*".as_slice()));
    assert_eq!(output, *b"F;1;2;+;3;*\0\0\0");
    for (code, refusal) in [
        (b"A1+2*(3-4)".to_vec(), Refusal::OutputTooShort),
        (b"A1+2*".to_vec(), Refusal::NotInGrammar),
        (vec![b'A'; 513], Refusal::CodeTooLong),
    ] {
        output.fill(7);
        assert_eq!(algebra(&code, &mut output), Err(refusal));
        assert_eq!(output, [0; 14]);
    }
}

/// What is shown can be converted by.
#[test]
fn algebra_converted() {
    let (mut text, mut output, mut scratch) = ([0; 512], [0; 8], [0; SCRATCH_LENGTH]);
    let code = algebra(b"A1*2R", &mut text).unwrap();
    let at = Address::new(1, 0, 0);
    let whole = convert(RECORD, code, at, 62, &mut output, &mut scratch).unwrap();
    assert_eq!(whole.answer, b"30\xfd60");
}
