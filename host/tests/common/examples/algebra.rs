//! A codes: the F texts that show them, what is refused, and their values.

use sundewfrill_host::outcome::{Address, Implementation};
use sundewfrill_host::paper;

use super::super::buffers::Buffers;
use super::super::calls::AlgebraCall;
use super::super::generator::NEARLY_SHOWN;
use super::{checked, converted, marked};

/// Runs all examples of A codes.
pub fn run(implementation: &Implementation) {
    texts(implementation);
    not_expressions(implementation);
    lengths(implementation);
    entries(implementation);
    outputs(implementation);
    values(implementation);
    positions(implementation);
    first_refusals(implementation);
}

/// The refusal number of showing an A code in an output of this length, and the F
/// text.
fn shown_in(implementation: &Implementation, code: &[u8], output_length: usize) -> (u64, Vec<u8>) {
    let code = code.to_vec();
    let call = AlgebraCall {
        code,
        output_length,
    };
    let mut buffers = Buffers::default();
    let outcome = call.run(implementation, &mut buffers);
    let text = &buffers.output.after()[..outcome.length as usize];
    (outcome.refusal, text.to_vec())
}

/// The same in an output that is long enough for any.
fn shown(implementation: &Implementation, code: &[u8]) -> (u64, Vec<u8>) {
    shown_in(implementation, code, 600)
}

/// A codes and the F texts that show them.
fn texts(implementation: &Implementation) {
    for (code, text) in [
        // Of the readings.
        ("A1+2", "F;1;2;+"),
        ("A1+2*3", "F;1;2;+;3;*"),
        ("A1+(2*3)", "F;1;2;3;*;+"),
        ("A1:2[3,4]", "F;1;2;3;4;[];:"),
        ("A1[2,3][4,5]", "F;1;2;3;[];4;5;[]"),
        ("A(1+2)[3,4]", "F;1;2;+;3;4;[]"),
        ("AR(1,'7')", "F;1;'7';R"),
        ("A1R-R(1,2)", "F;1R;1;2;R;-"),
        ("A1=2=3", "F;1;2;=;3;="),
        ("A001R", "F;001R"),
        ("A1*2", "F;1;2;*"),
        ("A'-1'", "F;'-1'"),
        ("A1>=2", "F;1;2;]"),
        ("A1<=2", "F;1;2;["),
        ("A'D1'", "F;'D1'"),
        // Where they could be misread.
        ("A1-2-3", "F;1;2;-;3;-"),
        ("A1-(2-3)", "F;1;2;3;-;-"),
        ("A1<2>3#4/5", "F;1;2;<;3;>;4;#;5;/"),
        ("A((1))", "F;1"),
        ("A(1)[2,3]", "F;1;2;3;[]"),
        ("A1[2+3,R(4,5)]", "F;1;2;3;+;4;5;R;[]"),
        ("A1[2[3,4],5]", "F;1;2;3;4;[];5;[]"),
        ("AR(1,2)[3,4]", "F;1;2;R;3;4;[]"),
        ("AR(R(1,2),3RR)", "F;1;2;R;3RR;R"),
        ("A1RR-2R", "F;1RR;2R;-"),
        ("A1R*2", "F;1R;2;*"),
        ("A999:000", "F;999;000;:"),
        ("A'':\"\"", "F;'';\"\";:"),
        ("A'it\"s':\"it's\"", "F;'it\"s';\"it's\";:"),
        ("A'1+2)],;R(':1", "F;'1+2)],;R(';1;:"),
        ("A' '=1", "F;' ';1;="),
    ] {
        let outcome = shown(implementation, code.as_bytes());
        assert_eq!(outcome, (0, text.as_bytes().to_vec()), "{code}");
    }
}

/// What is no expression; marks are 6 wherever they stand, and 253 parts nothing.
fn not_expressions(implementation: &Implementation) {
    for code in NEARLY_SHOWN {
        let outcome = shown(implementation, code.as_bytes());
        assert_eq!(outcome, (6, Vec::new()), "{code}");
    }
    for mark in paper::LEAST_MARK..=255 {
        for code in [b"A'?'".as_slice(), b"A1?A2", b"A1?", b"A?1", b"?A1", b"?"] {
            let marked = |&byte: &u8| if byte == b'?' { mark } else { byte };
            let code: Vec<u8> = code.iter().map(marked).collect();
            let outcome = shown(implementation, &code);
            assert_eq!(outcome, (6, Vec::new()), "{code:02x?}");
        }
    }
    // "A is a call of its own and no code of strings".
    checked(implementation, "A1+2", (6, 1, [0; 4]));
    checked(implementation, "L]A1]?", (6, 2, [0; 4]));
}

/// Fails unless showing an A code gives this refusal, and a text of this length.
fn measured(implementation: &Implementation, code: &str, expected: (u64, usize)) {
    let (refusal, text) = shown(implementation, code.as_bytes());
    assert_eq!((refusal, text.len()), expected, "{code}");
}

/// A codes and F texts of 512 bytes, and of more.
fn lengths(implementation: &Implementation) {
    let ones = |count: usize| format!("A{}", vec!["1"; count].join("+"));
    let round = |pairs: usize| format!("A{}1{}", "(".repeat(pairs), ")".repeat(pairs));
    let literal = |length: usize| format!("A'{}'", "x".repeat(length));
    for (code, expected) in [
        (ones(128), (0, 511)),
        (ones(129), (5, 0)),
        (round(255), (0, 3)),
        (round(256), (5, 0)),
        // Of the literal's A code and F text, the text is a byte longer.
        (literal(508), (0, 512)),
        (literal(509), (5, 0)),
        (literal(510), (5, 0)),
        // What is no expression is told from the rest after the A code's length alone.
        ("?".repeat(512), (6, 0)),
        ("?".repeat(513), (5, 0)),
        (format!("A{}", "(".repeat(511)), (6, 0)),
    ] {
        measured(implementation, &code, expected);
    }
}

/// So many ones, of which each waits for the next.
fn held(ones: usize) -> String {
    let others = ones - 1;
    format!("A{}1{}", "1+(".repeat(others), ")".repeat(others))
}

/// Sixteen entries, and seventeen; "a text both too long and too deep is 5".
fn entries(implementation: &Implementation) {
    let long = |literal: usize| format!("{}:'{}'", held(17), "x".repeat(literal));
    for (code, expected) in [
        (held(16), (0, 63)),
        (held(17), (7, 0)),
        // Each waits for two: the start, then the length.
        (format!("A{}1{}", "1[1,".repeat(7), "]".repeat(7)), (0, 52)),
        (format!("A{}1{}", "1[1,".repeat(8), "]".repeat(8)), (7, 0)),
        (long(440), (7, 0)),
        (long(441), (5, 0)),
    ] {
        measured(implementation, &code, expected);
    }
}

/// Outputs just long enough and just not: 16 comes after all the others.
fn outputs(implementation: &Implementation) {
    for (code, output_length, refusal) in [
        ("A1+2", 7, 0),
        ("A1+2", 6, 16),
        ("A1+2", 0, 16),
        ("A1+", 0, 6),
        (&held(17), 0, 7),
        (&"A".repeat(513), 0, 5),
    ] {
        let outcome = shown_in(implementation, code.as_bytes(), output_length);
        assert_eq!(outcome.0, refusal, "{code} in {output_length}");
    }
}

/// What converting an attribute by the F text of an A code gives, and the values of
/// the expression, which must be the same: a refusal number and an answer.
fn valued(implementation: &Implementation, code: &str, record: &[u8]) -> (u64, Vec<u8>) {
    let (refusal, text) = shown(implementation, code.as_bytes());
    assert_eq!(refusal, 0, "{code}");
    let at = Address::new(1, 0, 0);
    let (outcome, answer) = converted(implementation, record, &text, at, u64::MAX);
    let expression = paper::algebra::read(code.as_bytes()).expect("an A code");
    let values = paper::algebra::values(record, at, &expression);
    let values = values.map_or_else(|refusal| (refusal.number(), Vec::new()), |bytes| (0, bytes));
    assert_eq!((outcome.refusal, answer), values, "{code}");
    values
}

/// Operations and what they give; numbers and relations are F's.
fn values(implementation: &Implementation) {
    for (code, answer) in [
        ("A'2'+'3'*'4'", "20"),
        ("A'2'+('3'*'4')", "14"),
        ("A'7'-'2'-'1'", "4"),
        ("A'-7'/'2'", "-3"),
        ("AR('-7','2')", "-1"),
        ("A'ab':'cd'", "abcd"),
        ("A'abcdef'['2','3']", "bcd"),
        ("A'abcdef'['2','4']['2','2']", "cd"),
        ("A'ab':'cd'['2','1']", "abd"),
        ("A('ab':'cd')['2','2']", "bc"),
        ("A'abc'['0'-'5','2']", "ab"),
        ("A'3'='03'", "1"),
        ("A'3'#'03'", "0"),
        ("A'9'<'10'", "1"),
        ("A'9'>'10'", "0"),
        ("A'9'<='9'", "1"),
        ("A'9'>='10'", "0"),
        ("A'b'>'a'", "1"),
        ("A'3'='3'='1'", "1"),
        ("A' 42 '+'x'", "42"),
        ("A''", ""),
        ("A9", ""),
    ] {
        let outcome = valued(implementation, code, &marked("K1^5"));
        assert_eq!(outcome, (0, answer.as_bytes().to_vec()), "{code}");
    }
}

/// Attributes at the position of each element, the marks kept between.
fn positions(implementation: &Implementation) {
    let record = marked("K1^10\\20]30^1\\2]3\\4^7");
    for (code, answer) in [
        ("A1", "10\\20]30"),
        ("A1+2", "11\\22]33"),
        ("A1+2R", "11\\22]31"),
        ("A1+2RR", "11\\21]31"),
        ("A2:3R", "17\\2]37"),
        ("A0:1", "K110\\K120]K130"),
        ("A'x'", "x\\x]x"),
    ] {
        let outcome = valued(implementation, code, &record);
        assert_eq!(outcome, (0, marked(answer)), "{code}");
    }
}

/// "The first refusal in written order wins", where each is made; the first element
/// that has one decides.
fn first_refusals(implementation: &Implementation) {
    let (p, q) = ("'1'/'0'", "'9'*'999999999999999'");
    let full = "a".repeat(1_024);
    for (code, record, refusal) in [
        (format!("A({p})+({q})"), "K^5", 11),
        (format!("A({q})+({p})"), "K^5", 10),
        (format!("A'x'[{p},{q}]"), "K^5", 11),
        (format!("AR({q},{p})"), "K^5", 10),
        ("A'1000000000000000'+('1'/'0')".to_owned(), "K^5", 11),
        ("AR('1','0')".to_owned(), "K^5", 11),
        ("A'x'['1000000000000000','1']".to_owned(), "K^5", 10),
        ("A'1000000000000000'='1'".to_owned(), "K^5", 10),
        ("A(1:'b')['1','1']".to_owned(), &format!("K^{full}"), 9),
        ("A2".to_owned(), &format!("K^5^{full}b"), 9),
        // The over-long element itself, though nothing looks at it.
        ("A'x'".to_owned(), &format!("K^{full}b"), 9),
        // Elements from the left.
        ("A'1000000000000000'/1".to_owned(), "K^5]0", 10),
        ("A'7'/1".to_owned(), "K^5]0]1000000000000000", 11),
        ("A'7'/1".to_owned(), "K^5]1000000000000000]0", 10),
    ] {
        let outcome = valued(implementation, &code, &marked(record));
        assert_eq!(outcome, (refusal, Vec::new()), "{code}");
    }
    let whole = valued(implementation, "A1:''", &marked(&format!("K^{full}")));
    assert_eq!(whole, (0, full.into_bytes()));
}
