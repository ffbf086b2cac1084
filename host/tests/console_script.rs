//! The script `../console` as a learner types it: what it writes on standard output and
//! on standard error, where each line must begin with its name, and its status.
//!
//! Needs the script, and the Rattle kit's command `rt` on the PATH, by which the script
//! proves and builds what is not there yet.

mod common;

use std::ffi::OsString;
use std::fs;
use std::os::unix::fs::{symlink, PermissionsExt};
use std::path::Path;

use common::documents::ROOT;
use common::marks::marked;
use common::script::{
    console, kit, path_with, path_without_rt, rows, typed, words, Folder, Written,
};
use sundewfrill_host::paper;

/// Nothing on standard error.
const NOTHING: &[&str] = &[];
/// Document 01's first example.
const EXAMPLE: &str = "0 62 30]60\n";
/// The crates of the programs behind the script.
const PROGRAMS: [&str; 3] = ["console", "formula", "words"];

#[test]
fn conversions() {
    let table = r#"
1,0,0 'K1^10]20^3' 'F;1;2R;*' => 0 62 30]60\n
1,2,0 'K7^250]75\80^3]4\2' => 0 0 75\80\n
1,0,0 'K1^smith, jane' G1,1 T2,4 MCU => 0 36 JANE\n
1,0,0 'K1^10' "F;1;'7';+" => 0 16 17\n
1,0,0 'K1^10' "F;1;' ';:" => 0 17 10\s\n
1,0,0 'K1^5' MCA => 0 2\s\n
1,0,0 'K1^né' MCU => 0 7 Né\n
0,0,0 K1 L => 0 4 2\n"#;
    typed("./console").writes(EXAMPLE, NOTHING, 0);
    for [line, output] in rows(table) {
        console(&line).writes(&output, NOTHING, 0);
    }
}

/// The answer is document 01's line, whatever the three lines hold.
#[test]
fn three_lines() {
    let noise = |place: u64| (place.wrapping_mul(0x9e37_79b9_7f4a_7c15) >> 56) as u8;
    let noise: Vec<u8> = (1..100_000).map(noise).collect();
    let longest = [b"L\n1,0,0\n".as_slice(), &[b'x'; 65_528]].concat();
    for (input, status) in [
        (b"F;1;2R;*\n1,0,0\nK1\xfe10\xfd20\xfe3\n".as_slice(), 0),
        (b"F;1;2R;*\n1,0,0\nK1\xfe10\xfd20\xfe3\nmore\n", 0),
        (b"MX\xfdMY\n1,0,0\nK1\xfea\xfdb", 0),
        (b"MCU\n1,0,0\nK1\xfea\0b\x01\n", 0),
        (b"M\0CU\n1,0,0\nK1\xfea\n", 1),
        (b"MCU\n1,\0,0\nK1\xfea\n", 1),
        (b"MCU\r\n1,0,0\r\nK1\xfea\r\n", 1),
        (b"MCU", 1),
        (b"", 1),
        (&noise[..1_000], 1),
        (&noise, 1),
        (&longest, 1),
    ] {
        let written = words(&[b"-"]).reading(input).run();
        written.must_be(&paper::program(input), &written.lines, status);
    }
}

#[test]
fn calls_by_words() {
    let table = r#"
check 'F;1;2R;*' => refusal = 0, A = 2, B = 1, P = 0, T = 0\n
check MCU "P(3N'-'4N);(7N)" => refusal = 0, A = 0, B = 1, P = 1, T = 4\n
find 1,2,0 'K1^10]20^3' => refusal = 0, found = 1, start = 6, length = 2, part = 20\n
find 1,3,0 'K1^10]20^3' => refusal = 0, found = 0\n
replace 3,2,1 'K1^A' X => refusal = 0, length = 8, record = K1^A^^]X\n
date D '18 MAY 1995' => refusal = 0, day = 10000\n
date D2/ 12/30/67 => refusal = 0, day = -1\n
ceiling 1,0,0 'K1^10]20^3' 'F;1;2R;*' => refusal = 0, ceiling = 12334\n
ceiling 1,0,0 'K1^10]20^3' => refusal = 0, ceiling = 0\n
algebra A1+2*3 => refusal = 0, F code = F;1;2;+;3;*\n
algebra A1+2*3 1,0,0 'K1^2^3^4' => refusal = 0, F code = F;1;2;+;3;*\nrefusal = 0, steps = 39, answer = 20\n
algebra "A1:' '" 1,0,0 'K1^a]b\c' => refusal = 0, F code = F;1;' ';:\nrefusal = 0, steps = 51, answer = a ]b \c\s\n"#;
    for [line, output] in rows(table) {
        console(&line).writes(&output, NOTHING, 0);
    }
}

/// Every refusal that a conversion can have at the console, by words and by three lines.
#[test]
fn refused_conversions() {
    let element = |length| "x".repeat(length).into_bytes();
    let tens = b"xxxxxxxxxx]".repeat(2_000);
    let (over, joins) = ("F;1".repeat(171), ["F;1", &";1;:".repeat(7)].concat());
    for (number, address, attribute, code) in [
        (1, "1,0,0", element(32_766), "MCU"),
        (2, "1,0,0", b"\xff".to_vec(), "MCU"),
        (4, "1,0,1", element(1), "MCU"),
        (5, "1,0,0", element(1), &over),
        (6, "1,0,0", element(1), "MCV"),
        (7, "1,0,0", element(1), "F;1;+"),
        (9, "1,0,0", element(1_025), "MCU"),
        (10, "1,0,0", b"9999999999999999".to_vec(), "F;1;1;+"),
        (11, "1,0,0", element(1), "F;1;1;/"),
        (12, "1,0,0", element(1), "MR2"),
        (13, "1,0,0", b"FB".to_vec(), "MY"),
        (14, "1,0,0", b"12345".to_vec(), "MR2(#4)"),
        (15, "1,0,0", tens.clone(), &joins),
        (16, "1,0,0", tens, "MX"),
        (18, "1,0,0", element(1), "F;1;1"),
    ] {
        let record = [b"K1^", attribute.as_slice()].concat();
        let lines = [code.as_bytes(), address.as_bytes(), &marked(&record)].join(&b'\n');
        let output = String::from_utf8(paper::program(&lines)).expect("a line of text");
        assert!(output.starts_with(&format!("{number} ")), "{output}");
        let by_words = words(&[address.as_bytes(), &record, code.as_bytes()]);
        let known = by_words.refused(&output);
        let place = "code 1 of 1, at byte 1 of the code string";
        let is_placed = known.iter().any(|line| line.starts_with(place));
        assert_eq!(
            is_placed,
            matches!(number, 5..=7 | 10..=14 | 18),
            "{known:?}"
        );
        let by_lines = words(&[b"-"]).reading(&lines);
        assert_eq!(by_lines.refused(&output), known);
    }
}

#[test]
fn refused_calls_by_words() {
    let table = r#"
check mcu => refusal = 6, code = 1\n
check MCU 'F;1;+' => refusal = 7, code = 2\n
check MCU 'F;1;P' => refusal = 18, code = 2\n
find 1 'K1^10' => refusal = 4\n
find 0,0,0 '1]2^' => refusal = 3\n
replace 1,0,0 'K1^A' 'X]Y' => refusal = 17\n
replace 1000,0,0 'K1^A' X => refusal = 4\n
date D '30 FEB 1967' => refusal = 12\n
date MCU '1 JAN 1968' => refusal = 6\n
ceiling 1,0,0 'K1^1' 'F;1;+' => refusal = 7\n
ceiling 1,0,0 'K1^1' 'F;1;P' => refusal = 18\n
ceiling 1,0 'K1^1' MCU => refusal = 4\n
algebra A1+ => refusal = 6\n
algebra "A1/'0'" 1,0,0 'K1^2' => refusal = 0, F code = F;1;'0';/\nrefusal = 11, steps = 8\n
algebra A1 1 'K1^2' => refusal = 0, F code = F;1\nrefusal = 4, steps = 0\n"#;
    for [line, output] in rows(table) {
        console(&line).refused(&output);
    }
    let over = format!("algebra {}", "A".repeat(513));
    console(&over).refused("refusal = 5\n");
}

/// The number of the first bad code, its place in the string, and its text.
#[test]
fn bad_codes() {
    let table = r#"
1,0,0 'K1^a' MCU MCT mcl MCA => 6 0\s\n => code 3 of 4, at byte 9 of the code string: `mcl`
1,0,0 'K1^a' MCU T1 'F;1;+' MCV => 7 0\s\n => code 3 of 4, at byte 8 of the code string: `F;1;+`
1,0,0 'K1^a' MCU T1 'F;1;P' MCV => 18 0\s\n => code 3 of 4, at byte 8 of the code string: `F;1;P`
check MCU '' MCT => refusal = 6, code = 2\n => code 2 of 3, at byte 5 of the code string: ``
ceiling 1,0,0 'K1^1' L 'F;1;+' => refusal = 7\n => code 2 of 2, at byte 3 of the code string: `F;1;+`"#;
    for [line, output, code] in rows(table) {
        assert_eq!(console(&line).refused(&output)[0], code);
    }
    let over = format!("check{}", " MCT".repeat(129));
    let code = "code 129 of 129, at byte 513 of the code string: `MCT`";
    let known = console(&over).refused("refusal = 5, code = 0\n");
    assert_eq!(known, ["the code string has 515 bytes", code]);
    let longest = format!("F;'{}'", "x".repeat(508));
    let code = "code 2 of 2, at byte 514 of the code string: `L`";
    let known = words(&[b"check", longest.as_bytes(), b"L"]).refused("refusal = 5, code = 0\n");
    assert_eq!(known[1], code);
    let front = ["X", &"y".repeat(59)].concat();
    let code = format!("code 1 of 1, at byte 1 of the code string: `{front}...`");
    let known = console(&format!("check {front}y")).refused("refusal = 6, code = 1\n");
    assert_eq!(known[0], code);
    let call = words(&[b"-"]).reading(b"MCU\xfdm\0t\n1,0,0\nK1\xfea\n");
    let code = "code 2 of 2, at byte 5 of the code string: `m?t`";
    assert_eq!(call.refused("6 0 \n")[0], code);
    let call = console("check \"F;'é'\" mct").with("LC_ALL", "C.UTF-8");
    let code = "code 2 of 2, at byte 8 of the code string: `mct`";
    assert_eq!(call.refused("refusal = 6, code = 2\n")[0], code);
}

/// What was probably meant by a code, or where it goes wrong.
#[test]
fn slips_in_codes() {
    let table = r#"
mct => did you mean 'MCT'?
gx1 => did you mean 'Gx1'?
F,1,', ',: => did you mean "F;1;', ';:"?
F; 1; 2; * => did you mean 'F;1;2;*'?
MCU\s => did you mean 'MCU'?
f; 1;2R;:;' x';: => did you mean "F;1;2R;:;' x';:"?
F;1;‘7’;+ => did you mean "F;1;'7';+"?
F;1;'7;+ => did you mean "F;1;'7';+"?
F;1;7';+ => did you mean "F;1;'7';+"?
F;1;(MCU;2;: => did you mean 'F;1;(MCU);2;:'?
F;1;MCU => did you mean 'F;1;(MCU)'?
F1;2;* => did you mean 'F;1;2;*'?
F;1;2;+; => did you mean 'F;1;2;+'?
F;1;2;>= => did you mean 'F;1;2;]'?
MC\A => did you mean 'MC/A'?
P(3N => did you mean 'P(3N)'?
'MCU' => did you mean 'MCU'?
\s => the code is empty
F => F is followed by ; and its elms: did the shell cut the code at the ; ? Put it in quotes: 'F;1;2;+'
MCU]mct => several codes are several words: 'MCU' 'MCT'
MCU, MCT => several codes are several words: 'MCU' 'MCT'
F;1;'7';+]MCU => several codes are several words: "F;1;'7';+" 'MCU'
A1+2 => this is an A code: ./console algebra 'A1+2' shows the F code that it stands for
a1 + 2 => this is an A code: ./console algebra 'A1+2' shows the F code that it stands for
F;x;1;+ => it goes wrong at byte 3 of the code, at the elm `x`
F;1;2;x => it goes wrong at byte 7 of the code, at the elm `x`
F;1;;2;+ => an elm is missing at byte 5 of the code
MC => no code is written so; those with this letter are MCA MC/A MCN MC/N MCU MCL MCT MX MY ML MR
X => no code is written so; the codes are F G T L MCA MC/A MCN MC/N MCU MCL MCT MX MY ML MR D P"#;
    for [code, meant] in rows(table) {
        let call = words(&[b"1,0,0", b"K1^1^2^3", b"MCU", code.as_bytes()]);
        let place = format!("code 2 of 2, at byte 5 of the code string: `{code}`");
        assert_eq!(call.refused("6 0 \n"), [place, meant]);
    }
    let known = console("1,0,0 'K1^1^2' 'F;1;2;+;*;1'").refused("7 0 \n");
    assert_eq!(
        known[1],
        "it goes wrong at byte 9 of the code, at the elm `*`"
    );
}

/// The first mended code that can be read is offered, and that it is still refused for
/// its entries is said: a later one would hide them in a literal.
#[test]
fn slips_beside_left_over_entries() {
    let table = r#"
F;1;2; => did you mean 'F;1;2'? It is then refused with 18
F;1;2;+; => did you mean 'F;1;2;+'?
f;1;2 => did you mean 'F;1;2'? It is then refused with 18
f;1 => did you mean 'F;1'?
f;1;+ => did you mean 'F;1;+'? It is then refused with 7
FS;1;2 => did you mean 'F;1;2'? It is then refused with 18
F;1;2;MR2 => did you mean 'F;1;2;(MR2)'? It is then refused with 18
F;1;2;:;kg' => did you mean "F;1;2;:;'kg'"? It is then refused with 18
F;1;2 MCU => several codes are several words: 'F;1;2' 'MCU'. It is then refused with 18"#;
    for [code, said] in rows(table) {
        let known = words(&[b"check", code.as_bytes()]).refused("refusal = 6, code = 1\n");
        assert_eq!(known[1..], [said]);
    }
}

/// How many entries a code leaves over, and nothing of an elm: no one elm is at fault.
#[test]
fn left_over_entries() {
    let table = r#"
F;1;2;3;+ => 2 entries are left at the end: 1 too many
F;1;P => 2 entries are left at the end: 1 too many
F;1;2;_ => 2 entries are left at the end: 1 too many
F;1;2;3;(MCU) => 3 entries are left at the end: 2 too many
F;1;2;(P(1N);(2A)) => 2 entries are left at the end: 1 too many
F;1;P;P;P;P;P;P;P;P;P;P;P;P;P;P => 15 entries are left at the end: 14 too many
F;1;1;1;1;1;1;1;1;1;1;1;1;1;1;1;1 => 16 entries are left at the end: 15 too many"#;
    for [code, entries] in rows(table) {
        let place = format!("code 2 of 3, at byte 3 of the code string: `{code}`");
        let known = [place, entries.to_string()];
        let code = code.as_bytes();
        let call = words(&[b"1,0,0", b"K1^1^2^3", b"L", code, b"ZZ"]);
        assert_eq!(call.refused("18 0 \n"), known);
        let call = words(&[b"check", b"L", code, b"ZZ"]);
        assert_eq!(call.refused("refusal = 18, code = 2\n"), known);
        let call = words(&[b"ceiling", b"1,0,0", b"K1^1", b"L", code, b"ZZ"]);
        assert_eq!(call.refused("refusal = 18\n"), known);
        let lines = [b"L\xfd", code, b"\xfdZZ\n1,0,0\nK1\xfe1\n"].concat();
        let call = words(&[b"-"]).reading(&lines);
        assert_eq!(call.refused("18 0 \n"), known);
    }
    // the `:` that would tell the number have room in 512 bytes, or not
    for (literal, is_told) in [(504, true), (505, false)] {
        let code = format!("F;1;'{}'", "x".repeat(literal));
        let known = words(&[b"check", code.as_bytes()]).refused("refusal = 18, code = 1\n");
        let told = known.get(1).map(String::as_str);
        let entries = is_told.then_some("2 entries are left at the end: 1 too many");
        assert_eq!(told, entries, "{known:?}");
    }
    // the code's own length counts, not that of the string
    let long = format!("F;'{}'", "x".repeat(500));
    let known = words(&[b"check", long.as_bytes(), b"F;1;P"]).refused("refusal = 18, code = 2\n");
    assert_eq!(known[1], "2 entries are left at the end: 1 too many");
}

/// A code that cannot be mended is told by its form, as the reference has it.
#[test]
fn forms_of_codes() {
    let reference = fs::read_to_string(Path::new(ROOT).join("docs/CODES.md"));
    let reference = reference.expect("the reference stands in docs");
    for (code, name) in [("T0,3", "T"), ("MR2.00", "MR"), ("D2-E", "D"), ("P3N", "P")] {
        let section = reference.split(&format!("\n### `{name}`: ")).nth(1);
        let form = section.and_then(|text| text.split("- **Form:** ").nth(1));
        let line = form.and_then(|text| text.lines().next());
        let form = format!("{name} is written {}", line.expect("a section has a form"));
        let known = console(&format!("check {code}")).refused("refusal = 6, code = 1\n");
        assert!(known[1].starts_with(&form), "{known:?}, not {form}");
    }
}

#[test]
fn slips_in_addresses() {
    let table = r#"
1 => did you mean `1,0,0`?
1,0 => did you mean `1,0,0`?
2,1 => did you mean `2,1,0`?
1.2.0 => did you mean `1,2,0`?
1, 0, 0 => did you mean `1,0,0`?
"#;
    for [address, meant] in rows(table) {
        let form = "three numbers of 1 to 5 digits parted by commas";
        let what = format!("the address is `{address}`, not {form}");
        for (line, output) in [
            (format!("'{address}' 'K1^1' MCU"), "4 0 \n"),
            (format!("find '{address}' 'K1^1'"), "refusal = 4\n"),
            (format!("ceiling '{address}' 'K1^1' MCU"), "refusal = 4\n"),
        ] {
            assert_eq!(console(&line).refused(output), [what.as_str(), &meant]);
        }
    }
    let known = console("chek 'K1^1'").refused("4 0 \n");
    let words = "nor is it one of the words check, find, replace, date, ceiling, algebra";
    assert_eq!(known[1], words);
    let known = console("find chek 'K1^1'").refused("refusal = 4\n");
    assert_eq!(known.len(), 1, "{known:?}");
    let known = console("2 1 0 'K1^1' MCU").refused("4 0 \n");
    assert_eq!(known[1], "did you mean `2,1,0`?");
    let known = console("1000 'K1^1' MCU").refused("4 0 \n");
    assert_eq!(known.len(), 1, "1000,0,0 is refused too: {known:?}");
}

/// What is wrong with an address that is one.
#[test]
fn refused_addresses() {
    let table = r#"
1000,0,0 => attribute 1000 is over 999
1,32769,0 => the value or the subvalue is over 32768
1,1,32769 => the value or the subvalue is over 32768
0,1,0 => the id, which is attribute 0, has no values: its address is `0,0,0`
0,0,3 => the id, which is attribute 0, has no values: its address is `0,0,0`
1,0,2 => subvalue 2 stands in no value: did you mean `1,1,2`?"#;
    for [address, wrong] in rows(table) {
        let known = console(&format!("find {address} 'K1^1'")).refused("refusal = 4\n");
        assert_eq!(known, [wrong]);
    }
}

/// The element at which a run is refused, the code, and what that was given.
#[test]
fn elements() {
    let table = r#"
1,0,0 'K1^12]7\abc' MR2 => 12 13\s\n => it is the element at 1,2,2, of 3 bytes: `abc` => code 1 of 1, at byte 1 of the code string: `MR2`
1,2,0 'K1^12]7\ab\3' MR2 => 12 6\s\n => it is the element at 1,2,2, of 2 bytes: `ab` => code 1 of 1, at byte 1 of the code string: `MR2`
0,0,0 'K1^12' MR2 => 12 0\s\n => it is the element at 0,0,0, of 2 bytes: `K1` => code 1 of 1, at byte 1 of the code string: `MR2`
1,0,0 'K1^00]Z' MY => 12 4\s\n => it is the element at 1,2,1, of 1 byte: `Z` => code 1 of 1, at byte 1 of the code string: `MY`"#;
    for [line, output, element, code] in rows(table) {
        assert_eq!(console(&line).refused(&output), [element, code]);
    }
    let known = console("1,0,0 'K1^1]1234' 'MR2,$' MR2").refused("12 7 \n");
    let given = [
        "it is the element at 1,1,1, of 1 byte: `1`",
        "code 2 of 2, at byte 7 of the code string: `MR2`",
        "it was given `$0.01`",
    ];
    assert_eq!(known, given);
    let over = "x".repeat(1_025);
    let known = console(&format!("1,0,0 'K1^]{over}'")).refused("9 0 \n");
    let element = format!(
        "it is the element at 1,2,1, of 1025 bytes: `{}...`",
        &over[..60]
    );
    assert_eq!(known, [element]);
    // a missing place is no element of the record
    let known = console("2,0,0 'K1^1' \"F;1;'0';/\"").refused("11 8 \n");
    assert!(known.is_empty(), "{known:?}");
    // in three lines a mark that is drawn is a plain byte
    let call = words(&[b"-"]).reading(b"MR\n1,0,0\nK1\xfe5]x\xfd5\n");
    let known = call.refused("12 0 \n");
    assert_eq!(known[0], "it is the element at 1,1,1, of 3 bytes: `5]x`");
}

/// What is wrong with a new element.
#[test]
fn new_elements() {
    let known = console("replace 1,0,0 'K1^1' 'a]b'").refused("refusal = 17\n");
    let mark = "the new element is `a]b`: ^ ] and \\ are marks there";
    assert_eq!(known, [mark]);
    let new = "x".repeat(1_025);
    let known = console(&format!("replace 1,0,0 'K1^1' {new}")).refused("refusal = 9\n");
    let long = format!("the new element has 1025 bytes: `{}...`", &new[..60]);
    assert_eq!(known, [long]);
}

#[test]
fn slips_in_dates_and_formulas() {
    let table = r#"
date d '18 MAY 1995' => 6 => did you mean 'D'?
date '18 MAY 1995' D => 6 => did you mean the code and the date the other way round? CODE TEXT is their order
date D0 '18 MAY' => 12 => a code without a year, n = 0, reads no date
date 18/05/95 D2/ => 6 => did you mean the code and the date the other way round? CODE TEXT is their order
date D2/ 18/05/95 => 12 => a date typed for `D2/` looks like `12/31/67`
date D1 '31 DEC 7' => 12 => a date typed for `D1` looks like `31 DEC 1967`
algebra "A'7+1" => 6 => did you mean "A'7'+1"?
algebra 'F;1;2;+' => 6 => this is no A code, but a code that can be run as it is
algebra 'A1 + 2' => 6 => did you mean 'A1+2'?
algebra 'A1=>2' => 6 => did you mean 'A1>=2'?
algebra 'a1+(2*3' => 6 => did you mean 'A1+(2*3)'?
algebra 'A;1+2' => 6 => did you mean 'A1+2'?
algebra '1+2' => 6 => did you mean 'A1+2'?
algebra 1,0,0 'K1^2' A1 => 6 => did you mean it as an address? The A code comes first: ./console algebra CODE ADDRESS RECORD"#;
    for [line, number, meant] in rows(table) {
        let known = console(&line).refused(&format!("refusal = {number}\n"));
        let guess = known.last().expect("something is known");
        assert!(guess.starts_with(&meant), "{guess}, not {meant}");
    }
    let text = format!("algebra \"A'{}'+'{}'\"", "x".repeat(250), "x".repeat(254));
    let known = console(&text).refused("refusal = 5\n");
    assert_eq!(known[1], "its F text would have more than 512");
}

/// Words in another order than theirs.
#[test]
fn swapped_words() {
    let table = r#"
'K1^A' 1,0,0 MCU => 4 0\s\n => warning: the record `1,0,0` looks like an address: the address comes first, then the record
MCU 1,0,0 'K1^A' => 4 0\s\n => warning: the record `1,0,0` looks like an address: the address comes first, then the record
find 'K1^A' 1,0,0 => refusal = 4\n => warning: the record `1,0,0` looks like an address: the address comes first, then the record
1,0,0 MCU 'K1^A' => 6 0\s\n => did you mean the record and the code the other way round? ADDRESS RECORD CODE is their order
1,0,0 'F;1;2' 'K1^A' => 6 0\s\n => did you mean the record and the code the other way round? ADDRESS RECORD CODE is their order"#;
    for [line, output, said] in rows(table) {
        let written = console(&line).run();
        assert!(written.lines.contains(&said), "not said: {said}{written}");
        written.must_be(output.as_bytes(), &written.lines, 1);
    }
}

/// A line end in the record: a warning, and the answer without what is behind it.
#[test]
fn line_ends_in_records() {
    let table = r#"
1,0,0 'K1^10\n^5' MCU => 0 5 10\n
find 1,0,0 'K1^10\n' => refusal = 0, found = 1, start = 3, length = 2, part = 10\n
replace 1,0,0 'K1^1\n' X => refusal = 0, length = 4, record = K1^X\n
ceiling 1,0,0 'K1^1\n' L => refusal = 0, ceiling = 4097\n
algebra A1 1,0,0 'K1^1\n' => refusal = 0, F code = F;1\nrefusal = 0, steps = 6, answer = 1\n"#;
    let warning = "warning: a line end stands in the record, and what is behind it is left out";
    for [line, output] in rows(table) {
        console(&line).writes(&output, &[warning], 0);
    }
}

/// Other warnings; the answer is what it is without them.
#[test]
fn warnings() {
    for (line, output, warning) in [
        (
            "find 0,0,0 1,0,0",
            "refusal = 0, found = 1, start = 0, length = 5, part = 1,0,0\n",
            "the record `1,0,0` looks like an address: the address comes first, then the record",
        ),
        (
            "1,0,0 10 MCU",
            "0 1 \n",
            "the record `10` has no ^, so it is an item-id alone and has no attributes: \
             a record begins with its id, as K1^10]20",
        ),
        (
            "1,0,0 'K1^10' ''",
            "0 0 10\n",
            "the code is empty, so nothing is converted",
        ),
        (
            "1,0,0 'K1^10' 'F;1;'7';+'",
            "0 19 10\n",
            "the record has no attribute 7, so it counts as empty; if 7 was a constant, \
             the shell took its quotes: write \"F;1;'7';+\", not 'F;1;'7';+'",
        ),
    ] {
        console(line).writes(output, &[format!("warning: {warning}")], 0);
    }
    // what is refused before it runs loads nothing
    for line in ["1,0,0 'K1^10' 'F;1;'7';+;+'", "1,0,0 'K1^10' 'F;1;'7''"] {
        let written = console(line).run();
        let warned = |line: &String| line.starts_with("warning: ");
        assert!(!written.lines.iter().any(warned), "{written}");
        assert_eq!(written.status, Some(1), "{written}");
    }
    let line = "./console algebra A1+'7' 1,0,0 'K1^2' 2>&1 | grep -c 'has no attribute 7'";
    typed(line).writes("1\n", NOTHING, 0);
    let line = "./console < README.md 2>&1 | grep -c 'standard input is not read'";
    typed(line).writes("1\n", NOTHING, 0);
}

/// A file with marks that are drawn, and one made on Windows.
#[test]
fn warnings_of_three_lines() {
    for (input, output, warning) in [
        (
            b"L\n1,0,0\nK1^10]20\n".as_slice(),
            "0 2 0\n",
            "the record has no mark: in the three lines ^ ] \\ are plain text, \
             and marks are the bytes 254, 253, 252",
        ),
        (
            b"L\n1,0,0\nK1\xfe10\r\n",
            "0 5 3\n",
            "a line ends with a carriage return, as in files made on Windows, \
             and it counts as part of the line",
        ),
    ] {
        let call = words(&[b"-"]).reading(input);
        call.writes(output, &[format!("warning: {warning}")], 0);
    }
}

#[test]
fn usage_errors() {
    let table = r#"
- FILE => - takes no words: ./console - < FILE
1,0,0 => no record stands behind `1,0,0`: ./console ADDRESS RECORD CODE...
--version => there is no option `--version`
-x 1,0,0 K1 => there is no option `-x`
check => check is called so: ./console check CODE...
find 1,0,0 => find is called so: ./console find ADDRESS RECORD
find 1,0,0 K1 MCU => find is called so: ./console find ADDRESS RECORD
replace 1,0,0 K1 => replace is called so: ./console replace ADDRESS RECORD NEW
date D => date is called so: ./console date CODE TEXT
date D 1 JAN 1968 => a date with blanks is one word, in quotes: ./console date 'D' '1 JAN 1968'
ceiling 1,0,0 => ceiling is called so: ./console ceiling ADDRESS RECORD CODE...
algebra A1 1,0,0 => algebra is called so: ./console algebra CODE [ADDRESS RECORD]
1,0,0 'K1^1' 'MCU\n' => a code holds a line end: `MCU?`
find '1,0,0\n' 'K1^1' => the address holds a line end: `1,0,0?`"#;
    for [line, wrong] in rows(table) {
        let lines = [wrong.as_str(), "./console --help shows how it is called"];
        console(&line).writes("", &lines, 2);
    }
}

/// The help is shown, also where nothing can be run, and what it says is printed is.
#[test]
fn help() {
    let help = fs::read_to_string(Path::new(ROOT).join("command/help"));
    let help = help.expect("the help stands beside the script");
    for line in ["--help", "-h", "help", "--help find", "find --help"] {
        let call = console(line);
        call.with("PATH", path_without_rt())
            .writes(&help, NOTHING, 0);
    }
    let examples = help.lines().filter_map(|line| line.split_once(" prints "));
    let examples: Vec<_> = examples.filter(|(line, _)| line.contains('\'')).collect();
    assert_eq!(examples.len(), 2, "{examples:?}");
    for (line, output) in examples {
        typed(line).writes(&format!("{output}\n"), NOTHING, 0);
    }
}

/// Through a link, a link to a link and a relative one, in folders with blanks.
#[test]
fn links() {
    let folder = Folder::new("links");
    let below = folder.path.join("be low");
    let script = fs::canonicalize(Path::new(ROOT).join("console"));
    fs::create_dir(&below).expect("the folder is ours");
    symlink(script.expect("the script stands"), folder.path.join("one")).expect("a link");
    symlink("one", folder.path.join("two")).expect("a link to a link");
    symlink("../two", below.join("three")).expect("a relative link");
    for (line, from) in [
        ("./one", &folder.path),
        ("./two", &folder.path),
        ("'be low/three'", &folder.path),
        ("./three", &below),
        ("../one", &below),
    ] {
        let call = |line: &str| typed(line).from(from).with("TMPDIR", &folder.path);
        call(line).writes(EXAMPLE, NOTHING, 0);
        let known = call(&format!("{line} 1,0,0 'K1^a' mcu")).refused("6 0 \n");
        assert_eq!(known[1], "did you mean 'MCU'?");
    }
}

/// A command `rt` in this folder, which does this.
fn rt(folder: &Path, script: &str) {
    let rt = folder.join("rt");
    fs::write(&rt, format!("#!/bin/sh\n{script}\n")).expect("the folder is ours");
    fs::set_permissions(&rt, fs::Permissions::from_mode(0o755)).expect("the file is ours");
}

/// A kit in this folder, whose `rt` does this; the rest of it is that of the kit. Gives the
/// PATH by which it is found.
fn kit_with(folder: &Path, script: &str) -> OsString {
    let (made, bin) = (folder.join("kit"), folder.join("kit/bin"));
    fs::create_dir_all(&bin).expect("the folder is ours");
    for part in ["KIT-ID", "toolchain"] {
        symlink(kit().join(part), made.join(part)).expect("a link");
    }
    rt(&bin, script);
    path_with(&bin)
}

/// Nothing has changed, so nothing is proved: a command that proves nothing will do.
#[test]
fn unchanged() {
    let folder = Folder::new("unchanged");
    let path = kit_with(&folder.path, "exit 1");
    let call = typed("./console").with("PATH", path);
    call.writes(EXAMPLE, NOTHING, 0);
}

/// A copy of the script with hardly a source, its kit, whose `rt` counts its calls, takes
/// so many seconds, and then the folder's program from here; and the PATH to that.
struct Copy {
    folder: Folder,
    path: OsString,
}

fn copy(name: &str, seconds: u32) -> Copy {
    let folder = Folder::new(name);
    let parts = ["console", "command", "docs"].map(|part| format!("'{ROOT}'/{part}"));
    let parts = parts.join(" ");
    let crates = PROGRAMS.map(|program| format!("crates/{program}/out"));
    let crates = crates.join(" ");
    let made = format!("mkdir -p calls {crates} && cp -r {parts} . && touch crates/one crates.txt");
    typed(&made).from(&folder.path).writes("", NOTHING, 0);
    let taken = format!("cp '{ROOT}'/target/bin/\"${{PWD##*/}}\" out");
    let script = format!("mktemp -p ../../calls && sleep {seconds} && {taken}");
    let path = kit_with(&folder.path, &script);
    Copy { folder, path }
}

impl Copy {
    /// What is typed in it, by its own `rt`.
    fn typed(&self, line: &str) -> Written {
        let call = typed(line).from(&self.folder.path);
        call.with("PATH", &self.path).run()
    }

    /// How often all of it was proved: each time `rt` is called in each program's folder.
    fn proved(&self) -> usize {
        let calls = fs::read_dir(self.folder.path.join("calls"));
        let calls = calls.expect("the folder is ours").count();
        assert_eq!(calls % PROGRAMS.len(), 0, "{calls} calls");
        calls / PROGRAMS.len()
    }
}

/// Something has changed, so it is proved, once.
#[test]
fn changed() {
    let copy = copy("changed", 0);
    let must_prove = |change: &str, times: usize| {
        typed(change).from(&copy.folder.path).writes("", NOTHING, 0);
        let written = copy.typed("./console");
        let begins = |line: &String| line.starts_with("proving ");
        assert!(written.lines.iter().all(begins), "{written}");
        written.must_be(EXAMPLE.as_bytes(), &written.lines, 0);
        assert_eq!(copy.proved(), times, "behind {change:?}");
    };
    must_prove("true", 1);
    must_prove("true", 1);
    must_prove("echo >> crates/one", 2);
    must_prove("true", 2);
    must_prove("echo >> target/bin/words", 3);
    must_prove("rm target/bin/formula", 4);
    must_prove("touch crates/one", 4);
    must_prove("touch crates/two", 5);
    // what rt makes is no source, but where it does not lie in a crate's own folder out/
    must_prove("echo >> crates/words/out/words", 5);
    must_prove(
        "mkdir -p crates/words/proofs/out && touch crates/words/proofs/out/one",
        6,
    );
}

/// Of calls at the same time one proves, and the others wait for it.
#[test]
fn at_the_same_time() {
    let copy = copy("at the same time", 1);
    let written = copy.typed("./console & ./console & ./console & wait");
    written.must_be(EXAMPLE.repeat(3).as_bytes(), &written.lines, 0);
    let waits = "waiting for another call that is proving here";
    assert!(written.lines.iter().any(|line| line == waits), "{written}");
    assert_eq!(copy.proved(), 1);
}

/// A copy of the script alone says what is missing, and a shell that is not bash calls it.
#[test]
fn copies() {
    let folder = Folder::new("copies");
    let copy = format!("cp '{ROOT}'/console .");
    typed(&copy).from(&folder.path).writes("", NOTHING, 0);
    let missing = "command/proving.sh is not beside this script: take a link to it, not a copy";
    typed("./console")
        .from(&folder.path)
        .writes("", &[missing], 3);
    typed("sh ./console").writes(EXAMPLE, NOTHING, 0);
}

#[test]
fn nothing_to_read_or_write() {
    let table = r#"
./console - <&- => standard input cannot be read
./console - < . => standard input cannot be read
./console >&- => standard output cannot be written
./console > /dev/full => standard output cannot be written
./console 1,0,0 'K1^a' mcu > /dev/full => standard output cannot be written
./console check MCU > /dev/full => standard output cannot be written
./console algebra A1 1,0,0 'K1^1' >&- => standard output cannot be written
./console --help > /dev/full => standard output cannot be written
PATH=$NO_KIT; export PATH; ./console => the Rattle kit's command rt is not on the PATH, or not all of the kit is there
PATH=$NO_KIT:$HALF_KIT; export PATH; ./console => the Rattle kit's command rt is not on the PATH, or not all of the kit is there
TMPDIR='/no such folder' ./console => no folder for temporary files can be made"#;
    let half = Folder::new("half a kit");
    rt(&half.path, "exit 1");
    for [line, wrong] in rows(table) {
        let call = typed(&line).with("NO_KIT", path_without_rt());
        let call = call.with("HALF_KIT", &half.path);
        call.writes("", &[wrong], 3);
    }
    typed("./console <&-").writes(EXAMPLE, NOTHING, 0);
    typed("CDPATH=. TMPDIR=target ./console").writes(EXAMPLE, NOTHING, 0);
    typed("./console 1,0,0 'K1^a' mcu 2>&-").writes("6 0 \n", NOTHING, 1);
}

/// Words of any bytes, and long ones.
#[test]
fn words_of_any_bytes() {
    let every: Vec<u8> = (1..=255).filter(|byte| *byte != b'\n').collect();
    let (every, long) = (every.as_slice(), vec![b'x'; 100_000]);
    for (call, output) in [
        (vec![b"1,0,0".as_slice(), b"K1^1", every], "6 0 \n"),
        (vec![every, b"K1^1", b"MCU"], "4 0 \n"),
        (vec![b"1,0,0", every, b"MCU"], "2 0 \n"),
        (vec![b"check", every], "refusal = 6, code = 1\n"),
        (vec![b"date", every, every], "refusal = 6\n"),
        (vec![b"algebra", every], "refusal = 6\n"),
        (vec![&long, b"K1^1", b"MCU"], "4 0 \n"),
        (vec![b"1,0,0", &long, b"MCU"], "1 0 \n"),
        (vec![b"check", &long], "refusal = 5, code = 0\n"),
        (vec![b"replace", b"1,0,0", b"K1^1", &long], "refusal = 9\n"),
    ] {
        let written = words(&call).run();
        written.must_be(output.as_bytes(), &written.lines, 1);
        assert!(
            written.lines.iter().all(|line| line.len() < 400),
            "{written}"
        );
    }
}
