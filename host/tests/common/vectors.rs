//! The rows of the vectors, and how an implementation does on them.

mod words;

use std::fs;
use std::path::Path;
use std::str::FromStr;

use sundewfrill_host::outcome::{Address, Check, Convert, Implementation};
use sundewfrill_host::{fields, paper, Refusal};

use super::buffers::{all_zero, Buffers};
use super::calls::{
    AlgebraCall, CeilingCall, CheckCall, ConvertCall, DateCall, FindCall, ReplaceCall,
};
use super::laws;

/// A stored file.
struct File {
    name: &'static str,
    /// The call of all its rows; `None` if each row begins with the name of its
    /// own.
    call: Option<&'static str>,
    rows: usize,
}

/// All stored files.
const FILES: [File; 13] = [
    file("find.tsv", Some("find"), 1_500),
    file("replace.tsv", Some("replace"), 1_500),
    file("check.tsv", Some("check"), 2_500),
    file("convert.tsv", Some("convert"), 6_000),
    file("give.tsv", Some("convert"), 6_000),
    file("date.tsv", Some("date"), 1_500),
    file("program.tsv", Some("program"), 1_500),
    file("L1.tsv", None, 1_216),
    file("L2.tsv", None, 1_314),
    file("L3.tsv", None, 1_186),
    file("L4.tsv", None, 1_359),
    file("L5.tsv", None, 1_022),
    file("L6.tsv", None, 1_064),
];

const fn file(name: &'static str, call: Option<&'static str>, rows: usize) -> File {
    File { name, call, rows }
}

/// A row, its fields taken from the left.
struct Row<'t> {
    file: &'t str,
    number: usize,
    fields: std::str::Split<'t, char>,
}

impl<'t> Row<'t> {
    fn text(&mut self) -> &'t str {
        let field = self.fields.next();
        field.unwrap_or_else(|| panic!("{} row {}: a field is missing", self.file, self.number))
    }

    fn bytes(&mut self) -> Vec<u8> {
        let field = self.text();
        fields::read(field).unwrap_or_else(|| panic!("{} row {}: no hex", self.file, self.number))
    }

    fn number<N: FromStr>(&mut self) -> N {
        let field = self.text();
        let number = field.parse().ok();
        number.unwrap_or_else(|| panic!("{} row {}: no number", self.file, self.number))
    }

    fn address(&mut self) -> Address {
        Address::new(self.number(), self.number(), self.number())
    }

    /// Passes over all fields that are left.
    fn skip(&mut self) {
        self.fields.by_ref().for_each(drop);
    }
}

/// Goes over all rows of a file with the names of their calls, collects where
/// they differ from what `implementation` gives, and fails if they do.
fn rows(
    file: &File,
    implementation: &str,
    mut differs: impl FnMut(&str, &mut Row) -> Option<String>,
) {
    let path = Path::new(env!("CARGO_MANIFEST_DIR"))
        .join("tests/vectors")
        .join(file.name);
    let text = fs::read_to_string(path).expect("the vectors stand in tests/vectors");
    let mut count = 0;
    let mut differences = Vec::new();
    for (line, number) in text.lines().zip(1..) {
        let mut row = Row {
            file: file.name,
            number,
            fields: line.split('\t'),
        };
        let call = file.call.unwrap_or_else(|| row.text());
        if let Some(difference) = differs(call, &mut row) {
            differences.push(format!("{} row {number}: {difference}", file.name));
        }
        let end = row.fields.next();
        assert!(
            end.is_none(),
            "{} row {number}: a field too many",
            file.name
        );
        count += 1;
    }
    assert_eq!(count, file.rows, "the number of rows in {}", file.name);
    assert!(
        differences.is_empty(),
        "{implementation} differs in {} of {count} rows:\n{}",
        differences.len(),
        differences[..differences.len().min(10)].join("\n")
    );
}

/// All rows of one file by an implementation.
pub fn run(name: &str, implementation: &Implementation) {
    let file = FILES.iter().find(|file| file.name == name);
    let file = file.expect("the file is one of those that are stored");
    let mut buffers = Buffers::default();
    rows(file, implementation.name, |call, row| match call {
        "find" => find(row, implementation),
        "replace" => replace(row, implementation, &mut buffers),
        "check" => check(row, implementation),
        "convert" => convert(row, implementation, &mut buffers),
        "ceilingof" => ceiling(row, implementation),
        "date" => date(row, implementation),
        "acode" => algebra(row, implementation, &mut buffers),
        "program" => program(row, |input| {
            paper::program_with(input, implementation.convert)
        }),
        _ => panic!("{name} row {}: no call is named {call}", row.number),
    });
}

/// The program's rows of all files, by whatever turns input into output. Gives their
/// number.
pub fn programs(name: &str, mut by: impl FnMut(&[u8]) -> Vec<u8>) -> usize {
    of_call("program", name, |row| Some(program(row, &mut by)))
}

/// The rows of A codes that stand on one line, by whatever turns input into output.
/// Gives their number.
pub fn formulas(name: &str, mut by: impl FnMut(&[u8]) -> Vec<u8>) -> usize {
    of_call("acode", name, |row| formula(row, &mut by))
}

/// Rows of a call that `./console` has a word for, typed to whatever turns input into
/// output. Gives how many were run.
pub fn words(call: &str, name: &str, by: impl FnMut(&[u8]) -> Vec<u8>) -> usize {
    words::run(call, name, by)
}

/// The rows of one call in all files. `differs` is `None` of a row that it leaves out;
/// the others are counted.
fn of_call(
    wanted: &str,
    name: &str,
    mut differs: impl FnMut(&mut Row) -> Option<Option<String>>,
) -> usize {
    let mut count = 0;
    for file in &FILES {
        rows(file, name, |call, row| {
            if call != wanted {
                row.skip();
                return None;
            }
            let difference = differs(row)?;
            count += 1;
            difference
        });
    }
    count
}

/// `None` if both are the same, else both in words.
fn unlike<T: PartialEq + std::fmt::Debug>(given: T, expected: T) -> Option<String> {
    (given != expected).then(|| format!("gave {given:?}, expected {expected:?}"))
}

fn find(row: &mut Row, implementation: &Implementation) -> Option<String> {
    let call = FindCall {
        record: row.bytes(),
        at: row.address(),
    };
    let expected = (row.number(), row.number(), row.bytes());
    let outcome = call.run(implementation);
    let (start, length) = (outcome.start as usize, outcome.length as usize);
    let part = call.record[start..start + length].to_vec();
    unlike((outcome.refusal, outcome.found, part), expected)
}

/// The output is dirty before the call.
fn replace(
    row: &mut Row,
    implementation: &Implementation,
    buffers: &mut Buffers,
) -> Option<String> {
    let call = ReplaceCall {
        record: row.bytes(),
        at: row.address(),
        new: row.bytes(),
        output_length: row.number(),
    };
    let expected = (row.number(), row.number(), row.bytes(), true);
    let outcome = call.run(implementation, buffers);
    let (answer, behind) = buffers.output.after().split_at(outcome.length as usize);
    let clear = all_zero(behind);
    unlike(
        (outcome.refusal, outcome.length, answer.to_vec(), clear),
        expected,
    )
}

fn check(row: &mut Row, implementation: &Implementation) -> Option<String> {
    let call = CheckCall { code: row.bytes() };
    let expected = Check {
        refusal: row.number(),
        code_number: row.number(),
        loads: row.number(),
        others: row.number(),
        patterns: row.number(),
        tests: row.number(),
    };
    unlike(call.run(implementation), expected)
}

/// Output and scratch are dirty before the call. The ceiling of the call must
/// suit what the row expects.
fn convert(
    row: &mut Row,
    implementation: &Implementation,
    buffers: &mut Buffers,
) -> Option<String> {
    let call = ConvertCall {
        record: row.bytes(),
        code: row.bytes(),
        at: row.address(),
        budget: row.number(),
        output_length: row.number(),
        scratch_length: row.number(),
    };
    let expected = Convert {
        refusal: row.number(),
        steps: row.number(),
        length: row.number(),
    };
    let ceiling = call.ceiling().run(implementation);
    let within = laws::is_within(&expected, &ceiling);
    let expected = (expected, row.bytes(), true, (ceiling, true));
    let outcome = call.run(implementation, buffers);
    let (answer, behind) = buffers.output.after().split_at(outcome.length as usize);
    let clear = all_zero(behind) && all_zero(buffers.scratch.after());
    let given = (outcome, answer.to_vec(), clear, (ceiling, within));
    unlike(given, expected)
}

/// The ceiling alone: 0 where it is refused. Its number of refusal must be the one
/// that checking and finding give.
fn ceiling(row: &mut Row, implementation: &Implementation) -> Option<String> {
    let call = CeilingCall {
        record: row.bytes(),
        code: row.bytes(),
        at: row.address(),
    };
    let outcome = call.run(implementation);
    laws::ceiling(&call, &outcome, implementation);
    unlike(outcome.ceiling, row.number())
}

fn date(row: &mut Row, implementation: &Implementation) -> Option<String> {
    let call = DateCall {
        code: row.bytes(),
        text: row.bytes(),
    };
    let expected = (row.number(), row.number());
    let outcome = call.run(implementation);
    unlike((outcome.refusal, outcome.day()), expected)
}

/// The output is dirty before the call.
fn algebra(
    row: &mut Row,
    implementation: &Implementation,
    buffers: &mut Buffers,
) -> Option<String> {
    let call = AlgebraCall {
        code: row.bytes(),
        output_length: row.number(),
    };
    let expected = (row.number(), row.number(), row.bytes(), true);
    let outcome = call.run(implementation, buffers);
    let (text, behind) = buffers.output.after().split_at(outcome.length as usize);
    let clear = all_zero(behind);
    unlike(
        (outcome.refusal, outcome.length, text.to_vec(), clear),
        expected,
    )
}

/// `None` if byte 10 stands in the A code. The program shows into 512 bytes: where a
/// row's output is too short, it writes what the row does not tell.
fn formula(row: &mut Row, by: impl FnOnce(&[u8]) -> Vec<u8>) -> Option<Option<String>> {
    let (code, _output_length) = (row.bytes(), row.text());
    let (refusal, _length, text) = (row.number::<u64>(), row.text(), row.bytes());
    let input = [code.as_slice(), b"\n"].concat();
    let expected = match refusal == Refusal::OutputTooShort.number() {
        true => paper::formula(&input),
        false => [format!("{refusal} ").as_bytes(), &text, b"\n"].concat(),
    };
    (!code.contains(&b'\n')).then(|| unlike(by(&input), expected))
}

fn program(row: &mut Row, by: impl FnOnce(&[u8]) -> Vec<u8>) -> Option<String> {
    let input = row.bytes();
    let expected = row.bytes();
    unlike(by(&input), expected)
}
