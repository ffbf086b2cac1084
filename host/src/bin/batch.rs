//! Calls the proved library for each line of standard input.
//!
//! A line is the name of a call and its fields, parted by TAB, as in the
//! vectors: byte strings in hex, `-` for the empty one, numbers in decimal.
//! The result is a line of fields parted by single blanks.
//!
//! | line | result |
//! |---|---|
//! | `find` record a v s | refusal found part |
//! | `replace` record a v s new output-length | refusal length answer |
//! | `check` code | refusal code-number A B P T |
//! | `convert` record code a v s budget output-length scratch-length | refusal steps length answer |
//! | `ceilingof` record code a v s | the ceiling, 0 where it is refused |
//! | `date` code text | refusal day |
//! | `acode` code output-length | refusal length F-text |
//!
//! The buffers are dirty before each call; should the library not leave them as
//! document 01 asks, or should a line not be readable, the program says so on
//! standard error and ends with status 1 or 2.

#![forbid(unsafe_code)]

use std::fmt;
use std::io::{self, BufRead, BufWriter, Write};
use std::process::ExitCode;
use std::str::{FromStr, Split};

use sundewfrill_host::outcome::Address;
use sundewfrill_host::{ffi, fields};

/// What the buffers are full of before a call.
const DIRT: u8 = 0xa5;

/// The longest buffer that a line may ask for.
const LONGEST_BUFFER: usize = 1 << 30;

/// Why a line has no result.
enum Fault {
    /// The line is not a call.
    Unreadable(&'static str),
    /// The library did not leave a buffer as it must.
    Unsettled(&'static str),
}

fn main() -> ExitCode {
    match run() {
        Ok(code) => code,
        Err(error) => {
            eprintln!("batch: {error}");
            ExitCode::from(2)
        }
    }
}

/// Answers all lines, up to the first that has no result.
fn run() -> io::Result<ExitCode> {
    let mut output = BufWriter::new(io::stdout().lock());
    for (line, number) in io::stdin().lock().lines().zip(1_u64..) {
        match answer(&line?) {
            Ok(result) => writeln!(output, "{result}")?,
            Err(fault) => {
                output.flush()?;
                eprintln!("batch: line {number}: {fault}");
                return Ok(fault.code());
            }
        }
    }
    output.flush()?;
    Ok(ExitCode::SUCCESS)
}

/// The result of the call on this line.
fn answer(line: &str) -> Result<String, Fault> {
    let mut line = Line {
        fields: line.split('\t'),
    };
    match line.text()? {
        "find" => find(line),
        "replace" => replace(line),
        "check" => check(line),
        "convert" => convert(line),
        "ceilingof" => ceiling(line),
        "date" => date(line),
        "acode" => algebra(line),
        _ => Err(Fault::Unreadable("no call has this name")),
    }
}

fn find(mut line: Line) -> Result<String, Fault> {
    let record = line.bytes()?;
    let at = line.address()?;
    line.end()?;
    let outcome = ffi::find(&record, at);
    let part = part(&record, outcome.start, outcome.length)?;
    Ok(format!(
        "{} {} {}",
        outcome.refusal,
        outcome.found,
        fields::write(part)
    ))
}

fn replace(mut line: Line) -> Result<String, Fault> {
    let record = line.bytes()?;
    let at = line.address()?;
    let new = line.bytes()?;
    let mut output = line.buffer()?;
    line.end()?;
    let outcome = ffi::replace(&record, &new, at, &mut output);
    let answer = settled(&output, outcome.length)?;
    Ok(format!(
        "{} {} {}",
        outcome.refusal,
        outcome.length,
        fields::write(answer)
    ))
}

fn check(mut line: Line) -> Result<String, Fault> {
    let code = line.bytes()?;
    line.end()?;
    let outcome = ffi::check(&code);
    Ok(format!(
        "{} {} {} {} {} {}",
        outcome.refusal,
        outcome.code_number,
        outcome.loads,
        outcome.others,
        outcome.patterns,
        outcome.tests
    ))
}

fn convert(mut line: Line) -> Result<String, Fault> {
    let record = line.bytes()?;
    let code = line.bytes()?;
    let at = line.address()?;
    let budget = line.number()?;
    let mut output = line.buffer()?;
    let mut scratch = line.buffer()?;
    line.end()?;
    let outcome = ffi::convert(&record, &code, at, budget, &mut output, &mut scratch);
    settled(&scratch, 0).map_err(|_| Fault::Unsettled("the scratch"))?;
    let answer = settled(&output, outcome.length)?;
    Ok(format!(
        "{} {} {} {}",
        outcome.refusal,
        outcome.steps,
        outcome.length,
        fields::write(answer)
    ))
}

fn ceiling(mut line: Line) -> Result<String, Fault> {
    let record = line.bytes()?;
    let code = line.bytes()?;
    let at = line.address()?;
    line.end()?;
    Ok(ffi::ceiling(&record, &code, at).ceiling.to_string())
}

fn date(mut line: Line) -> Result<String, Fault> {
    let code = line.bytes()?;
    let text = line.bytes()?;
    line.end()?;
    let outcome = ffi::typed_date(&code, &text);
    Ok(format!("{} {}", outcome.refusal, outcome.day()))
}

fn algebra(mut line: Line) -> Result<String, Fault> {
    let code = line.bytes()?;
    let mut output = line.buffer()?;
    line.end()?;
    let outcome = ffi::algebra(&code, &mut output);
    let text = settled(&output, outcome.length)?;
    Ok(format!(
        "{} {} {}",
        outcome.refusal,
        outcome.length,
        fields::write(text)
    ))
}

/// A part of the record, if it lies in it.
fn part(record: &[u8], start: u64, length: u64) -> Result<&[u8], Fault> {
    let place = || {
        let start = usize::try_from(start).ok()?;
        let end = start.checked_add(usize::try_from(length).ok()?)?;
        record.get(start..end)
    };
    place().ok_or(Fault::Unsettled("the part that was found"))
}

/// The answer in a buffer that holds it and then zeros.
fn settled(buffer: &[u8], length: u64) -> Result<&[u8], Fault> {
    match usize::try_from(length) {
        Ok(length) if length <= buffer.len() && buffer[length..].iter().all(|&byte| byte == 0) => {
            Ok(&buffer[..length])
        }
        _ => Err(Fault::Unsettled("the output")),
    }
}

/// A line, its fields taken from the left.
struct Line<'l> {
    fields: Split<'l, char>,
}

impl<'l> Line<'l> {
    fn text(&mut self) -> Result<&'l str, Fault> {
        let missing = Fault::Unreadable("a field is missing");
        self.fields.next().ok_or(missing)
    }

    fn bytes(&mut self) -> Result<Vec<u8>, Fault> {
        let bad = Fault::Unreadable("a byte string is not in hex");
        fields::read(self.text()?).ok_or(bad)
    }

    fn number<N: FromStr>(&mut self) -> Result<N, Fault> {
        let bad = |_| Fault::Unreadable("a number is not in decimal, or too great");
        self.text()?.parse().map_err(bad)
    }

    fn address(&mut self) -> Result<Address, Fault> {
        Ok(Address::new(self.number()?, self.number()?, self.number()?))
    }

    /// A dirty buffer of the length in the next field.
    fn buffer(&mut self) -> Result<Vec<u8>, Fault> {
        match self.number()? {
            length if length <= LONGEST_BUFFER => Ok(vec![DIRT; length]),
            _ => Err(Fault::Unreadable("a buffer would be too long")),
        }
    }

    fn end(mut self) -> Result<(), Fault> {
        match self.fields.next() {
            None => Ok(()),
            Some(_) => Err(Fault::Unreadable("there is a field too many")),
        }
    }
}

impl Fault {
    fn code(&self) -> ExitCode {
        match self {
            Fault::Unsettled(_) => ExitCode::from(1),
            Fault::Unreadable(_) => ExitCode::from(2),
        }
    }
}

impl fmt::Display for Fault {
    fn fmt(&self, f: &mut fmt::Formatter<'_>) -> fmt::Result {
        match self {
            Fault::Unreadable(why) => write!(f, "not readable: {why}"),
            Fault::Unsettled(what) => write!(f, "the library did not leave {what} as it must"),
        }
    }
}
