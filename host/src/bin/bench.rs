//! The proved library beside the independent implementation: the same inputs in
//! the same run, one after the other, round by round.
//!
//! Build it for release: `cargo run --release --bin bench`. Both sides give the
//! same bytes, which is checked before anything is timed, and both clear their
//! whole output and scratch in every call, as document 01 asks.

#![forbid(unsafe_code)]

use std::env;
use std::hint::black_box;
use std::process::ExitCode;
use std::time::{Duration, Instant};

use sundewfrill_host::outcome::{
    Address, Algebra, Ceiling, Check, Convert, Find, Implementation, Replace, TypedDate,
};
use sundewfrill_host::{ffi, paper, Refusal, SCRATCH_LENGTH};

/// How long one round of one side takes at least.
const ROUND: Duration = Duration::from_millis(20);
/// How many rounds each side has; the best one counts.
const ROUNDS: usize = 9;
/// Set by the runner when the processor is emulated.
const EMULATED_VARIABLE: &str = "SUNDEWFRILL_EMULATED";
/// What the buffers hold before the call that is checked.
const DIRT: u8 = 0xa5;

/// What the table is about, and its head.
const INTRODUCTION: &str = "\
The proved library beside the independent implementation: the same inputs in the same run, the
best of several rounds. Buffers are cleared: every call of either side fills its whole output and
scratch with the answer and zeros, and this is part of its time. The table says how many bytes
these are and how long clearing them takes by itself. Ratio: proved over independent.

| what | steps | cleared, bytes | clearing alone, ns | proved, ns a call | independent, ns a call \
| ratio | proved, ns a step | independent, ns a step |
|---|---:|---:|---:|---:|---:|---:|---:|---:|";

/// A call to time.
enum Call {
    Find {
        record: Vec<u8>,
        at: Address,
    },
    Replace {
        record: Vec<u8>,
        new: Vec<u8>,
        at: Address,
        output_length: usize,
    },
    Check {
        code: Vec<u8>,
        /// With which number it is to be refused, 0 for none.
        refusal: u64,
    },
    Convert {
        record: Vec<u8>,
        code: Vec<u8>,
        at: Address,
        output_length: usize,
    },
    Ceiling {
        record: Vec<u8>,
        code: Vec<u8>,
        at: Address,
    },
    TypedDate {
        code: Vec<u8>,
        text: Vec<u8>,
    },
    Algebra {
        code: Vec<u8>,
        output_length: usize,
    },
}

/// What came of a call.
#[derive(Debug, PartialEq)]
enum Outcome {
    Find(Find),
    Replace(Replace),
    Check(Check),
    Convert(Convert),
    Ceiling(Ceiling),
    TypedDate(TypedDate),
    Algebra(Algebra),
}

impl Outcome {
    fn refusal(&self) -> u64 {
        match self {
            Outcome::Find(outcome) => outcome.refusal,
            Outcome::Replace(outcome) => outcome.refusal,
            Outcome::Check(outcome) => outcome.refusal,
            Outcome::Convert(outcome) => outcome.refusal,
            Outcome::Ceiling(outcome) => outcome.refusal,
            Outcome::TypedDate(outcome) => outcome.refusal,
            Outcome::Algebra(outcome) => outcome.refusal,
        }
    }

    /// The steps of a conversion.
    fn steps(&self) -> Option<u64> {
        match self {
            Outcome::Convert(outcome) => Some(outcome.steps),
            _ => None,
        }
    }
}

/// The buffers lent to a call.
#[derive(Clone, PartialEq)]
struct Buffers {
    output: Vec<u8>,
    scratch: Vec<u8>,
}

impl Buffers {
    /// Dirty buffers of the lengths that the call takes.
    fn for_call(call: &Call) -> Self {
        let (output, scratch) = match call {
            Call::Replace { output_length, .. } | Call::Algebra { output_length, .. } => {
                (*output_length, 0)
            }
            Call::Convert { output_length, .. } => (*output_length, SCRATCH_LENGTH),
            _ => (0, 0),
        };
        Buffers {
            output: vec![DIRT; output],
            scratch: vec![DIRT; scratch],
        }
    }

    fn length(&self) -> usize {
        self.output.len() + self.scratch.len()
    }
}

impl Call {
    /// With which number the call is to be refused, 0 for none.
    fn refusal(&self) -> u64 {
        match self {
            Call::Check { refusal, .. } => *refusal,
            _ => 0,
        }
    }

    fn run(&self, side: &Implementation, buffers: &mut Buffers) -> Outcome {
        match self {
            Call::Find { record, at } => Outcome::Find((side.find)(black_box(record), *at)),
            Call::Replace {
                record, new, at, ..
            } => Outcome::Replace((side.replace)(
                black_box(record),
                black_box(new),
                *at,
                &mut buffers.output,
            )),
            Call::Check { code, .. } => Outcome::Check((side.check)(black_box(code))),
            Call::Convert {
                record, code, at, ..
            } => Outcome::Convert((side.convert)(
                black_box(record),
                black_box(code),
                *at,
                u64::MAX,
                &mut buffers.output,
                &mut buffers.scratch,
            )),
            Call::Ceiling { record, code, at } => {
                Outcome::Ceiling((side.ceiling)(black_box(record), black_box(code), *at))
            }
            Call::TypedDate { code, text } => {
                Outcome::TypedDate((side.typed_date)(black_box(code), black_box(text)))
            }
            Call::Algebra { code, .. } => {
                Outcome::Algebra((side.algebra)(black_box(code), &mut buffers.output))
            }
        }
    }
}

/// What is timed.
struct Workload {
    name: &'static str,
    call: Call,
}

fn main() -> ExitCode {
    let emulated = env::var(EMULATED_VARIABLE).as_deref() == Ok("1");
    introduce(emulated);
    for workload in workloads() {
        if let Err(difference) = measure(&workload, emulated) {
            eprintln!("bench: {}: {difference}", workload.name);
            return ExitCode::FAILURE;
        }
    }
    if emulated {
        println!("\nEmulated processor: the times and ratios above say nothing.");
    }
    ExitCode::SUCCESS
}

/// Says what the numbers are, and the head of the table.
fn introduce(emulated: bool) {
    if emulated {
        println!("Emulated processor: the times and ratios below say nothing.\n");
    }
    if cfg!(debug_assertions) {
        println!("Not built for release: the times of the independent side say nothing.\n");
    }
    println!("{INTRODUCTION}");
}

/// Times one workload on both sides and writes its row.
fn measure(workload: &Workload, emulated: bool) -> Result<(), String> {
    let (outcome, mut buffers) = compared(&workload.call)?;
    let rounds = if emulated { 1 } else { ROUNDS };
    let clearing = match buffers.length() {
        0 => "-".to_owned(),
        _ => format!("{:.0}", best(rounds, || clear(black_box(&mut buffers)))),
    };
    let mut time = |side: &Implementation| {
        round(|| {
            black_box(workload.call.run(side, &mut buffers));
        })
    };
    let (mut proved, mut independent) = (f64::INFINITY, f64::INFINITY);
    for _ in 0..rounds {
        proved = proved.min(time(&ffi::IMPLEMENTATION));
        independent = independent.min(time(&paper::IMPLEMENTATION));
    }
    let steps = outcome.steps();
    println!(
        "| {} | {} | {} | {clearing} | {proved:.0} | {independent:.0} | {:.2} | {} | {} |",
        workload.name,
        steps.map_or("-".to_owned(), |steps| steps.to_string()),
        buffers.length(),
        proved / independent,
        per_step(proved, steps),
        per_step(independent, steps),
    );
    Ok(())
}

/// The outcome of the call, if both sides accept it, or refuse it as they are to, and
/// give the same on dirty buffers.
fn compared(call: &Call) -> Result<(Outcome, Buffers), String> {
    let mut proved_buffers = Buffers::for_call(call);
    let mut buffers = proved_buffers.clone();
    let proved = call.run(&ffi::IMPLEMENTATION, &mut proved_buffers);
    let independent = call.run(&paper::IMPLEMENTATION, &mut buffers);
    if proved != independent || proved_buffers != buffers {
        return Err(format!("the sides differ: {proved:?} and {independent:?}"));
    }
    if proved.refusal() != call.refusal() {
        return Err(format!("not refusal {}: {proved:?}", call.refusal()));
    }
    Ok((proved, buffers))
}

fn clear(buffers: &mut Buffers) {
    buffers.output.fill(0);
    buffers.scratch.fill(0);
}

/// The time of a step, where there are any.
fn per_step(nanoseconds: f64, steps: Option<u64>) -> String {
    match steps {
        None | Some(0) => "-".to_owned(),
        Some(steps) => format!("{:.3}", nanoseconds / steps as f64),
    }
}

/// The best of some rounds, in nanoseconds a call.
fn best(rounds: usize, mut call: impl FnMut()) -> f64 {
    let times = (0..rounds).map(|_| round(&mut call));
    times.fold(f64::INFINITY, f64::min)
}

/// One round: the call over and over, twice as often each time, until that
/// takes long enough. Gives nanoseconds a call.
fn round(mut call: impl FnMut()) -> f64 {
    let mut calls = 1_u32;
    loop {
        let started = Instant::now();
        for _ in 0..calls {
            call();
        }
        let taken = started.elapsed();
        if taken >= ROUND {
            return taken.as_nanos() as f64 / f64::from(calls);
        }
        calls *= 2;
    }
}

/// All that is timed.
fn workloads() -> Vec<Workload> {
    let mut workloads = vec![Workload {
        name: "small F code on a small record",
        call: convert(b"K1\xfe10\xfd20\xfe3".to_vec(), b"F;1;2R;*", 64),
    }];
    workloads.extend(on_numbers());
    workloads.extend(dates());
    workloads.extend(long_elements());
    workloads.extend(pattern_codes());
    workloads.extend(checks());
    workloads.extend(expressions());
    workloads.extend(at_end());
    workloads.extend(empty_values());
    workloads
}

/// Numbers read and written.
fn on_numbers() -> Vec<Workload> {
    vec![
        Workload {
            name: "1,500 elements: two loads, product, mask",
            call: convert(two_columns(), b"F;1;2;*\xfdMR2,$(#16)", 32_768),
        },
        Workload {
            name: "100 elements through an F code of 84 additions and subtractions",
            call: convert(column(100, days), &sums(), 32_768),
        },
        Workload {
            name: "1,500 halves, every other one negative, through MR24,",
            call: convert(column(1_500, halves), b"MR24,", 32_768),
        },
        Workload {
            name: "the same halves with blanks round them",
            call: convert(column(1_500, blanked_halves), b"MR24,", 32_768),
        },
    ]
}

/// Dates both ways.
fn dates() -> Vec<Workload> {
    vec![
        Workload {
            name: "dates: 1,500 days through D",
            call: convert(column(1_500, days), b"D", 32_768),
        },
        Workload {
            name: "dates: one typed",
            call: Call::TypedDate {
                code: b"D4/".to_vec(),
                text: b"2/29/2000".to_vec(),
            },
        },
    ]
}

/// What it takes to go over elements.
fn empty_values() -> Vec<Workload> {
    let record = column(16_000, |_| Vec::new());
    vec![
        Workload {
            name: "16,000 empty values through MCU",
            call: convert(record.clone(), b"MCU", 32_768),
        },
        Workload {
            name: "16,000 empty values, no codes",
            call: convert(record.clone(), b"", 32_768),
        },
        Workload {
            name: "the ceiling of 16,000 values: two loads, product, mask",
            call: Call::Ceiling {
                record,
                code: b"F;1;2;*\xfdMR2,$(#16)".to_vec(),
                at: Address::new(1, 0, 0),
            },
        },
    ]
}

/// Case changes and hex on 30 elements of 1,000 bytes or so.
fn long_elements() -> Vec<Workload> {
    let text = |length: usize| {
        let letters = b"The quick brown fox, 42 lazy dogs; ";
        letters
            .iter()
            .copied()
            .cycle()
            .take(length)
            .collect::<Vec<u8>>()
    };
    vec![
        Workload {
            name: "30 elements of 1,000 bytes through MCU",
            call: convert(column(30, |_| text(1_000)), b"MCU", 32_768),
        },
        Workload {
            name: "30 elements of 1,000 bytes through MCT",
            call: convert(column(30, |_| text(1_000)), b"MCT", 32_768),
        },
        Workload {
            name: "30 elements of 512 bytes through MX",
            call: convert(column(30, |_| text(512)), b"MX", 32_768),
        },
        Workload {
            name: "30 elements of 1,024 hex digits through MY",
            call: convert(column(30, |_| b"4b31".repeat(256)), b"MY", 32_768),
        },
    ]
}

/// Patterns on 30 elements of 1,024 bytes that leave many places open to the end.
fn pattern_codes() -> Vec<Workload> {
    let elements = |byte: u8| column(30, |_| vec![byte; paper::ENTRY_LENGTH]);
    let literal = [b"P(0X'".as_slice(), &[b'a'; 400], b"')"].concat();
    vec![
        Workload {
            name: "30 elements of 1,024 a through P(0X0X0X0X0X'b'), which fails",
            call: convert(elements(b'a'), b"P(0X0X0X0X0X'b')", 32_768),
        },
        Workload {
            name: "30 elements of 1,024 digits through P(0N500N0N)",
            call: convert(elements(b'7'), b"P(0N500N0N)", 32_768),
        },
        Workload {
            name: "30 elements of 1,024 a through P(0X and a literal of 400 a)",
            call: convert(elements(b'a'), &literal, 32_768),
        },
    ]
}

/// Strings of 512 bytes to check, and sixteen entries that come to one or are left over.
fn checks() -> Vec<Workload> {
    let function = [b"F;1".to_vec(), b";'1';2R;*;P;_;:;:".repeat(28)].concat();
    let codes = b"MR2,C$(#12)\xfdD2/\xfdG1*2\xfd".repeat(23);
    let literals = [b"F".to_vec(), b";'1'".repeat(16)].concat();
    let joined = [literals.clone(), b";:".repeat(15)].concat();
    let check = |code: Vec<u8>, refusal: u64| Call::Check { code, refusal };
    vec![
        Workload {
            name: "checking an F code of 512 bytes",
            call: check(padded(function, b";'", b"';:"), 0),
        },
        Workload {
            name: "checking 70 codes in 512 bytes",
            call: check(padded(codes, b"F;'", b"'"), 0),
        },
        Workload {
            name: "checking 16 literals that are joined to one",
            call: check(joined, 0),
        },
        Workload {
            name: "checking 16 literals that are left over, refused with 18",
            call: check(literals, Refusal::EntriesLeftOver.number()),
        },
    ]
}

/// A codes of 512 bytes to show. Parentheses and `R(x,y)` are longer in the A code than
/// in the F text, which must not pass 512 bytes.
fn expressions() -> Vec<Workload> {
    let many = [b"A1".to_vec(), b"+((2R*'7'))-R(3,(4))[1,('2')]".repeat(16)].concat();
    let deepest = [[b'('; 255].as_slice(), b"1", &[b')'; 255]].concat();
    vec![
        Workload {
            name: "showing an A code of 512 bytes",
            call: algebra(padded(many, b":'", b"'")),
        },
        Workload {
            name: "showing an A code of 255 pairs of parentheses",
            call: algebra([b"A".as_slice(), &deepest].concat()),
        },
    ]
}

/// Showing an A code in an output that is long enough for any.
fn algebra(code: Vec<u8>) -> Call {
    Call::Algebra {
        code,
        output_length: paper::CODE_LENGTH,
    }
}

/// The string and then a literal that brings it to 512 bytes.
fn padded(mut string: Vec<u8>, open: &[u8], close: &[u8]) -> Vec<u8> {
    string.extend_from_slice(open);
    string.resize(paper::CODE_LENGTH - close.len(), b'x');
    string.extend_from_slice(close);
    string
}

/// The last value of the last attribute in a record of 32,768 bytes.
fn at_end() -> Vec<Workload> {
    let attribute = b"\xfeabc\xfddefg\xfchij\xfdklmnopq, and some more text";
    let mut record = b"K1".to_vec();
    while record.len() + attribute.len() <= paper::RECORD_LENGTH {
        record.extend_from_slice(attribute);
    }
    record.resize(paper::RECORD_LENGTH, b'r');
    let marks = record.iter().filter(|&&byte| byte == paper::ATTRIBUTE_MARK);
    let at = Address::new(marks.count() as u64, 3, 1);
    vec![
        Workload {
            name: "finding at the end of a 32 KB record",
            call: Call::Find {
                record: record.clone(),
                at,
            },
        },
        Workload {
            name: "replacing at the end of a 32 KB record",
            call: Call::Replace {
                record,
                new: b"another text".to_vec(),
                at,
                output_length: paper::RECORD_LENGTH,
            },
        },
    ]
}

/// Converting all of attribute 1.
fn convert(record: Vec<u8>, code: &[u8], output_length: usize) -> Call {
    Call::Convert {
        record,
        code: code.to_vec(),
        at: Address::new(1, 0, 0),
        output_length,
    }
}

/// A record with so many values in attribute 1.
fn column(count: u64, value: impl Fn(u64) -> Vec<u8>) -> Vec<u8> {
    [b"K1\xfe".to_vec(), values(count, value)].concat()
}

/// A record with 1,500 prices and 1,500 amounts.
fn two_columns() -> Vec<u8> {
    let prices = values(1_500, |number| {
        (number * 37 % 90_000).to_string().into_bytes()
    });
    let amounts = values(1_500, |number| {
        (number * 11 % 1_000).to_string().into_bytes()
    });
    [b"K1\xfe".to_vec(), prices, b"\xfe".to_vec(), amounts].concat()
}

/// An F code of as many additions and subtractions as there is room for.
fn sums() -> Vec<u8> {
    [b"F;LPV".to_vec(), b";'7';+;'3';-".repeat(42)].concat()
}

fn values(count: u64, value: impl Fn(u64) -> Vec<u8>) -> Vec<u8> {
    let values: Vec<Vec<u8>> = (0..count).map(value).collect();
    values.join(&paper::VALUE_MARK)
}

/// Numbers of which MR24 drops a half, every other one negative.
fn halves(number: u64) -> Vec<u8> {
    let sign = if number % 2 == 1 { "-" } else { "" };
    format!("{sign}{}", number * 1_234_500 + 50).into_bytes()
}

/// These numbers with two blanks before them and one behind.
fn blanked_halves(number: u64) -> Vec<u8> {
    [b"  ".to_vec(), halves(number), b" ".to_vec()].concat()
}

/// Days from all over the calendar.
fn days(number: u64) -> Vec<u8> {
    let day = (number * 7_919) as i64 % 3_652_059 - 718_430;
    day.to_string().into_bytes()
}
