//! How many cases to run, and how far they are.

use std::env;
use std::io::{self, Write};
use std::time::{Duration, Instant};

/// How many generated calls a usual run has in all.
pub const USUAL_CASES: u64 = 1_250_000;
/// The seed of a usual run.
pub const USUAL_SEED: u64 = 0x5eed_1987;

/// How often progress is shown.
const PAUSE: Duration = Duration::from_secs(5);

/// The number of the environment variable `name`, or `usual` if it is not set.
fn setting(name: &str, usual: u64) -> u64 {
    match env::var(name) {
        Ok(text) => match text.replace('_', "").parse() {
            Ok(number) => number,
            Err(_) => panic!("{name} must be a number, not {text:?}"),
        },
        Err(_) => usual,
    }
}

/// The seed: `SUNDEWFRILL_SEED`, or the usual one.
pub fn seed() -> u64 {
    setting("SUNDEWFRILL_SEED", USUAL_SEED)
}

/// So many percent of a run's cases: of
/// `SUNDEWFRILL_CASES`, or of `usual` if that is not set.
pub fn share(usual: u64, percent: u64) -> u64 {
    let cases = setting("SUNDEWFRILL_CASES", usual);
    (cases * percent).div_ceil(100)
}

/// Whether a run has fewer than its usual cases.
pub fn is_short(usual: u64) -> bool {
    setting("SUNDEWFRILL_CASES", usual) < usual
}

/// Counts the cases of one call and shows how far they are.
pub struct Progress {
    name: &'static str,
    total: u64,
    started: Instant,
    shown: Instant,
}

impl Progress {
    pub fn new(name: &'static str, total: u64) -> Self {
        let now = Instant::now();
        Progress {
            name,
            total,
            started: now,
            shown: now,
        }
    }

    /// Shows that `done` cases are done, if it is time to.
    pub fn step(&mut self, done: u64) {
        if done % 64 == 0 && self.shown.elapsed() >= PAUSE {
            self.shown = Instant::now();
            self.show(&format!(
                "{done} of {} ({} %)",
                self.total,
                done * 100 / self.total
            ));
        }
    }

    /// Shows the end and what came of it.
    pub fn finish(self, summary: &str) {
        self.show(&format!("all {} calls: {summary},", self.total));
    }

    /// Writes past the test harness, which would keep the line to itself.
    fn show(&self, text: &str) {
        let seconds = self.started.elapsed().as_secs_f64();
        let line = format!("  {}: {text} after {seconds:.1} s\n", self.name);
        // A closed standard error is no reason to stop the comparison.
        let _ = io::stderr().write_all(line.as_bytes());
    }
}
