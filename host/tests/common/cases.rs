//! Generated cases of one call, counted and covered.

use super::coverage::Coverage;
use super::generator::Rng;
use super::progress::{is_short, seed, share, Progress};

/// Runs so many percent of a run's cases, a run having `usual` in all, and
/// gives what they covered. `call` keeps the cases of two calls apart.
pub fn cases(
    usual: u64,
    name: &'static str,
    call: u64,
    percent: u64,
    case: impl FnMut(&mut Rng, &mut Coverage),
) -> Coverage {
    let covered = Coverage::new(is_short(usual));
    covering(covered, share(usual, percent), name, call, case)
}

/// Runs just so many cases, of which a longer run has no more, and gives what they
/// covered: where each is a process of its own.
pub fn exactly(
    total: u64,
    name: &'static str,
    call: u64,
    case: impl FnMut(&mut Rng, &mut Coverage),
) -> Coverage {
    covering(Coverage::new(false), total, name, call, case)
}

fn covering(
    mut coverage: Coverage,
    total: u64,
    name: &'static str,
    call: u64,
    mut case: impl FnMut(&mut Rng, &mut Coverage),
) -> Coverage {
    let seed = seed();
    let mut progress = Progress::new(name, total);
    for number in 0..total {
        case(&mut Rng::of_case(seed, call, number), &mut coverage);
        progress.step(number);
    }
    progress.finish(&coverage.summary());
    coverage
}
