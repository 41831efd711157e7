//! Two versions of a call timed in turns.

use std::time::{Duration, Instant};

/// How long one timed run of calls should last, how long all runs of a version, and the fewest and
/// the most of them.
const RUN: Duration = Duration::from_micros(20);
const ALL: Duration = Duration::from_secs(1);
const RUNS: [u128; 2] = [40, 12_000];

/// Nanoseconds per call of the proved library and of the Rust version.
pub struct Times {
    pub rattle: f64,
    pub rust: f64,
}

impl Times {
    /// The two versions take turns, and the fastest run of each counts: other work on the machine can
    /// only make a run slower.
    pub fn of(mut rattle: impl FnMut(), mut rust: impl FnMut()) -> Times {
        let (n, m) = (calls(&mut rattle), calls(&mut rust));
        let mut best = Times {
            rattle: f64::INFINITY,
            rust: f64::INFINITY,
        };
        for _ in 0..runs(n, &mut rattle) {
            best.rattle = best.rattle.min(timed(n, &mut rattle));
            best.rust = best.rust.min(timed(m, &mut rust));
        }
        best
    }

    pub fn ratio(&self) -> f64 {
        self.rattle / self.rust
    }
}

/// Nanoseconds per call over so many calls.
fn timed(calls: u32, f: &mut impl FnMut()) -> f64 {
    let start = Instant::now();
    for _ in 0..calls {
        f();
    }
    start.elapsed().as_nanos() as f64 / f64::from(calls)
}

/// How many calls fill a run.
fn calls(f: &mut impl FnMut()) -> u32 {
    let mut n = 1;
    while timed(n, f) * f64::from(n) < RUN.as_nanos() as f64 && n < 1 << 20 {
        n *= 2;
    }
    n
}

/// How many runs of so many calls.
fn runs(calls: u32, f: &mut impl FnMut()) -> u128 {
    let one = timed(calls, f) * f64::from(calls);
    (ALL.as_nanos() / (one as u128).max(1)).clamp(RUNS[0], RUNS[1])
}

/// A time with three digits and its unit.
pub fn shown(nanoseconds: f64) -> String {
    let (value, unit) = match nanoseconds {
        n if n < 1e3 => (n, "ns"),
        n if n < 1e6 => (n / 1e3, "µs"),
        n => (n / 1e6, "ms"),
    };
    let places = match value {
        v if v < 9.995 => 2,
        v if v < 99.95 => 1,
        _ => 0,
    };
    format!("{value:.places$} {unit}")
}
