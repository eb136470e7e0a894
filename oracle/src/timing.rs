//! How long a run takes, and how far some numbers reach, for the benchmark.

use std::hint::black_box;
use std::time::{Duration, Instant};

/// How long each side of a row is run.
const SPAN: Duration = Duration::from_millis(150);

/// The best time of a run, in nanoseconds for each of so many.
pub fn best<R>(of: usize, mut run: impl FnMut() -> R) -> f64 {
    let mut least = Duration::MAX;
    let began = Instant::now();
    while began.elapsed() < SPAN {
        let start = Instant::now();
        black_box(run());
        least = least.min(start.elapsed());
    }
    least.as_nanos() as f64 / of as f64
}

/// The least and the greatest of some numbers.
pub fn span(numbers: impl Iterator<Item = f64>) -> String {
    let wider = |(least, greatest): (f64, f64), x: f64| (least.min(x), greatest.max(x));
    let (least, greatest) = numbers.fold((f64::INFINITY, 0.0), wider);
    format!("{least:.2} to {greatest:.2}")
}
