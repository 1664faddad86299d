//! Times: of some runs the best one counts.

use std::time::{Duration, Instant};

/// How many runs there are of everything.
pub const RUNS: usize = 5;

/// The time of one run.
pub fn time(run: impl FnOnce()) -> Duration {
    let start = Instant::now();
    run();
    start.elapsed()
}

/// A time for so many calls, in microseconds for one.
pub fn each(time: Duration, calls: usize) -> f64 {
    time.as_secs_f64() * 1e6 / calls as f64
}

/// The best time of all runs of so many calls, in microseconds for one.
pub fn best(calls: usize, mut call: impl FnMut()) -> f64 {
    let mut run = || (0..calls).for_each(|_| call());
    let times = (0..RUNS).map(|_| time(&mut run));
    each(times.min().unwrap_or_default(), calls)
}
