//! How long a run takes.

use std::time::Instant;

pub const RUNS: usize = 25;

/// The least time of all runs, in seconds.
pub fn best(mut run: impl FnMut()) -> f64 {
    let times = (0..RUNS).map(|_| {
        let begin = Instant::now();
        run();
        begin.elapsed().as_secs_f64()
    });
    times.fold(f64::MAX, f64::min)
}
