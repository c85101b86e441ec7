//! The time of a call: the least of many.

use std::time::{Duration, Instant};

/// How long a call is made again and again.
const LONG: Duration = Duration::from_millis(300);

/// The least time of a call that answers true, in microseconds.
pub fn least(mut call: impl FnMut() -> bool) -> f64 {
    let mut least = Duration::MAX;
    let begin = Instant::now();
    while begin.elapsed() < LONG {
        let start = Instant::now();
        let right = call();
        least = least.min(start.elapsed());
        assert!(right);
    }
    least.as_secs_f64() * 1e6
}
