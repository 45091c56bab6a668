//! How long calls take.

use std::hint::black_box;
use std::time::Instant;

/// The call's answer. The seconds that it took are kept behind the others.
pub fn timed<T>(times: &mut Vec<f64>, call: impl FnOnce() -> T) -> T {
    let begun = Instant::now();
    let answer = black_box(call());
    times.push(begun.elapsed().as_secs_f64());
    answer
}

pub fn median(times: &[f64]) -> f64 {
    let mut times = times.to_vec();
    times.sort_by(f64::total_cmp);
    times[times.len() / 2]
}
