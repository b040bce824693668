//! What every contestant of the benchmarks measures with: the time of a task, and sums over its answers, by which those who answer alike
//! are known.

use crate::clocks::processor_time;
use std::time::Duration;

/// How long a task took, for how many operations, and a sum over its answers, which is the same for all who answer alike.
pub struct Outcome {
    pub took: Duration,
    pub operations: u64,
    pub sum: u64,
}

/// Times a closure that answers how many operations it did and a sum over its answers.
pub fn timed(run: impl FnOnce() -> (u64, u64)) -> Option<Outcome> {
    let before = processor_time();
    let (operations, sum) = std::hint::black_box(run());
    let took = processor_time().saturating_sub(before);
    Some(Outcome { took, operations, sum })
}

/// A sum over a row.
pub fn row_sum(key: &[u8], value: &[u8]) -> u64 {
    let ends = |bytes: &[u8]| u64::from(bytes.last().copied().unwrap_or(7));
    1 + 3 * key.len() as u64 + 5 * value.len() as u64 + 11 * ends(key) + 13 * ends(value)
}

/// A sum over a lookup's answer.
pub fn value_sum(value: Option<&[u8]>) -> u64 {
    value.map_or(1, |value| row_sum(&[], value))
}

/// Asks for each of a list; how many, and the sum of the answers.
pub fn each<T>(list: &[T], ask: impl FnMut(&T) -> u64) -> (u64, u64) {
    (list.len() as u64, list.iter().map(ask).sum())
}

/// Does a task again and again.
pub fn again(times: u64, mut task: impl FnMut() -> (u64, u64)) -> (u64, u64) {
    (0..times)
        .map(|_| task())
        .fold((0, 0), |sum, one| (sum.0 + one.0, sum.1 + one.1))
}
