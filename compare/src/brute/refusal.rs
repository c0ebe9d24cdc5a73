//! A refusal, and the answers that carry one.

use crate::halves::halves;
use crate::layout::{Answer, Total};

/// A refusal: its number and its place.
#[derive(Clone, Copy, Debug, PartialEq, Eq)]
pub struct Refusal {
    pub number: u32,
    pub place: usize,
}

/// Refuses with this number and place. The number is never 9.
pub fn refuse<T>(number: u32, place: usize) -> Result<T, Refusal> {
    assert_ne!(number, 9, "no accepted input has a tally over 2^128 - 1");
    Err(Refusal { number, place })
}

/// The answer that carries this value or refusal.
pub fn answer(outcome: Result<u64, Refusal>) -> Answer {
    match outcome {
        Ok(value) => Answer { number: 0, place: 0, value },
        Err(Refusal { number, place }) => Answer { number, place, value: 0 },
    }
}

/// The answer that carries this number of occurrences in two halves, or this refusal.
pub fn total(outcome: Result<u128, Refusal>) -> Total {
    match outcome.map(halves) {
        Ok([high, low]) => Total { number: 0, place: 0, high, low },
        Err(Refusal { number, place }) => Total { number, place, high: 0, low: 0 },
    }
}
