//! Patterns and texts at random with so many occurrences that their numbers often pass 64 bits.

use super::inputs::{mixed_sevens, sevens};
use super::{pattern, ANY_SPAN};
use crate::layout::Pattern;
use crate::rng::Rng;

/// A pattern of many slots that take the 7, plain or mixed, with wide gaps; its span limits bind now and then.
pub fn any_dense_pattern(rng: &mut Rng) -> Pattern {
    let slots = rng.within(13, 16);
    let mut written = rng.pick(&[sevens, mixed_sevens])(slots, 0, 63);
    for slot in &mut written[1..] {
        (slot.0, slot.1) = (rng.word(0, 2), rng.word(40, 63));
    }
    let span = rng.pick(&[ANY_SPAN, (1, 200), (150, 20_000), (120, 250)]);
    pattern(span, &written)
}

/// A text of so many words, mostly sevens: few are an 8, which none of the slots takes, and fewer, or none, a sentence end.
pub fn any_dense_text(rng: &mut Rng, words: usize) -> Vec<u16> {
    let stop = rng.pick(&[0, 7]);
    let word = |rng: &mut Rng| match rng.within(1, 300) {
        1 => stop,
        2..=12 => 8,
        _ => 7,
    };
    (0..words).map(|_| word(rng)).collect()
}
