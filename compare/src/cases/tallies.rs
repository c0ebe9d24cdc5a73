//! Texts whose tallies stand at 2^64, on both sides of it, and far past it.

use super::inputs::{mixed_sevens, sevens};
use super::Words::Only;
use super::{pattern, Written, ANY_SPAN};
use crate::halves::POWER;
use crate::layout::Pattern;

/// Sixteen slots, slot j taking the word j, any gaps between them.
pub fn sixteen_words() -> Pattern {
    const WORDS: [[u16; 1]; 16] =
        [[1], [2], [3], [4], [5], [6], [7], [8], [9], [10], [11], [12], [13], [14], [15], [16]];
    let slot = |at: usize| (0, if at == 0 { 0 } else { 63 }, Only(&WORDS[at]));
    let slots: Vec<Written> = (0..16).map(slot).collect();
    pattern(ANY_SPAN, &slots)
}

/// A part of a text in which the word j stands as often as stated, so that the occurrences are their product.
fn product(times: [usize; 16]) -> Vec<u16> {
    let repeated = |at: usize| vec![at as u16 + 1; times[at]];
    (0..16).flat_map(repeated).collect()
}

/// The text with so many parts, part i having 15 · 16^i occurrences of `sixteen_words`; together 16^parts − 1. So many
/// zeros close each part.
pub fn one_below_power(parts: usize, zeros: usize) -> Vec<u16> {
    let mut text = Vec::new();
    for part in 0..parts {
        let times = |at: usize| match at {
            _ if at < part => 16,
            _ if at == part => 15,
            _ => 1,
        };
        text.extend(product(std::array::from_fn(times)));
        text.extend(vec![0; zeros]);
    }
    text
}

/// The same text with one occurrence more.
pub fn power(parts: usize, zeros: usize) -> Vec<u16> {
    [one_below_power(parts, zeros), product([1; 16])].concat()
}

/// The text with so many sentences more, in each of which `sixteen_words` occurs once.
pub fn with_more(text: &[u16], sentences: usize) -> Vec<u16> {
    [text, &[vec![0], product([1; 16])].concat().repeat(sentences)].concat()
}

/// So many sentences of 16^15 occurrences of `sixteen_words` each, every one closed by a single 0.
pub fn equal_sentences(sentences: usize) -> Vec<u16> {
    let times = |at: usize| if at == 0 { 1 } else { 16 };
    [product(std::array::from_fn(times)), vec![0]].concat().repeat(sentences)
}

/// A sentence in which 2^64 occurrences of `sixteen_words` start at its first word, and none at any other.
pub fn power_at_one_place() -> Vec<u16> {
    let times = |at: usize| match at {
        0 => 1,
        1..=11 => 16,
        _ => 32,
    };
    product(std::array::from_fn(times))
}

/// The same slots with narrower gaps, and a sentence in which 2^64 − 1 occurrences start at its first word, and none at
/// any other: the gaps leave 15, 17, 257, 641, 65,537 and 6,700,417 ways through 1, 1, 2, 2, 4 and 5 of the slots.
pub fn one_below_power_at_one_place() -> (Pattern, Vec<u16>) {
    let mut narrower = sixteen_words();
    let highs = [(4, 25), (6, 47), (8, 26), (9, 23), (10, 33), (12, 49), (13, 29), (14, 36), (15, 47)];
    highs.into_iter().for_each(|(at, high)| narrower.slots[at].high = high);
    (narrower, product([1, 15, 17, 13, 24, 23, 28, 25, 19, 25, 16, 32, 30, 29, 24, 31]))
}

/// The same slots, so many of these sentences, and the column of them all.
pub fn one_below_power_at_some_places(sentences: usize) -> (Pattern, Vec<u16>, Vec<u128>) {
    let (narrower, sentence) = one_below_power_at_one_place();
    let column = [vec![POWER - 1], vec![0; sentence.len()]].concat().repeat(sentences);
    (narrower, [sentence, vec![0]].concat().repeat(sentences), column)
}

/// So many slots of which the first takes the word 1 and the others 7, any gaps between them.
pub fn one_and_sevens(slots: usize) -> Pattern {
    let mut written = sevens(slots, 0, 63);
    written[0].2 = Only(&[1]);
    pattern(ANY_SPAN, &written)
}

/// Slots that take the word 7, plain and mixed, with gaps 0 to 63, the first number of sevens whose tally is over 64 bits,
/// and the first number whose tally together with that of a sentence one seven below the former is.
pub fn thresholds() -> Vec<(Pattern, usize, usize)> {
    let first_over = [(11, 309, 183), (12, 222, 172), (13, 179, 137), (14, 151, 120), (15, 131, 112), (16, 117, 99)];
    let both = |(slots, words, others)| {
        [sevens, mixed_sevens].map(|sevens| (pattern(ANY_SPAN, &sevens(slots, 0, 63)), words, others))
    };
    first_over.into_iter().flat_map(both).collect()
}
