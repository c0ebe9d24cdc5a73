//! How many occurrences start at each place of long texts: the ways to reach each later place of its sentence, slot
//! after slot.

use super::occurrences::slots;
use crate::layout::{Pattern, Slot};

/// How many occurrences start at each place: at most 64^15, so that together they are below 20,000 · 2^90 < 2^105.
pub fn starts(pattern: &Pattern, text: &[u16]) -> Vec<u128> {
    let sentences = text.split(|&word| word == 0);
    let starts: Vec<Vec<u128>> = sentences.map(|sentence| starts_in(pattern, sentence)).collect();
    // None starts at the 0 between two sentences.
    starts.join(&0)
}

/// How many occurrences start at each word of one sentence.
fn starts_in(pattern: &Pattern, sentence: &[u16]) -> Vec<u128> {
    (0..sentence.len()).map(|first| starts_at(pattern, &sentence[first..])).collect()
}

/// Whether the slot takes a word of a sentence, which is never 0: it lists just the words that it takes, or just those
/// that it excludes.
fn fits(slot: &Slot, word: u16) -> bool {
    slot.words[..slot.count].contains(&word) != slot.excluding
}

/// How many occurrences start at the first of these words, the rest of a sentence.
fn starts_at(pattern: &Pattern, words: &[u16]) -> u128 {
    if !fits(&pattern.slots[0], words[0]) {
        return 0;
    }
    let mut ways = vec![1];
    for slot in &slots(pattern)[1..] {
        ways = ways_to(slot, &ways, words);
    }
    let spans = pattern.least as usize..=pattern.most as usize;
    let fitting = ways.iter().enumerate().filter(|(offset, _)| spans.contains(&(offset + 1)));
    fitting.map(|(_, ways)| ways).sum()
}

/// The ways to reach each word by one slot more, from the ways to reach each word so far.
fn ways_to(slot: &Slot, before: &[u128], words: &[u16]) -> Vec<u128> {
    let (low, high) = (slot.low as usize, slot.high as usize);
    let mut up_to = vec![0];
    for ways in before {
        up_to.push(up_to[up_to.len() - 1] + ways);
    }
    let sum_below = |bound: usize| up_to[bound.min(before.len())];
    let reached = (before.len() + high + 1).min(words.len());
    let ways = |offset: usize| {
        let (nearest, farthest) = (offset.saturating_sub(low), offset.saturating_sub(high + 1));
        if fits(slot, words[offset]) {
            sum_below(nearest) - sum_below(farthest)
        } else {
            0
        }
    };
    (0..reached).map(ways).collect()
}
