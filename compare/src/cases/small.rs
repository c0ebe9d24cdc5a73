//! All small texts and patterns.

use super::{pattern, Words};
use crate::layout::Pattern;

/// All texts over these words, from the empty text up to this length.
pub fn texts(words: &[u16], longest: usize) -> Vec<Vec<u16>> {
    (0..=longest).flat_map(|length| tuples(words, length)).collect()
}

/// All rows of so many entries over these choices.
pub fn tuples(choices: &[u16], length: usize) -> Vec<Vec<u16>> {
    let mut rows = vec![Vec::new()];
    for _ in 0..length {
        let longer = |row: &Vec<u16>| {
            let row = row.clone();
            choices.iter().map(move |&choice| [&row[..], &[choice]].concat())
        };
        rows = rows.iter().flat_map(longer).collect();
    }
    rows
}

/// All patterns with so many slots, their words, gaps and span limits taken from these.
pub fn patterns(slots: usize, sets: &[Words], gaps: &[(u16, u16)], spans: &[(u16, u16)]) -> Vec<Pattern> {
    let mut found = Vec::new();
    let chosen_sets = tuples(&indices(sets.len()), slots);
    let chosen_gaps = tuples(&indices(gaps.len()), slots - 1);
    for &span in spans {
        for chosen_set in &chosen_sets {
            for chosen_gap in &chosen_gaps {
                let gap = |slot: usize| match slot {
                    0 => (0, 0),
                    _ => gaps[chosen_gap[slot - 1] as usize],
                };
                let slot = |at: usize| (gap(at).0, gap(at).1, sets[chosen_set[at] as usize]);
                let written: Vec<_> = (0..slots).map(slot).collect();
                found.push(pattern(span, &written));
            }
        }
    }
    found
}

/// The numbers below a bound.
fn indices(bound: usize) -> Vec<u16> {
    (0..bound as u16).collect()
}
