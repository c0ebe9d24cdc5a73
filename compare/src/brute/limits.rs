//! The limits of patterns and texts, tested in their order, and the making of patterns.

use std::collections::BTreeSet;

use super::occurrences::slots;
use super::refusal::{refuse, Refusal};
use crate::layout::{Made, Pattern, Slot};

/// Refuses a text of more than 20,000 words.
pub fn test_text(words: usize) -> Result<(), Refusal> {
    if words > 20_000 {
        return refuse(6, 0);
    }
    Ok(())
}

/// Refuses a pattern that breaks a limit.
pub fn test_pattern(pattern: &Pattern) -> Result<(), Refusal> {
    test_slot_count(pattern.count)?;
    for (index, slot) in pattern.slots.iter().take(pattern.count).enumerate() {
        test_slot(index + 1, slot.low, slot.high, slot.excluding, slot.words.get(..slot.count))?;
    }
    test_span(pattern.least, pattern.most)?;
    match slots(pattern).iter().position(|slot| !rises(&slot.words[..slot.count])) {
        Some(index) => refuse(16, index + 1),
        None => Ok(()),
    }
}

/// Whether every word is greater than all before it.
fn rises(words: &[u16]) -> bool {
    (0..words.len()).all(|at| words[..at].iter().all(|&earlier| earlier < words[at]))
}

/// Refuses a number of slots other than 1 to 16.
pub fn test_slot_count(slots: usize) -> Result<(), Refusal> {
    match slots {
        1..=16 => Ok(()),
        _ => refuse(1, 0),
    }
}

/// Refuses the slot of this number; its words are `None` where more are stated than there is room for. Only an
/// excluding slot may have no words.
pub fn test_slot(number: usize, low: u16, high: u16, excluding: bool, words: Option<&[u16]>) -> Result<(), Refusal> {
    let fewest = if excluding { 0 } else { 1 };
    let Some(words) = words.filter(|words| (fewest..=8).contains(&words.len())) else {
        return refuse(2, number);
    };
    if words.contains(&0) {
        return refuse(3, number);
    }
    let first_wrong = number == 1 && (low, high) != (0, 0);
    if low > high || high > 63 || first_wrong {
        return refuse(4, number);
    }
    Ok(())
}

/// Refuses span limits other than 1 ≤ least ≤ most ≤ 20,000.
pub fn test_span(least: u16, most: u16) -> Result<(), Refusal> {
    if least == 0 || most < least || 20_000 < most {
        return refuse(5, 0);
    }
    Ok(())
}

/// A pattern without slots, with these span limits.
pub fn pattern_of(least: u16, most: u16) -> Pattern {
    Pattern { slots: [Slot::default(); 16], count: 0, least, most }
}

/// The pattern with one slot more, or as it was beside a refusal; the other slots are not looked at.
pub fn with_slot(pattern: &Pattern, low: u16, high: u16, excluding: bool, words: &[u16]) -> Made {
    let tested = match pattern.count {
        0..=15 => test_slot(pattern.count + 1, low, high, excluding, Some(words)),
        _ => refuse(1, 0),
    };
    let mut made = Made { number: 0, place: 0, pattern: *pattern };
    match tested {
        Ok(()) => push_slot(&mut made.pattern, low, high, excluding, words),
        Err(refusal) => (made.number, made.place) = (refusal.number, refusal.place),
    }
    made
}

/// Puts a slot behind the pattern's last, its words in rising order, each once.
pub fn push_slot(pattern: &mut Pattern, low: u16, high: u16, excluding: bool, words: &[u16]) {
    let listed: BTreeSet<u16> = words.iter().copied().collect();
    let mut slot = Slot { words: [0; 8], count: listed.len(), low, high, excluding };
    slot.words.iter_mut().zip(listed).for_each(|(entry, word)| *entry = word);
    pattern.slots[pattern.count] = slot;
    pattern.count += 1;
}
