//! Patterns with slots in their other form: plain for excluding, and excluding for plain.

use crate::layout::{Pattern, Slot};

/// The pattern with the slots that `turns` picks in their other form. In texts of words up to `highest`, which is at most
/// 8, it has the same occurrences.
pub fn turned(pattern: &Pattern, highest: u16, turns: impl Fn(usize) -> bool) -> Pattern {
    let mut other = *pattern;
    for at in (0..pattern.count).filter(|&at| turns(at)) {
        other.slots[at] = turned_slot(&pattern.slots[at], highest);
    }
    other
}

/// The slot in its other form: it lists the words up to `highest` that it did not list.
fn turned_slot(slot: &Slot, highest: u16) -> Slot {
    let listed = &slot.words[..slot.count];
    let mut rest: Vec<u16> = (1..=highest).filter(|word| !listed.contains(word)).collect();
    if slot.excluding && rest.is_empty() {
        // A plain slot lists a word at least: this one is in none of the texts.
        rest.push(highest + 1);
    }
    let mut words = [0; 8];
    words[..rest.len()].copy_from_slice(&rest);
    Slot { words, count: rest.len(), excluding: !slot.excluding, ..*slot }
}
