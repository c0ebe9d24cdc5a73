//! Words of slots in every order and with repeats, and patterns that are so or have been put in order.

use crate::layout::{Pattern, Slot};
use crate::rng::Rng;

/// The words in rising order, each once.
pub fn in_order(words: &[u16]) -> Vec<u16> {
    let mut words = words.to_vec();
    words.sort_unstable();
    words.dedup();
    words
}

/// The pattern as it is read from its file: the stated slots, their words in rising order, each once, all else 0.
pub fn canonical(pattern: &Pattern) -> Pattern {
    let mut canonical = Pattern { slots: [Slot::default(); 16], ..*pattern };
    for at in 0..pattern.count {
        let slot = &pattern.slots[at];
        canonical.slots[at] = with_words(slot, &in_order(&slot.words[..slot.count]));
    }
    canonical
}

/// The slot with these words, its entries past them 0.
pub fn with_words(slot: &Slot, words: &[u16]) -> Slot {
    let mut changed = Slot { words: [0; 8], count: words.len(), ..*slot };
    changed.words[..words.len()].copy_from_slice(words);
    changed
}

/// All lists of so many numbers that differ in the order of their entries or in which are equal: each has the numbers
/// from 1 up to some number, every one at least once.
pub fn weak_orders(length: usize) -> Vec<Vec<u16>> {
    let mut lists = vec![Vec::new()];
    for _ in 0..length {
        lists = lists.iter().flat_map(|list| one_longer(list)).collect();
    }
    lists
}

/// The lists that have one entry more: equal to one that is there, or between two of them, below or above all.
fn one_longer(list: &[u16]) -> Vec<Vec<u16>> {
    let highest = list.iter().copied().max().unwrap_or(0);
    let equal = (1..=highest).map(|number| [list, &[number]].concat());
    let between = (0..=highest).map(|below| {
        let raised = list.iter().map(|&number| if number > below { number + 1 } else { number });
        raised.chain([below + 1]).collect()
    });
    equal.chain(between).collect()
}

/// Words far apart and next to each other, also where their bytes or their signs would order them otherwise.
pub const SPREAD: [u16; 8] = [3, 255, 256, 511, 32_767, 32_768, 65_281, 65_535];

/// The words in the order of these numbers from 1.
pub fn spread(order: &[u16]) -> Vec<u16> {
    order.iter().map(|&number| SPREAD[number as usize - 1]).collect()
}

/// The words in any order, some of them repeated, up to eight in all.
pub fn arranged(rng: &mut Rng, words: &[u16]) -> Vec<u16> {
    let mut list = words.to_vec();
    if !words.is_empty() {
        let repeats = rng.within(0, 8 - words.len());
        list.extend((0..repeats).map(|_| rng.pick(words)));
    }
    for at in (1..list.len()).rev() {
        list.swap(at, rng.within(0, at));
    }
    list
}

/// The pattern with the words of all its slots in any order, some of them repeated, for one within the limits.
pub fn rearranged(rng: &mut Rng, pattern: &Pattern) -> Pattern {
    let mut other = *pattern;
    for slot in &mut other.slots[..pattern.count] {
        *slot = with_words(slot, &arranged(rng, &slot.words[..slot.count]));
    }
    other
}

/// Gives the slot a word that is not greater than the one before it; where it has fewer than two words, two. No word
/// becomes 0.
pub fn disorder(rng: &mut Rng, slot: &mut Slot) {
    if slot.count == 0 {
        slot.words[0] = slot.words[0].max(1);
    }
    slot.count = slot.count.max(2);
    let at = rng.within(1, slot.count.min(8) - 1);
    let before = slot.words[at - 1];
    slot.words[at] = rng.word(before.min(1), before);
}
