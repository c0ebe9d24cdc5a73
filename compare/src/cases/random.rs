//! Patterns, texts, rows and marks at random.

use super::orders::{disorder, in_order};
use super::{pattern, Words, Written, ANY_SPAN};
use crate::layout::{Cursors, Pattern, Slot};
use crate::rng::Rng;

/// What random patterns are like.
pub struct Kind {
    pub slots: (usize, usize),
    pub highest_word: u16,
    pub most_words: usize,
    pub widest_gap: u16,
}

/// How often a slot of a pattern at random is excluding: once in so many slots, or never.
const EXCLUDING: [Option<usize>; 4] = [Some(1), Some(2), Some(4), None];

/// A pattern that is accepted; all, many, few or none of its slots are excluding, and its entries past the stated numbers
/// are at random.
pub fn any_pattern(rng: &mut Rng, kind: &Kind) -> Pattern {
    let every = rng.pick(&EXCLUDING);
    let mut slots = Vec::new();
    for at in 0..rng.within(kind.slots.0, kind.slots.1) {
        let excluding = every.is_some_and(|slots| rng.once_in(slots));
        let words = if excluding { any_excluded(rng, kind) } else { any_words(rng, kind) };
        let (one, other) = (rng.word(0, kind.widest_gap), rng.word(0, kind.widest_gap));
        let gap = if at == 0 { (0, 0) } else { (one.min(other), one.max(other)) };
        slots.push((gap, excluding, words));
    }
    let written: Vec<Written> =
        slots.iter().map(|(gap, excluding, words)| (gap.0, gap.1, Words::new(*excluding, words))).collect();
    let mut made = pattern(any_span(rng, &written), &written);
    add_garbage(rng, &mut made);
    made
}

/// Words for a plain slot, in rising order.
fn any_words(rng: &mut Rng, kind: &Kind) -> Vec<u16> {
    let count = rng.within(1, kind.most_words);
    let words: Vec<u16> = (0..count).map(|_| rng.word(1, kind.highest_word)).collect();
    filled_up(rng, &words, 0)
}

/// Words for an excluding slot, in rising order, often none and now and then 8; they leave it one word at least that
/// plain slots take.
fn any_excluded(rng: &mut Rng, kind: &Kind) -> Vec<u16> {
    let count = match rng.within(1, 8) {
        1 | 2 => 0,
        3 => 8,
        _ => rng.within(1, kind.most_words),
    };
    let left = rng.word(1, kind.highest_word);
    let next = left % 65_535 + 1;
    let listed = |word: u16| if word == left { next } else { word };
    let words: Vec<u16> = (0..count).map(|_| listed(rng.word(1, kind.highest_word))).collect();
    filled_up(rng, &words, left)
}

/// The words in rising order, each once; if eight were drawn, then with as many others as make up eight, but not `left`.
fn filled_up(rng: &mut Rng, drawn: &[u16], left: u16) -> Vec<u16> {
    let mut words = in_order(drawn);
    while drawn.len() == 8 && words.len() < 8 {
        words.extend(Some(rng.word(1, 65_535)).filter(|&word| word != left));
        words = in_order(&words);
    }
    words
}

/// Span limits that some rows keep and others break.
fn any_span(rng: &mut Rng, slots: &[Written]) -> (u16, u16) {
    let shortest: u16 = slots.iter().map(|slot| slot.0).sum::<u16>() + slots.len() as u16;
    let longest: u16 = slots.iter().map(|slot| slot.1).sum::<u16>() + slots.len() as u16;
    let (one, other) = (rng.word(shortest, longest), rng.word(shortest, longest));
    match rng.within(1, 4) {
        1 => (one.min(other), one.max(other)),
        2 => (one, 20_000),
        3 => (1, one),
        _ => ANY_SPAN,
    }
}

/// Puts random numbers into the entries past the stated numbers of slots and words.
pub fn add_garbage(rng: &mut Rng, pattern: &mut Pattern) {
    for (at, slot) in pattern.slots.iter_mut().enumerate() {
        if at >= pattern.count {
            *slot = any_slot(rng);
        } else {
            let used = slot.count.min(8);
            slot.words[used..].fill_with(|| rng.word(0, 9));
        }
    }
}

/// A slot that keeps no limit.
fn any_slot(rng: &mut Rng) -> Slot {
    Slot {
        words: std::array::from_fn(|_| rng.word(0, 9)),
        count: rng.pick(&[0, 1, 8, 9, 65_535, usize::MAX]),
        low: rng.word(0, 65_535),
        high: rng.word(0, 65_535),
        excluding: rng.once_in(2),
    }
}

/// How often a word of a text at random is a 0: once in so many words, or never.
pub const STOPS: [Option<usize>; 6] = [Some(2), Some(5), Some(12), Some(20), Some(100), None];

/// A text of so many words, none above `highest`; many, few or none of them are 0.
pub fn any_text(rng: &mut Rng, length: usize, highest: u16) -> Vec<u16> {
    let stops = rng.pick(&STOPS);
    text_with_stops(rng, length, highest, stops)
}

/// A text of so many words, none above `highest`, as often a 0 as stated.
pub fn text_with_stops(rng: &mut Rng, length: usize, highest: u16, stops: Option<usize>) -> Vec<u16> {
    let word = |rng: &mut Rng| {
        if stops.is_some_and(|words| rng.once_in(words)) {
            0
        } else {
            rng.word(1, highest)
        }
    };
    (0..length).map(|_| word(rng)).collect()
}

/// Numbers of words that a slot may not have, the first of them only if it is plain.
const WRONG_COUNTS: [usize; 4] = [0, 9, 65_535, usize::MAX];

/// Puts the word 0 among those that the slot lists; where an excluding slot lists none, it is the first.
fn list_zero(rng: &mut Rng, slot: &mut Slot) {
    if slot.excluding {
        slot.count = slot.count.max(1);
    }
    slot.words[rng.within(1, slot.count.clamp(1, 8)) - 1] = 0;
}

/// Breaks one limit of the pattern; called again, it breaks one more.
pub fn break_pattern(rng: &mut Rng, pattern: &mut Pattern) {
    let slots = pattern.count.clamp(1, 16);
    let slot = &mut pattern.slots[rng.within(1, slots) - 1];
    match rng.within(1, 10) {
        1 => pattern.count = rng.pick(&[0, 17, 65_535, usize::MAX]),
        2 | 3 => slot.count = rng.pick(&WRONG_COUNTS[usize::from(slot.excluding)..]),
        4 | 5 => list_zero(rng, slot),
        6 => (slot.low, slot.high) = rng.pick(&[(1, 0), (64, 64), (0, 64), (65_535, 63), (0, 65_535)]),
        7 => pattern.slots[0].high = 1,
        8 | 9 => disorder(rng, slot),
        _ => (pattern.least, pattern.most) = rng.pick(&[(0, 5), (0, 0), (6, 5), (1, 20_001), (1, 65_535)]),
    }
}

/// Marks for so many slots: near the text's places, and now and then far off.
pub fn any_marks(rng: &mut Rng, slots: usize, text: usize) -> Vec<u16> {
    let highest = rng.within(0, text + 1) as u16;
    let mark = |rng: &mut Rng| match rng.within(1, 12) {
        1 => 0,
        2 => 65_535,
        3 => rng.word(0, 65_535),
        _ => rng.word(0, highest),
    };
    (0..slots).map(|_| mark(rng)).collect()
}

/// A state of the cursors with any marks and, for each client on its own, any number served.
pub fn any_cursors(rng: &mut Rng, text: usize) -> Cursors {
    let mut cursors = Cursors::default();
    for client in &mut cursors.clients {
        client.marks.copy_from_slice(&any_marks(rng, 16, text));
        client.served = rng.pick(&[0, 1, 250, 498, 499, 500, 501, 65_535, usize::MAX]);
    }
    cursors
}
