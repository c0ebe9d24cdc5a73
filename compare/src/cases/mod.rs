//! The cases: tables, and generators of patterns, texts, files and calls.

pub mod clients;
pub mod columns;
pub mod conditions;
pub mod dense;
pub mod examples;
pub mod excluding;
pub mod expressions;
pub mod files;
pub mod inputs;
pub mod lines;
pub mod merged;
pub mod orders;
pub mod placed;
pub mod random;
pub mod sentences;
pub mod small;
pub mod tallies;
pub mod trees;
pub mod turned;
pub mod worked;
pub mod written;

use crate::layout::{Pattern, Slot};

/// The words of a slot as they are written down.
#[derive(Clone, Copy)]
pub enum Words<'a> {
    /// A plain slot: it takes only these.
    Only(&'a [u16]),
    /// An excluding slot: it takes any word but these.
    But(&'a [u16]),
}

impl<'a> Words<'a> {
    /// The words of an excluding slot or of a plain one.
    pub fn new(excluding: bool, words: &'a [u16]) -> Words<'a> {
        if excluding {
            Words::But(words)
        } else {
            Words::Only(words)
        }
    }

    /// Whether the slot is excluding, and the words it lists.
    pub fn parts(self) -> (bool, &'a [u16]) {
        match self {
            Words::Only(words) => (false, words),
            Words::But(words) => (true, words),
        }
    }
}

/// A slot as it is written down: its gap, low and high, and its words.
pub type Written<'a> = (u16, u16, Words<'a>);

/// The pattern with these span limits and slots, their words as they are written down, its other entries 0.
pub fn pattern((least, most): (u16, u16), slots: &[Written]) -> Pattern {
    let mut pattern = Pattern { slots: [Slot::default(); 16], count: slots.len(), least, most };
    for (slot, &(low, high, words)) in pattern.slots.iter_mut().zip(slots) {
        let (excluding, words) = words.parts();
        slot.words[..words.len()].copy_from_slice(words);
        (slot.count, slot.low, slot.high, slot.excluding) = (words.len(), low, high, excluding);
    }
    pattern
}

/// So many slots of the same words, with these gaps between them.
pub fn alike(words: Words, slots: usize, low: u16, high: u16) -> Vec<Written> {
    let slot = |at: usize| if at == 0 { (0, 0, words) } else { (low, high, words) };
    (0..slots).map(slot).collect()
}

/// The span limits that every span keeps.
pub const ANY_SPAN: (u16, u16) = (1, 20_000);
