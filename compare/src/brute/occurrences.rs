//! Whether a row is an occurrence, by the conditions of one, and all occurrences by trying place after place.

use super::rows::Row;
use crate::layout::{Pattern, Slot};

/// The pattern's slots, as many as it states.
pub fn slots(pattern: &Pattern) -> &[Slot] {
    &pattern.slots[..pattern.count]
}

/// Whether the slot takes the word: one that it lists, or if it is excluding, any number from 1 up that it does not.
pub fn takes(slot: &Slot, word: u16) -> bool {
    let lists = slot.words[..slot.count].contains(&word);
    if slot.excluding {
        word >= 1 && !lists
    } else {
        lists
    }
}

/// Whether the text has, at this place, a word that the slot takes.
pub fn stands(slot: &Slot, text: &[u16], place: u16) -> bool {
    place >= 1 && place as usize <= text.len() && takes(slot, text[place as usize - 1])
}

/// A condition on rows of as many places as slots of a pattern within the limits; any such row keeps it or fails it.
#[derive(Clone, Copy, Debug, PartialEq, Eq)]
pub enum Condition {
    Word,
    Gap,
    Span,
    Sentence,
}

impl Condition {
    /// All conditions, each at its own index: those of Definition 3 in its order, and the sentence rule last.
    pub const ALL: [Condition; 4] = [Condition::Word, Condition::Gap, Condition::Span, Condition::Sentence];

    /// The condition's name.
    pub fn name(self) -> &'static str {
        match self {
            Condition::Word => "word",
            Condition::Gap => "gap",
            Condition::Span => "span",
            Condition::Sentence => "sentence",
        }
    }

    /// The set of this condition alone.
    pub fn alone(self) -> [bool; 4] {
        Condition::ALL.map(|condition| condition == self)
    }

    /// Whether the row keeps the condition.
    fn holds(self, pattern: &Pattern, text: &[u16], row: &[u16]) -> bool {
        match self {
            Condition::Word => word(pattern, text, row),
            Condition::Gap => gap(pattern, row),
            Condition::Span => span(pattern, row),
            Condition::Sentence => sentence(text, row),
        }
    }
}

/// Whether a row of as many places as slots is an occurrence, for a pattern within the limits: it keeps all conditions.
pub fn is_occurrence(pattern: &Pattern, text: &[u16], row: &[u16]) -> bool {
    Condition::ALL.iter().all(|condition| condition.holds(pattern, text, row))
}

/// Which of the conditions, in their order, a row of as many places as slots fails, for a pattern within the limits.
pub fn failed(pattern: &Pattern, text: &[u16], row: &[u16]) -> [bool; 4] {
    Condition::ALL.map(|condition| !condition.holds(pattern, text, row))
}

/// Whether each place is in the text and its word is one that the slot takes.
fn word(pattern: &Pattern, text: &[u16], row: &[u16]) -> bool {
    let slots = slots(pattern);
    (0..row.len()).all(|at| stands(&slots[at], text, row[at]))
}

/// Whether the number of words between each place and the next, below 0 if it does not rise, lies in that slot's gap.
fn gap(pattern: &Pattern, row: &[u16]) -> bool {
    let slots = slots(pattern);
    (1..row.len()).all(|at| {
        let gap = i64::from(row[at]) - i64::from(row[at - 1]) - 1;
        i64::from(slots[at].low) <= gap && gap <= i64::from(slots[at].high)
    })
}

/// Whether the number of words from the first place to the last, both counted, lies within the pattern's limits.
fn span(pattern: &Pattern, row: &[u16]) -> bool {
    let span = i64::from(row[row.len() - 1]) - i64::from(row[0]) + 1;
    i64::from(pattern.least) <= span && span <= i64::from(pattern.most)
}

/// Whether none of the words that the text has strictly between the first place and the last is a sentence end.
pub fn sentence(text: &[u16], row: &[u16]) -> bool {
    let (first, last) = (row[0] as usize, row[row.len() - 1] as usize);
    (first + 1..last.min(text.len() + 1)).all(|place| text[place - 1] != 0)
}

/// All occurrences, first place first, ties by the next slot, for a pattern and a text within the limits.
pub fn occurrences(pattern: &Pattern, text: &[u16]) -> Vec<Row> {
    let mut found = Vec::new();
    for place in 1..=text.len() as u16 {
        if stands(&pattern.slots[0], text, place) {
            complete(pattern, text, &mut vec![place], &mut found);
        }
    }
    found
}

/// Adds to `found` every occurrence that begins with these places.
fn complete(pattern: &Pattern, text: &[u16], begun: &mut Row, found: &mut Vec<Row>) {
    let Some(slot) = slots(pattern).get(begun.len()) else {
        if span(pattern, begun) {
            found.push(begun.clone());
        }
        return;
    };
    for gap in 0..=slot.high {
        let place = begun[begun.len() - 1] + 1 + gap;
        // A phrase stops at the full stop: no later place is in the same sentence.
        if text.get(place as usize - 1) == Some(&0) {
            return;
        }
        if gap >= slot.low && stands(slot, text, place) {
            begun.push(place);
            complete(pattern, text, begun, found);
            begun.pop();
        }
    }
}
