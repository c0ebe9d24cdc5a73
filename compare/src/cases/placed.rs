//! Rows with their pattern and text: occurrences at random, with one condition broken, and with one lifted.

use super::orders::{in_order, with_words};
use super::random::{any_pattern, any_text, text_with_stops, Kind};
use crate::brute::Condition;
use crate::layout::{Pattern, Slot};
use crate::rng::Rng;

/// A row with its pattern, within the limits, and its text.
#[derive(Clone, Debug)]
pub struct Placed {
    pub pattern: Pattern,
    pub text: Vec<u16>,
    pub row: Vec<u16>,
}

impl Placed {
    /// The first place and the last.
    fn first_and_last(&self) -> (u16, u16) {
        (self.row[0], self.row[self.row.len() - 1])
    }
}

/// An occurrence of a pattern at random, its gaps and span anywhere within the limits, often just within them.
pub fn any_occurrence(rng: &mut Rng, kind: &Kind) -> Placed {
    let mut pattern = any_pattern(rng, kind);
    let slots = &pattern.slots[..pattern.count];
    let mut row = vec![rng.word(1, 9)];
    for slot in &slots[1..] {
        let gap = rng.word(slot.low, slot.high);
        row.push(row[row.len() - 1] + 1 + gap);
    }
    let (before, span) = (row[0] as usize - 1, row[row.len() - 1] - row[0] + 1);
    let within = text_with_stops(rng, span as usize, kind.highest_word, None);
    let after = rng.within(0, 9);
    let (before, after) = (any_text(rng, before, kind.highest_word), any_text(rng, after, kind.highest_word));
    let mut text = [before, within, after].concat();
    for (slot, &place) in slots.iter().zip(&row) {
        text[place as usize - 1] = taken(rng, slot);
    }
    let (least, most) = (rng.word(1, span), rng.word(span, 20_000));
    (pattern.least, pattern.most) = (rng.pick(&[1, least, span]), rng.pick(&[span, most, 20_000]));
    Placed { pattern, text, row }
}

/// A word that the slot takes.
pub fn taken(rng: &mut Rng, slot: &Slot) -> u16 {
    if slot.excluding {
        unlisted(rng, slot)
    } else {
        rng.pick(&slot.words[..slot.count])
    }
}

/// A word from 1 up that the slot does not take, if there is one.
fn untaken(rng: &mut Rng, slot: &Slot) -> Option<u16> {
    match (slot.excluding, slot.count) {
        (false, _) => Some(unlisted(rng, slot)),
        (true, 0) => None,
        (true, count) => Some(rng.pick(&slot.words[..count])),
    }
}

/// A word from 1 up that the slot does not list.
fn unlisted(rng: &mut Rng, slot: &Slot) -> u16 {
    let listed = &slot.words[..slot.count];
    let mut drawn = std::iter::repeat_with(|| rng.word(1, 20));
    drawn.find(|word| !listed.contains(word)).expect("a slot lists 8 words at most")
}

/// An occurrence with one thing changed, so that it fails this condition alone; none where that cannot be.
pub fn broken(rng: &mut Rng, condition: Condition, occurrence: &Placed) -> Option<Placed> {
    let mut placed = occurrence.clone();
    match condition {
        Condition::Word => break_word(rng, &mut placed),
        Condition::Gap => break_gap(rng, &mut placed)?,
        Condition::Span => break_span(rng, &mut placed),
        Condition::Sentence => break_sentence(rng, &mut placed)?,
    }
    Some(placed)
}

/// Moves the first place before the text or the last past it, or puts a word that the slot does not take at a place.
fn break_word(rng: &mut Rng, placed: &mut Placed) {
    let (first, last) = placed.first_and_last();
    let at = rng.within(0, placed.row.len() - 1);
    let place = placed.row[at] as usize;
    match (rng.within(1, 5), untaken(rng, &placed.pattern.slots[at])) {
        (1, _) => {
            placed.text.drain(..first as usize);
            placed.row.iter_mut().for_each(|place| *place -= first);
        }
        (2, _) => placed.text.truncate(last as usize - 1),
        (3, _) | (_, None) => placed.text[rng.pick(&[first, last]) as usize - 1] = 0,
        (_, Some(word)) => placed.text[place - 1] = word,
    }
}

/// Puts a gap's low above what the row has there, or its high below it; none for a row of one place.
fn break_gap(rng: &mut Rng, placed: &mut Placed) -> Option<()> {
    if placed.row.len() < 2 {
        return None;
    }
    let at = rng.within(1, placed.row.len() - 1);
    let gap = placed.row[at] - placed.row[at - 1] - 1;
    let slot = &mut placed.pattern.slots[at];
    if gap == 0 || gap < 63 && rng.once_in(2) {
        (slot.low, slot.high) = (gap + 1, slot.high.max(gap + 1));
    } else {
        (slot.low, slot.high) = (slot.low.min(gap - 1), gap - 1);
    }
    Some(())
}

/// Puts the least span above the row's, or the most below it.
fn break_span(rng: &mut Rng, placed: &mut Placed) {
    let (first, last) = placed.first_and_last();
    let (span, pattern) = (last - first + 1, &mut placed.pattern);
    if span == 1 || rng.once_in(2) {
        (pattern.least, pattern.most) = (span + 1, pattern.most.max(span + 1));
    } else {
        (pattern.least, pattern.most) = (pattern.least.min(span - 1), span - 1);
    }
}

/// Puts a 0 strictly between the first place and the last, at a place that is not the row's, where there is one.
fn break_sentence(rng: &mut Rng, placed: &mut Placed) -> Option<()> {
    let (first, last) = placed.first_and_last();
    let free: Vec<u16> = (first + 1..last).filter(|place| !placed.row.contains(place)).collect();
    if free.is_empty() {
        return None;
    }
    placed.text[rng.pick(&free) as usize - 1] = 0;
    Some(())
}

/// A word that ends no sentence.
const WORD: u16 = 9;

/// Puts a word instead of a 0.
fn unstop(word: &mut u16) {
    if *word == 0 {
        *word = WORD;
    }
}

/// A row that fails this condition alone, with the condition lifted; none where no accepted pattern and text lift it.
pub fn lifted(condition: Condition, mut placed: Placed) -> Option<Placed> {
    match condition {
        Condition::Word => lift_word(&mut placed)?,
        Condition::Gap => lift_gap(&mut placed)?,
        Condition::Span => lift_span(&mut placed),
        Condition::Sentence => lift_sentence(&mut placed),
    }
    Some(placed)
}

/// A row that begins at 0 moves on by one, with a word put before the text. Then the text is made to reach all places,
/// unless one is past 20,000, and each slot to take the word at its place; a 0 there becomes a word.
fn lift_word(placed: &mut Placed) -> Option<()> {
    if placed.row[0] == 0 {
        placed.text.insert(0, WORD);
        placed.row.iter_mut().for_each(|place| *place += 1);
    }
    let last = placed.first_and_last().1 as usize;
    if last > 20_000 {
        return None;
    }
    placed.text.resize(placed.text.len().max(last), WORD);
    for (slot, &place) in placed.pattern.slots.iter_mut().zip(&placed.row) {
        let word = &mut placed.text[place as usize - 1];
        unstop(word);
        *slot = taking(slot, *word);
    }
    Some(())
}

/// The slot that takes this word besides; a plain one that lists 8 others gives up one of them.
fn taking(slot: &Slot, word: u16) -> Slot {
    let mut words: Vec<u16> = slot.words[..slot.count].iter().copied().filter(|&listed| listed != word).collect();
    if !slot.excluding {
        words.truncate(7);
        words.push(word);
    }
    with_words(slot, &in_order(&words))
}

/// Widens the gaps to what the row has, unless one is below 0 or above 63.
fn lift_gap(placed: &mut Placed) -> Option<()> {
    for at in 1..placed.row.len() {
        let gap = placed.row[at].checked_sub(placed.row[at - 1])?.checked_sub(1).filter(|&gap| gap <= 63)?;
        let slot = &mut placed.pattern.slots[at];
        (slot.low, slot.high) = (slot.low.min(gap), slot.high.max(gap));
    }
    Some(())
}

/// Widens the span limits to what the row has.
fn lift_span(placed: &mut Placed) {
    let (first, last) = placed.first_and_last();
    let (span, pattern) = (last - first + 1, &mut placed.pattern);
    (pattern.least, pattern.most) = (pattern.least.min(span), pattern.most.max(span));
}

/// Puts a word instead of every 0 strictly between the first place and the last.
fn lift_sentence(placed: &mut Placed) {
    let (first, last) = placed.first_and_last();
    placed.text[first as usize..last as usize - 1].iter_mut().for_each(unstop);
}
