//! Searches in long texts: for each first place, a sieve over the places within reach of it.

use std::cell::OnceCell;

use super::bits::{Bits, ROOM};
use super::occurrences::{is_occurrence, slots};
use super::rows::{slot_by_slot, Row, Searcher};
use super::ways::starts;
use crate::halves::sum;
use crate::layout::{Pattern, Slot};

/// A pattern and a text, and both the other way round for searches from the end; how many occurrences start at each
/// place, once that was asked for.
pub struct Windowed {
    ahead: Sieve,
    mirrored: Sieve,
    starts: OnceCell<Vec<u128>>,
}

impl Windowed {
    /// Makes ready for searches of a pattern within the limits in a text within the limits.
    pub fn new(pattern: &Pattern, text: &[u16]) -> Windowed {
        let reversed: Vec<u16> = text.iter().rev().copied().collect();
        let (ahead, mirrored) = (Sieve::new(*pattern, text.to_vec()), Sieve::new(mirrored(pattern), reversed));
        Windowed { ahead, mirrored, starts: OnceCell::new() }
    }

    /// How many occurrences start at each place.
    fn column(&self) -> &[u128] {
        self.starts.get_or_init(|| starts(&self.ahead.pattern, &self.ahead.text))
    }

    /// The place that has as many words before it as this one has after it.
    fn opposite(&self, place: u16) -> u16 {
        (self.ahead.text.len() as u16 + 1).saturating_sub(place)
    }

    /// The row seen from the text's other end.
    fn turned(&self, row: &[u16]) -> Row {
        row.iter().rev().map(|&place| self.opposite(place)).collect()
    }
}

/// The pattern whose occurrences in the reversed text are the pattern's, seen from the other end.
fn mirrored(pattern: &Pattern) -> Pattern {
    let mut mirror = *pattern;
    mirror.slots[..pattern.count].reverse();
    for at in 1..pattern.count {
        let before = pattern.slots[pattern.count - at];
        (mirror.slots[at].low, mirror.slots[at].high) = (before.low, before.high);
    }
    (mirror.slots[0].low, mirror.slots[0].high) = (0, 0);
    mirror
}

/// The places, as bits, of the words that `holds` says yes to, with room past the text's end.
fn places(text: &[u16], holds: impl Fn(u16) -> bool) -> Vec<u64> {
    let mut places = vec![0; text.len() / 64 + ROOM / 64 + 2];
    for (at, _) in text.iter().enumerate().filter(|(_, &word)| holds(word)) {
        places[(at + 1) / 64] |= 1 << ((at + 1) % 64);
    }
    places
}

/// The places, as bits, that a slot may take: those of the words it lists, or if it is excluding, all that are left
/// without those and without the sentence ends.
fn taken(slot: &Slot, text: &[u16], stops: &[u64]) -> Vec<u64> {
    let listed = places(text, |word| slot.words[..slot.count].contains(&word));
    if !slot.excluding {
        return listed;
    }
    let all = places(text, |_| true);
    (0..all.len()).map(|block| all[block] & !listed[block] & !stops[block]).collect()
}

impl Searcher for Windowed {
    fn slots(&self) -> usize {
        self.ahead.pattern.count
    }

    fn first_after(&self, marks: &[u16]) -> Option<Row> {
        self.ahead.first_after(marks)
    }

    fn last_before(&self, marks: &[u16]) -> Option<Row> {
        let found = self.mirrored.first_after(&self.turned(marks))?;
        Some(self.turned(&found))
    }

    fn tally(&self) -> u128 {
        sum(self.column())
    }

    fn starts(&self) -> Vec<u128> {
        self.column().to_vec()
    }

    fn all(&self) -> Vec<Row> {
        self.ahead.all()
    }
}

/// A pattern and a text, with the places that each slot may take, and those of the sentence ends.
struct Sieve {
    pattern: Pattern,
    text: Vec<u16>,
    taken: Vec<Vec<u64>>,
    stops: Vec<u64>,
    within_span: Bits,
}

impl Sieve {
    /// Works out the places that each slot may take, and those of the sentence ends.
    fn new(pattern: Pattern, text: Vec<u16>) -> Sieve {
        let stops = places(&text, |word| word == 0);
        let taken = slots(&pattern).iter().map(|slot| taken(slot, &text, &stops)).collect();
        let spans = pattern.least as usize..=pattern.most as usize;
        let within_span = Bits::of(|offset| spans.contains(&(offset + 1)));
        Sieve { pattern, text, taken, stops, within_span }
    }

    /// The earliest place at every slot over all occurrences past the marks; it must be an occurrence.
    fn first_after(&self, marks: &[u16]) -> Option<Row> {
        let mut best: Option<Row> = None;
        for first in marks[0].saturating_add(1)..=self.text.len() as u16 {
            // No occurrence that begins past the best row's last place is earlier anywhere.
            let past_last = |best: &Row| best[best.len() - 1] < first;
            if best.as_ref().is_some_and(past_last) {
                break;
            }
            if let Some(row) = self.earliest_from(first, marks) {
                slot_by_slot(best.get_or_insert_with(|| row.clone()), &row, u16::min);
            }
        }
        if let Some(best) = &best {
            let past = best.iter().zip(marks).all(|(place, mark)| place > mark);
            let occurs = is_occurrence(&self.pattern, &self.text, best);
            assert!(past && occurs, "no occurrence is best: {best:?}");
        }
        best
    }

    /// The earliest place at every slot over the occurrences past the marks that begin at `first`.
    fn earliest_from(&self, first: u16, marks: &[u16]) -> Option<Row> {
        let kept = self.kept(first, marks)?;
        let place = |kept: &Bits| Some(first + kept.smallest()? as u16);
        kept.iter().map(place).collect()
    }

    /// The offsets from `first` that the occurrences past the marks that begin there have at each slot, if there are any.
    fn kept(&self, first: u16, marks: &[u16]) -> Option<Vec<Bits>> {
        let slots = slots(&self.pattern);
        if !self.open(0, first, marks[0]).contains(0) {
            return None;
        }
        let mut kept = vec![Bits::zero_alone()];
        for at in 1..slots.len() {
            let (low, high) = (slots[at].low as usize, slots[at].high as usize);
            let open = self.open(at, first, marks[at]);
            kept.push(kept[at - 1].raised(low + 1, high + 1).and(&open));
        }
        let last = slots.len() - 1;
        kept[last] = kept[last].and(&self.within_span).below(self.next_stop(first));
        for at in (0..last).rev() {
            let (low, high) = (slots[at + 1].low as usize, slots[at + 1].high as usize);
            kept[at] = kept[at].and(&kept[at + 1].lowered(low + 1, high + 1));
        }
        kept[0].contains(0).then_some(kept)
    }

    /// All occurrences: for each first place, the rows through the places that are kept.
    fn all(&self) -> Vec<Row> {
        let mut found = Vec::new();
        for first in 1..=self.text.len() as u16 {
            if let Some(kept) = self.kept(first, &vec![0; self.pattern.count]) {
                self.complete(&kept, &mut vec![first], &mut found);
            }
        }
        found
    }

    /// Adds to `found` every occurrence that begins with these places.
    fn complete(&self, kept: &[Bits], begun: &mut Row, found: &mut Vec<Row>) {
        if begun.len() == self.pattern.count {
            found.push(begun.clone());
            return;
        }
        let slot = self.pattern.slots[begun.len()];
        for gap in slot.low..=slot.high {
            let place = begun[begun.len() - 1] + 1 + gap;
            if kept[begun.len()].contains((place - begun[0]) as usize) {
                begun.push(place);
                self.complete(kept, begun, found);
                begun.pop();
            }
        }
    }

    /// The offset from `first` of the next sentence end; where none is within reach, the first offset out of reach.
    fn next_stop(&self, first: u16) -> usize {
        Bits::cut(&self.stops, first as usize).smallest().unwrap_or(ROOM)
    }

    /// The offsets from `first` at which a slot may take the word and which lie past its mark.
    fn open(&self, slot: usize, first: u16, mark: u16) -> Bits {
        let taken = Bits::cut(&self.taken[slot], first as usize);
        match mark.checked_sub(first) {
            None => taken,
            Some(shut) => taken.without_first(shut as usize + 1),
        }
    }
}
