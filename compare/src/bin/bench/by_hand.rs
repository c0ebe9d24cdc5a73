//! The library's searches and lists, written by hand in ordinary safe Rust.
//!
//! With `BACK` places count from the text's end: so a backward search reads the text as it stands. The back list turns it round once.

use compare::layout::{Pattern, Slot};

/// The words from the place `from` to before `to`, as they stand in the text, if it has these places.
fn stretch<const BACK: bool>(text: &[u16], from: usize, to: usize) -> Option<&[u16]> {
    if BACK {
        let past = text.len() + 1;
        text.get(past - to..past.checked_sub(from)?)
    } else {
        text.get(from - 1..to - 1)
    }
}

/// How many of the words stand before the first that is taken.
fn before_first<const BACK: bool>(words: &[u16], takes: impl Fn(&u16) -> bool) -> Option<usize> {
    let mut words = words.iter();
    if BACK {
        words.rev().position(takes)
    } else {
        words.position(takes)
    }
}

/// The first place from `from` on whose word the slot takes.
fn first<const BACK: bool>(slot: &Slot, text: &[u16], from: usize) -> Option<usize> {
    let words = &slot.words[..slot.count];
    let rest = stretch::<BACK>(text, from, text.len() + 1)?;
    let skipped = if slot.excluding {
        before_first::<BACK>(rest, |word| *word != 0 && !words.contains(word))
    } else {
        before_first::<BACK>(rest, |word| words.contains(word))
    };
    Some(from + skipped?)
}

/// The last place from `from` on and before `to` at which a sentence ends.
fn last_end<const BACK: bool>(text: &[u16], from: usize, to: usize) -> Option<usize> {
    let mut inside = stretch::<BACK>(text, from, to)?.iter();
    let ends = |&word: &u16| word == 0;
    let skipped = if BACK { inside.position(ends) } else { inside.rev().position(ends) };
    Some(to - 1 - skipped?)
}

/// Visits the slots in a ring and raises the row until none asks for more: whether that is within the text. Sentences may end in it.
fn settle<const BACK: bool>(pattern: &Pattern, text: &[u16], row: &mut [usize]) -> bool {
    let slots = &pattern.slots[..row.len()];
    let (least, most) = (pattern.least as usize, pattern.most as usize);
    let last = row.len() - 1;
    let mut calm = 0;
    let mut j = 0;
    while calm <= last {
        let slot = &slots[j];
        let behind = if j == 0 { (row[last] + 1).saturating_sub(most) } else { row[j - 1] + slot.low as usize + 1 };
        let ahead =
            if j == last { row[0] + least - 1 } else { row[j + 1].saturating_sub(slots[j + 1].high as usize + 1) };
        let from = row[j].max(behind).max(ahead);
        let Some(place) = first::<BACK>(slot, text, from) else {
            return false;
        };
        if place == row[j] {
            calm += 1;
        } else {
            row[j] = place;
            calm = 0;
        }
        j = if j == last { 0 } else { j + 1 };
    }
    true
}

/// Raises the row to the earliest occurrence at or after it: whether there is one. Where a sentence ends inside of a row, none starts
/// before that place. No sentence ends past the given row's first place and before `clear`.
fn keep<const BACK: bool>(pattern: &Pattern, text: &[u16], mut clear: usize, row: &mut [usize]) -> bool {
    let last = row.len() - 1;
    while settle::<BACK>(pattern, text, row) {
        let Some(end) = last_end::<BACK>(text, clear.max(row[0] + 1), row[last]) else {
            return true;
        };
        row[0] = end;
        clear = row[last];
    }
    false
}

/// Hands over the rows of the front list, one after the other.
fn each_row(pattern: &Pattern, text: &[u16], mut take: impl FnMut(&[usize])) {
    let mut places = [0; 16];
    let row = &mut places[..pattern.count];
    loop {
        let clear = row[row.len() - 1];
        for place in row.iter_mut() {
            *place += 1;
        }
        if !keep::<false>(pattern, text, clear, row) {
            return;
        }
        take(row);
    }
}

/// Writes the front list, and says how many rows it has.
pub fn leftmost(pattern: &Pattern, text: &[u16], list: &mut [u16]) -> usize {
    let mut rows = 0;
    let mut room = list.chunks_exact_mut(pattern.count);
    each_row(pattern, text, |row| {
        let entries = room.next().expect("the list has room for every row");
        for (entry, &place) in entries.iter_mut().zip(row) {
            *entry = place as u16;
        }
        rows += 1;
    });
    rows
}

/// How many rows the front list has.
pub fn support(pattern: &Pattern, text: &[u16]) -> usize {
    let mut rows = 0;
    each_row(pattern, text, |_| rows += 1);
    rows
}

/// The pattern read from its end.
fn mirrored(pattern: &Pattern) -> Pattern {
    let mut turned = *pattern;
    let slots = &mut turned.slots[..pattern.count];
    slots.reverse();
    for (j, slot) in slots.iter_mut().enumerate().skip(1) {
        let before = &pattern.slots[pattern.count - j];
        (slot.low, slot.high) = (before.low, before.high);
    }
    (slots[0].low, slots[0].high) = (0, 0);
    turned
}

/// Writes the back list: the front list of pattern and text turned round, turned back. Says how many rows it has.
pub fn rightmost(pattern: &Pattern, text: &[u16], list: &mut [u16]) -> usize {
    let turned: Vec<u16> = text.iter().rev().copied().collect();
    let rows = leftmost(&mirrored(pattern), &turned, list);
    let written = &mut list[..rows * pattern.count];
    written.reverse();
    for place in written {
        *place = (text.len() + 1) as u16 - *place;
    }
    rows
}

/// The places of the earliest occurrence past the marks.
fn search<const BACK: bool>(
    pattern: &Pattern,
    text: &[u16],
    marks: impl Iterator<Item = usize>,
) -> Option<[usize; 16]> {
    let mut places = [0; 16];
    let row = &mut places[..pattern.count];
    for (place, mark) in row.iter_mut().zip(marks) {
        *place = mark + 1;
    }
    keep::<BACK>(pattern, text, 0, row).then_some(places)
}

/// The earliest occurrence past the marks.
pub fn first_after(pattern: &Pattern, text: &[u16], marks: &[u16]) -> Option<[u16; 16]> {
    let places = search::<false>(pattern, text, marks.iter().map(|&mark| mark as usize))?;
    Some(places.map(|place| place as u16))
}

/// The latest occurrence before the marks: the earliest past them in pattern and text read from the end, turned back.
pub fn last_before(pattern: &Pattern, text: &[u16], marks: &[u16]) -> Option<[u16; 16]> {
    let past = text.len() + 1;
    let far = |&mark: &u16| past.saturating_sub(mark as usize);
    let places = search::<true>(&mirrored(pattern), text, marks.iter().rev().map(far))?;
    let mut row = [0; 16];
    for (entry, place) in row.iter_mut().zip(places[..pattern.count].iter().rev()) {
        *entry = (past - place) as u16;
    }
    Some(row)
}
