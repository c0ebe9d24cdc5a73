//! Pairs to merge: words, gaps and span limits with what both take or allow, put down by hand, and patterns at random.

use super::orders::{in_order, with_words};
use super::placed::{taken, Placed};
use super::random::{add_garbage, any_pattern, Kind};
use super::Words::{self, But, Only};
use crate::layout::{Pattern, Slot};
use crate::rng::Rng;

/// The words of two slots, and those that both take, or the number that merging is refused with.
pub type WordPair = (Words<'static>, Words<'static>, Result<Words<'static>, u32>);

/// Eight words, and eight others.
const EIGHT: &[u16] = &[1, 2, 3, 4, 5, 6, 7, 8];
const OTHERS: &[u16] = &[9, 10, 11, 12, 13, 14, 15, 16];

/// Eight words far apart, and all of them but one.
const FAR: &[u16] = &[1, 255, 256, 257, 32_767, 32_768, 65_534, 65_535];
const FAR_BUT_ONE: &[u16] = &[1, 255, 256, 257, 32_767, 32_768, 65_535];

/// The words of slots: those that both take.
pub const WORD_PAIRS: [WordPair; 40] = [
    // Plain and plain: those in both.
    (Only(&[7]), Only(&[7]), Ok(Only(&[7]))),
    (Only(&[7]), Only(&[8]), Err(18)),
    (Only(&[1, 2, 3]), Only(&[2, 3, 4]), Ok(Only(&[2, 3]))),
    (Only(&[1, 2]), Only(&[2, 3]), Ok(Only(&[2]))),
    (Only(&[1, 2]), Only(&[3, 4]), Err(18)),
    (Only(&[1, 3, 5, 7]), Only(&[2, 4, 6, 8]), Err(18)),
    (Only(&[1, 3, 5, 7]), Only(&[2, 4, 5, 6, 8]), Ok(Only(&[5]))),
    (Only(EIGHT), Only(EIGHT), Ok(Only(EIGHT))),
    (Only(EIGHT), Only(OTHERS), Err(18)),
    (Only(EIGHT), Only(&[8, 9, 10, 11, 12, 13, 14, 15]), Ok(Only(&[8]))),
    (Only(FAR), Only(FAR), Ok(Only(FAR))),
    (Only(FAR), Only(&[65_535]), Ok(Only(&[65_535]))),
    (Only(FAR), Only(&[2, 254, 258, 32_766, 32_769, 65_533]), Err(18)),
    // Plain and excluding: the plain one's that the other does not list.
    (Only(&[7]), But(&[]), Ok(Only(&[7]))),
    (Only(&[7]), But(&[8]), Ok(Only(&[7]))),
    (Only(&[7]), But(&[7]), Err(18)),
    (Only(&[1, 2, 3]), But(&[2, 3, 4]), Ok(Only(&[1]))),
    (Only(&[1, 2, 3]), But(&[1, 2, 3]), Err(18)),
    (Only(&[1, 2, 3]), But(&[1, 2, 3, 4]), Err(18)),
    (Only(EIGHT), But(&[]), Ok(Only(EIGHT))),
    (Only(EIGHT), But(OTHERS), Ok(Only(EIGHT))),
    (Only(EIGHT), But(EIGHT), Err(18)),
    (Only(EIGHT), But(&[1, 2, 3, 4, 5, 6, 7]), Ok(Only(&[8]))),
    (Only(EIGHT), But(&[1, 2, 3, 5, 6, 7, 8, 9]), Ok(Only(&[4]))),
    (Only(FAR), But(FAR), Err(18)),
    (Only(FAR), But(FAR_BUT_ONE), Ok(Only(&[65_534]))),
    // Excluding and excluding: all but those that either lists.
    (But(&[]), But(&[]), Ok(But(&[]))),
    (But(&[]), But(&[7]), Ok(But(&[7]))),
    (But(&[7]), But(&[8]), Ok(But(&[7, 8]))),
    (But(&[2, 3, 5]), But(&[1, 2, 4]), Ok(But(&[1, 2, 3, 4, 5]))),
    (But(&[]), But(EIGHT), Ok(But(EIGHT))),
    (But(EIGHT), But(EIGHT), Ok(But(EIGHT))),
    (But(EIGHT), But(&[4]), Ok(But(EIGHT))),
    (But(EIGHT), But(&[9]), Err(19)),
    (But(EIGHT), But(OTHERS), Err(19)),
    (But(&[1, 3, 5, 7]), But(&[2, 4, 6, 8]), Ok(But(EIGHT))),
    (But(&[1, 3, 5, 7, 9]), But(&[2, 4, 6, 8]), Err(19)),
    (But(&[1, 2, 3, 4, 5]), But(&[4, 5, 6, 7, 8]), Ok(But(EIGHT))),
    (But(FAR_BUT_ONE), But(&[65_534]), Ok(But(FAR))),
    (But(FAR), But(&[2]), Err(19)),
];

/// Two gaps or the span limits of two patterns, and what both allow; none where merging is refused with 18.
pub type LimitPair = ((u16, u16), (u16, u16), Option<(u16, u16)>);

/// Gaps: the numbers that both allow.
pub const GAP_PAIRS: [LimitPair; 14] = [
    ((0, 0), (0, 0), Some((0, 0))),
    ((0, 63), (0, 63), Some((0, 63))),
    ((0, 63), (63, 63), Some((63, 63))),
    ((0, 62), (63, 63), None),
    ((0, 0), (0, 63), Some((0, 0))),
    ((0, 0), (1, 63), None),
    ((0, 5), (3, 9), Some((3, 5))),
    ((2, 9), (4, 6), Some((4, 6))),
    ((2, 6), (4, 6), Some((4, 6))),
    ((2, 4), (4, 6), Some((4, 4))),
    ((2, 3), (4, 6), None),
    ((0, 31), (32, 63), None),
    ((0, 32), (32, 63), Some((32, 32))),
    ((5, 5), (5, 5), Some((5, 5))),
];

/// Span limits: the numbers that both allow.
pub const SPAN_PAIRS: [LimitPair; 15] = [
    ((1, 20_000), (1, 20_000), Some((1, 20_000))),
    ((1, 1), (1, 20_000), Some((1, 1))),
    ((1, 1), (2, 20_000), None),
    ((20_000, 20_000), (1, 20_000), Some((20_000, 20_000))),
    ((20_000, 20_000), (1, 19_999), None),
    ((1, 19_999), (19_999, 20_000), Some((19_999, 19_999))),
    ((3, 9), (5, 20_000), Some((5, 9))),
    ((3, 9), (1, 7), Some((3, 7))),
    ((3, 9), (4, 8), Some((4, 8))),
    ((3, 9), (9, 12), Some((9, 9))),
    ((3, 9), (10, 12), None),
    ((1, 255), (256, 511), None),
    ((1, 256), (256, 511), Some((256, 256))),
    ((63, 64), (64, 65), Some((64, 64))),
    ((63, 63), (64, 65), None),
];

/// What two patterns share, so that they merge: a word at each slot, a number at each gap, and a span.
struct Shared {
    words: Vec<u16>,
    gaps: Vec<u16>,
    span: u16,
}

/// Two accepted patterns, of which one was made from the other so that they merge; every third time one thing is then
/// changed at random, so that many of these do not.
pub fn any_pair(rng: &mut Rng, kind: &Kind) -> [Pattern; 2] {
    let first = any_pattern(rng, kind);
    let mut second = sharing(rng, &first, kind);
    if rng.once_in(3) {
        change(rng, &mut second, kind);
    }
    if rng.once_in(2) {
        [first, second]
    } else {
        [second, first]
    }
}

/// A pattern that merges with this one, which is accepted.
pub fn sharing(rng: &mut Rng, pattern: &Pattern, kind: &Kind) -> Pattern {
    let slots = &pattern.slots[..pattern.count];
    let words = slots.iter().map(|slot| taken(rng, slot)).collect();
    let gaps = slots.iter().map(|slot| rng.word(slot.low, slot.high)).collect();
    let span = rng.word(pattern.least, pattern.most);
    sharing_these(rng, pattern, &Shared { words, gaps, span }, kind)
}

/// A pattern that the row of this occurrence is an occurrence of, too.
pub fn sharing_row(rng: &mut Rng, occurrence: &Placed, kind: &Kind) -> Pattern {
    let Placed { pattern, text, row } = occurrence;
    let words = row.iter().map(|&place| text[place as usize - 1]).collect();
    let gaps = (0..row.len()).map(|at| if at == 0 { 0 } else { row[at] - row[at - 1] - 1 }).collect();
    let span = row[row.len() - 1] - row[0] + 1;
    sharing_these(rng, pattern, &Shared { words, gaps, span }, kind)
}

/// A pattern that shares these with this one, its entries past the stated numbers at random.
fn sharing_these(rng: &mut Rng, pattern: &Pattern, shared: &Shared, kind: &Kind) -> Pattern {
    let mut other = *pattern;
    for (at, slot) in other.slots[..pattern.count].iter_mut().enumerate() {
        *slot = sharing_word(rng, slot, shared.words[at], kind.highest_word);
        if at > 0 {
            (slot.low, slot.high) = sharing_number(rng, (slot.low, slot.high), shared.gaps[at], (0, 63));
        }
    }
    (other.least, other.most) = sharing_number(rng, (pattern.least, pattern.most), shared.span, (1, 20_000));
    add_garbage(rng, &mut other);
    other
}

/// A slot that takes this word, which the other takes, too; if both are excluding, they list 8 words together at most.
fn sharing_word(rng: &mut Rng, slot: &Slot, shared: u16, highest_word: u16) -> Slot {
    let mut words = slot.words[..slot.count].to_vec();
    words.retain(|_| rng.once_in(2));
    let added = rng.within(0, 8 - slot.count);
    words.extend((0..added).map(|_| rng.word(1, highest_word)));
    words.retain(|&word| word != shared);
    let excluding = rng.once_in(2);
    if !excluding {
        words.truncate(7);
        words.push(shared);
    }
    with_words(&Slot { excluding, ..*slot }, &in_order(&words))
}

/// Limits within these ends that allow this number, which the others allow, too: it alone, or some or all of theirs.
fn sharing_number(rng: &mut Rng, limits: (u16, u16), shared: u16, (lowest, highest): (u16, u16)) -> (u16, u16) {
    let (below, above) = (rng.word(lowest, shared), rng.word(shared, highest));
    (rng.pick(&[lowest, below, limits.0, shared]), rng.pick(&[shared, limits.1, above, highest]))
}

/// Gives one slot other words or another gap, the pattern other span limits, or fewer slots; it stays accepted.
fn change(rng: &mut Rng, pattern: &mut Pattern, kind: &Kind) {
    let (other, at) = (any_pattern(rng, kind), rng.within(0, pattern.count - 1));
    let low = rng.word(0, 63);
    let slot = &mut pattern.slots[at];
    match rng.within(1, 5) {
        1 | 2 => *slot = Slot { low: slot.low, high: slot.high, ..other.slots[at.min(other.count - 1)] },
        3 if at > 0 => (slot.low, slot.high) = (low, rng.word(low, 63)),
        4 => (pattern.least, pattern.most) = (other.least, other.most),
        _ => pattern.count = rng.within(1, pattern.count),
    }
}
