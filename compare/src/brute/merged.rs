//! Two patterns merged: all numbers that each takes or allows as sets, those in both, and back to slots and limits.

use super::limits::{pattern_of, push_slot, test_pattern};
use super::numbers::Numbers;
use super::occurrences::slots;
use super::refusal::{refuse, Refusal};
use crate::layout::{Made, Pattern, Slot};

/// A set of words: of any numbers of 16 bits.
type WordSet = Numbers<1024>;

/// How many blocks of 64 numbers hold all gaps, 0 to 63.
const GAPS: usize = 1;

/// How many blocks of 64 numbers hold all spans, 1 to 20,000.
const SPANS: usize = 20_000 / 64 + 1;

/// Two patterns merged, or a new pattern beside why they are not.
pub fn merge(first: &Pattern, second: &Pattern) -> Made {
    match merged(first, second) {
        Ok(pattern) => Made { number: 0, place: 0, pattern },
        Err(Refusal { number, place }) => Made { number, place, pattern: pattern_of(1, 20_000) },
    }
}

/// The pattern of what both patterns take and allow, or why there is none.
fn merged(first: &Pattern, second: &Pattern) -> Result<Pattern, Refusal> {
    test_pattern(first)?;
    test_pattern(second)?;
    if first.count != second.count {
        return refuse(17, 0);
    }
    let pairs = || slots(first).iter().zip(slots(second));
    let words: Vec<WordSet> = pairs().map(|(one, other)| taken(one).and(&taken(other))).collect();
    let gaps = pairs().map(|(one, other)| allowed::<GAPS>((one.low, one.high), (other.low, other.high)));
    let gaps: Option<Vec<(u16, u16)>> = gaps.collect();
    let span = allowed::<SPANS>((first.least, first.most), (second.least, second.most));
    let all_share = !words.iter().any(Numbers::is_empty);
    let (Some(gaps), Some((least, most)), true) = (gaps, span, all_share) else { return refuse(18, 0) };
    let mut pattern = pattern_of(least, most);
    for (words, (low, high)) in words.iter().zip(gaps) {
        let Some((excluding, listed)) = listed(words) else { return refuse(19, 0) };
        push_slot(&mut pattern, low, high, excluding, &listed);
    }
    Ok(pattern)
}

/// Every word that a slot may take: all numbers but 0.
fn any_word() -> WordSet {
    Numbers::range(1, 65_535)
}

/// All words that the slot takes.
pub fn taken(slot: &Slot) -> WordSet {
    let listed = Numbers::of(&slot.words[..slot.count]);
    if slot.excluding {
        any_word().without(&listed)
    } else {
        listed
    }
}

/// Whether the slot that takes just these words is excluding, and what it lists; none where either form lists more than
/// 8 words. No set of words has both forms.
fn listed(words: &WordSet) -> Option<(bool, Vec<u16>)> {
    let nine_at_most = |set: &WordSet| set.iter().take(9).collect::<Vec<u16>>();
    let forms = [(false, nine_at_most(words)), (true, nine_at_most(&any_word().without(words)))];
    forms.into_iter().find(|(_, listed)| listed.len() <= 8)
}

/// The least and the greatest number that both limits allow, if there is one; they allow all between these, too.
fn allowed<const BLOCKS: usize>(one: (u16, u16), other: (u16, u16)) -> Option<(u16, u16)> {
    let [one, other] = [one, other].map(|(least, most)| Numbers::<BLOCKS>::range(least, most));
    let both = one.and(&other);
    let ends = (both.iter().next()?, both.iter().next_back()?);
    assert!(both == Numbers::range(ends.0, ends.1), "some number between {ends:?} is not allowed");
    Some(ends)
}
