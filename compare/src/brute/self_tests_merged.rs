//! Merged patterns in the brute force: worked by hand, the order of the refusals, and against every number and row.

use super::merged::taken;
use super::occurrences::{occurrences, takes};
use super::*;
use crate::cases::merged::{any_pair, sharing, GAP_PAIRS, SPAN_PAIRS, WORD_PAIRS};
use crate::cases::orders::canonical;
use crate::cases::random::{any_pattern, any_text, Kind};
use crate::cases::Words::{But, Only};
use crate::cases::{alike, pattern, Words, Written, ANY_SPAN};
use crate::layout::{Made, Pattern, Slot};
use crate::rng::Rng;

/// What merging says: the pattern, or the refusal's number and place beside a new pattern.
fn said(first: &Pattern, second: &Pattern) -> Result<Pattern, (u32, usize)> {
    let Made { number, place, pattern } = merge(first, second);
    if number == 0 {
        assert_eq!((place, check_pattern(&pattern).number), (0, 0));
        return Ok(pattern);
    }
    assert_eq!(pattern, pattern_of(1, 20_000));
    Err((number, place))
}

/// Asserts that two patterns merge so, in either order.
fn assert_merged(first: &Pattern, second: &Pattern, expected: Result<Pattern, u32>) {
    let expected = expected.map_err(|number| (number, 0));
    assert_eq!([said(first, second), said(second, first)], [expected; 2], "{first:?}\n{second:?}");
}

/// The words by hand, at each of three slots.
#[test]
fn words_by_hand() {
    let among = |at: usize, words: Words| {
        let mut slots = alike(Only(&[7]), 3, 0, 1);
        slots[at].2 = words;
        pattern(ANY_SPAN, &slots)
    };
    for (one, other, both) in WORD_PAIRS {
        for at in 0..3 {
            assert_merged(&among(at, one), &among(at, other), both.map(|words| among(at, words)));
        }
    }
}

/// The gaps by hand, at the second and at the third slot.
#[test]
fn gaps_by_hand() {
    let among = |at: usize, (low, high): (u16, u16)| {
        let mut slots = alike(But(&[7]), 3, 0, 1);
        (slots[at].0, slots[at].1) = (low, high);
        pattern(ANY_SPAN, &slots)
    };
    for (one, other, both) in GAP_PAIRS {
        for at in 1..3 {
            assert_merged(&among(at, one), &among(at, other), both.map(|gap| among(at, gap)).ok_or(18));
        }
    }
}

/// The span limits by hand.
#[test]
fn spans_by_hand() {
    let within = |span: (u16, u16)| pattern(span, &[(0, 0, Only(&[7])), (5, 9, But(&[]))]);
    for (one, other, both) in SPAN_PAIRS {
        assert_merged(&within(one), &within(other), both.map(within).ok_or(18));
    }
}

/// Whole patterns by hand: one strict on words, one on gaps; and two with entries past the stated numbers, which go.
#[test]
fn whole_patterns() {
    let words = pattern(ANY_SPAN, &[(0, 0, Only(&[1, 2])), (0, 63, But(&[3, 4])), (0, 63, Only(&[9]))]);
    let gaps = pattern((3, 8), &[(0, 0, But(&[])), (0, 2, But(&[4, 5])), (1, 1, But(&[2]))]);
    let both = pattern((3, 8), &[(0, 0, Only(&[1, 2])), (0, 2, But(&[3, 4, 5])), (1, 1, Only(&[9]))]);
    assert_merged(&words, &gaps, Ok(both));
    let [mut one, mut other] = [[5, 6], [6, 7]].map(|words| pattern(ANY_SPAN, &[(0, 0, Only(&words))]));
    one.slots[0].words[2..].copy_from_slice(&[7, 0, 7, 1, 2, 3]);
    one.slots[1..].fill(Slot { words: [9; 8], count: 8, low: 3, high: 2, excluding: true });
    other.slots[0].words[2..].copy_from_slice(&[5, 5, 1, 0, 2, 3]);
    other.slots[1..].fill(Slot { words: [0; 8], count: usize::MAX, low: 64, high: 0, excluding: false });
    assert_merged(&one, &other, Ok(pattern(ANY_SPAN, &[(0, 0, Only(&[6]))])));
    assert_merged(&one, &one, Ok(pattern(ANY_SPAN, &[(0, 0, Only(&[5, 6]))])));
}

/// A pattern with any span of two slots of these words and gaps.
fn two(first: Words, second: Written) -> Pattern {
    pattern(ANY_SPAN, &[(0, 0, first), second])
}

/// 17 comes before 18 and 19, and 18 anywhere before 19 anywhere.
#[test]
fn order_of_the_three() {
    let (eight, ninth) = (But(&[1, 2, 3, 4, 5, 6, 7, 8]), But(&[9]));
    let one_slot = |words| pattern(ANY_SPAN, &[(0, 0, words)]);
    assert_merged(&one_slot(Only(&[1])), &two(Only(&[1]), (0, 0, Only(&[1]))), Err(17));
    assert_merged(&one_slot(Only(&[1])), &two(Only(&[2]), (0, 0, Only(&[1]))), Err(17));
    assert_merged(&one_slot(eight), &two(ninth, (0, 0, Only(&[1]))), Err(17));
    assert_merged(&two(eight, (0, 3, But(&[]))), &two(ninth, (0, 3, But(&[]))), Err(19));
    assert_merged(&two(But(&[]), (0, 3, eight)), &two(But(&[]), (0, 3, ninth)), Err(19));
    assert_merged(&two(eight, (0, 3, Only(&[1]))), &two(ninth, (0, 3, Only(&[2]))), Err(18));
    assert_merged(&two(Only(&[1]), (0, 3, eight)), &two(Only(&[2]), (0, 3, ninth)), Err(18));
    assert_merged(&two(eight, (0, 3, But(&[]))), &two(ninth, (4, 4, But(&[]))), Err(18));
    assert_merged(&two(But(&[]), (0, 3, eight)), &two(But(&[]), (4, 4, ninth)), Err(18));
    let (short, long) = (Pattern { most: 4, ..one_slot(eight) }, Pattern { least: 5, ..one_slot(ninth) });
    assert_merged(&short, &long, Err(18));
    assert_merged(&Pattern { least: 4, ..long }, &short, Err(19));
}

/// What breaks a pattern, and the number and the place that it is then refused with.
type Break = (fn(&mut Pattern), (u32, usize));

/// The first pattern's own tests come before the second's, and those before 17 to 19; each has its own place.
#[test]
fn order_of_the_patterns() {
    let broken: [Break; 9] = [
        (|pattern| pattern.count = 0, (1, 0)),
        (|pattern| pattern.count = 17, (1, 0)),
        (|pattern| pattern.slots[1].count = 0, (2, 2)),
        (|pattern| pattern.slots[0].count = 9, (2, 1)),
        (|pattern| pattern.slots[1].words[0] = 0, (3, 2)),
        (|pattern| pattern.slots[0].high = 1, (4, 1)),
        (|pattern| pattern.slots[1].high = 64, (4, 2)),
        (|pattern| pattern.least = 0, (5, 0)),
        (|pattern| pattern.slots[1].words[1] = 1, (16, 2)),
    ];
    let fine = two(Only(&[7, 8]), (0, 3, Only(&[7, 8])));
    let stranger = two(But(&[7, 8]), (4, 9, Only(&[5])));
    let longer = pattern(ANY_SPAN, &alike(Only(&[5]), 3, 9, 9));
    for (break_one, refusal) in broken {
        let mut one = fine;
        break_one(&mut one);
        for whole in [fine, stranger, longer] {
            assert_eq!([said(&one, &whole), said(&whole, &one)], [Err(refusal); 2]);
        }
        for (break_other, _) in broken {
            let mut other = fine;
            break_other(&mut other);
            assert_eq!(said(&one, &other), Err(refusal));
        }
    }
    assert_eq!([said(&fine, &stranger), said(&fine, &longer)], [Err((18, 0)), Err((17, 0))]);
}

/// What the patterns at random are like: with words that texts have, and with any words.
const KINDS: [Kind; 2] = [
    Kind { slots: (1, 4), highest_word: 4, most_words: 3, widest_gap: 4 },
    Kind { slots: (1, 16), highest_word: 65_535, most_words: 8, widest_gap: 63 },
];

/// The set of a slot's words is every number that it takes, and a merged slot takes those that both take.
#[test]
fn every_number() {
    let mut rng = Rng::new(5);
    for round in 0..30 {
        let [first, second] = any_pair(&mut rng, &KINDS[round % 2]);
        for slot in &first.slots[..first.count] {
            let asked: Vec<u16> = (0..=65_535).filter(|&word| takes(slot, word)).collect();
            assert_eq!(taken(slot).iter().collect::<Vec<u16>>(), asked);
        }
        let slots = said(&first, &second).map_or(0, |merged| merged.count);
        for at in 0..slots {
            let [one, other, both] = [first, second, merge(&first, &second).pattern].map(|pattern| pattern.slots[at]);
            assert!((0..=65_535).all(|word| takes(&both, word) == (takes(&one, word) && takes(&other, word))));
        }
    }
}

/// Patterns made to share merge; with itself a pattern is the same; either order gives the same.
#[test]
fn what_holds() {
    let mut rng = Rng::new(6);
    for round in 0..2_000 {
        let kind = &KINDS[round % 2];
        let stated = any_pattern(&mut rng, kind);
        assert_eq!(said(&stated, &stated), Ok(canonical(&stated)));
        let other = sharing(&mut rng, &stated, kind);
        assert!(said(&stated, &other).is_ok(), "{stated:?}\n{other:?}");
        let [first, second] = any_pair(&mut rng, kind);
        assert_eq!(said(&first, &second), said(&second, &first));
    }
}

/// The merged pattern's occurrences are those of both; where it is refused with 18, there are none.
#[test]
fn rows_of_both() {
    let mut rng = Rng::new(7);
    let mut shared = 0;
    for _ in 0..2_000 {
        let [first, second] = any_pair(&mut rng, &KINDS[0]);
        let text = any_text(&mut rng, 30, KINDS[0].highest_word);
        let [mut rows, others] = [first, second].map(|pattern| occurrences(&pattern, &text));
        rows.retain(|row| others.contains(row));
        match said(&first, &second) {
            Ok(merged) => assert_eq!(occurrences(&merged, &text), rows),
            Err((number, _)) => assert!(number != 18 || rows.is_empty()),
        }
        shared += rows.len();
    }
    assert!(shared > 1_000, "{shared}");
}
