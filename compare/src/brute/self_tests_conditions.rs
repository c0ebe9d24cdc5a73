//! The conditions of an occurrence in the brute force: rows written down by hand with what they fail, and any rows.

use super::occurrences::occurrences;
use super::*;
use crate::cases::conditions::{CONDITION_TEXT, FAIL_ALONE, OCCURRENCE};
use crate::cases::pattern;
use crate::cases::placed::{any_occurrence, broken, lifted, Placed};
use crate::cases::random::Kind;
use crate::cases::small::{patterns, texts, tuples};
use crate::cases::Words::{But, Only};
use crate::rng::Rng;

/// The worked text: the row that is its only occurrence, and for each condition the row that fails it alone.
#[test]
fn each_fails_alone() {
    let (pattern, text) = (pattern(CONDITION_TEXT.span, CONDITION_TEXT.slots), CONDITION_TEXT.text);
    for (condition, row) in Condition::ALL.into_iter().zip(FAIL_ALONE) {
        assert_eq!(failed(&pattern, text, row), condition.alone(), "{row:?}");
    }
    assert_eq!(failed(&pattern, text, OCCURRENCE), [false; 4]);
}

/// A row for each of the sixteen sets of conditions, in one text.
#[test]
fn every_set() {
    let pattern = pattern((4, 5), &[(0, 0, Only(&[1])), (0, 2, Only(&[2]))]);
    let text = [1, 2, 6, 2, 2, 2, 1, 0, 2, 2, 2, 2, 0, 6];
    let rows: [(&str, [u16; 2]); 16] = [
        ("", [1, 4]),
        ("word", [3, 6]),
        ("gap", [1, 5]),
        ("word gap", [2, 6]),
        ("span", [1, 2]),
        ("word span", [3, 4]),
        ("gap span", [1, 6]),
        ("word gap span", [1, 7]),
        ("sentence", [7, 10]),
        ("word sentence", [6, 9]),
        ("gap sentence", [7, 11]),
        ("word gap sentence", [6, 10]),
        ("span sentence", [7, 9]),
        ("word span sentence", [12, 14]),
        ("gap span sentence", [7, 12]),
        ("word gap span sentence", [6, 11]),
    ];
    for (names, row) in rows {
        let stated = Condition::ALL.map(|condition| names.split(' ').any(|name| name == condition.name()));
        assert_eq!(failed(&pattern, &text, &row), stated, "{row:?}");
    }
}

/// Places outside the text, in any order: each condition is kept or failed, whatever the others.
#[test]
fn any_places() {
    let two = pattern((2, 4), CONDITION_TEXT.slots);
    let text = [1, 0, 2];
    let rows: [(&[u16; 2], [bool; 4]); 12] = [
        (&[0, 0], [true, true, true, false]),
        (&[0, 2], [true, false, false, false]),
        (&[0, 3], [true, false, false, true]),
        (&[1, 3], [false, false, false, true]),
        (&[3, 1], [true, true, true, false]),
        (&[3, 5], [true, false, false, false]),
        (&[1, 5], [true, false, true, true]),
        (&[4, 6], [true, false, false, false]),
        (&[2, 65_535], [true, true, true, false]),
        (&[1, 65_535], [true, true, true, true]),
        (&[65_535, 0], [true, true, true, false]),
        (&[65_535, 65_535], [true, true, true, false]),
    ];
    for (row, fails) in rows {
        assert_eq!(failed(&two, &text, row), fails, "{row:?}");
    }
    let one = pattern((1, 1), &[(0, 0, But(&[]))]);
    for (place, fails) in [(0, true), (1, false), (2, true), (3, false), (4, true), (20_000, true), (65_535, true)] {
        assert_eq!(failed(&one, &text, &[place]), [fails, false, false, false]);
    }
}

/// A row fails none exactly if the walk finds it; a row of one slot fails neither the gap nor the sentence.
#[test]
fn all_conditions_together() {
    let (sets, gaps, spans) = ([Only(&[1]), But(&[1])], [(0, 1), (1, 2)], [(2, 3), (1, 20_000)]);
    for slots in 1..=3 {
        for pattern in patterns(slots, &sets, &gaps, &spans) {
            for text in texts(&[0, 1, 2], 4) {
                let rows = occurrences(&pattern, &text);
                for row in tuples(&[0, 1, 2, 3, 4, 5, 20_000, 65_535], slots) {
                    let failed = failed(&pattern, &text, &row);
                    assert_eq!(failed == [false; 4], rows.contains(&row));
                    assert!(slots > 1 || [failed[1], failed[3]] == [false; 2]);
                }
            }
        }
    }
}

/// Whether an occurrence can be made to fail this condition alone: the gap if it has one, the sentence if it has a word
/// between its places, the others always.
fn breakable(condition: Condition, row: &[u16]) -> bool {
    let (places, span) = (row.len(), usize::from(row[row.len() - 1] - row[0] + 1));
    match condition {
        Condition::Word | Condition::Span => true,
        Condition::Gap => places > 1,
        Condition::Sentence => span > places,
    }
}

/// Occurrences at random fail nothing, one condition alone when it is broken, and nothing again when it is lifted.
#[test]
fn broken_and_lifted() {
    let mut rng = Rng::new(4);
    let kind = Kind { slots: (1, 16), highest_word: 9, most_words: 8, widest_gap: 63 };
    let fails = |placed: &Placed| Brute::windowed(&placed.pattern, &placed.text).failed(&placed.row);
    for _ in 0..500 {
        let occurrence = any_occurrence(&mut rng, &kind);
        assert_eq!(fails(&occurrence), Ok([false; 4]));
        for condition in Condition::ALL {
            let changed = broken(&mut rng, condition, &occurrence);
            assert_eq!(changed.is_some(), breakable(condition, &occurrence.row), "{condition:?} {occurrence:?}");
            if let Some(changed) = changed {
                assert_eq!(fails(&changed), Ok(condition.alone()));
                let lifted = lifted(condition, changed).expect("its places and gaps are within the limits");
                assert_eq!(fails(&lifted), Ok([false; 4]));
            }
        }
    }
}
