//! Excluding slots in the brute force: what they take, written out by hand, their limits and their spellings.

use super::occurrences::takes;
use super::*;
use crate::cases::orders::canonical;
use crate::cases::random::{any_pattern, any_text, Kind};
use crate::cases::small::texts;
use crate::cases::turned::turned;
use crate::cases::Words::{self, But, Only};
use crate::cases::{pattern, ANY_SPAN};
use crate::layout::{Pattern, Slot};
use crate::rng::Rng;

/// The pattern with this slot alone, its words put in order.
fn alone(words: Words) -> Pattern {
    canonical(&pattern(ANY_SPAN, &[(0, 0, words)]))
}

/// Slots, words that each takes, and words that it does not.
const TAKEN: [(Words, &[u16], &[u16]); 9] = [
    (But(&[]), &[1, 2, 12, 65_534, 65_535], &[0]),
    (But(&[12, 15]), &[1, 2, 11, 13, 14, 16, 255, 256, 268, 65_535], &[0, 12, 15]),
    (But(&[1]), &[2, 3, 65_535], &[0, 1]),
    (But(&[65_535]), &[1, 2, 65_534], &[0, 65_535]),
    (But(&[7, 7, 7]), &[1, 6, 8], &[0, 7]),
    (But(&[1, 2, 3, 4, 5, 6, 7, 8]), &[9, 10, 65_535], &[0, 1, 2, 3, 4, 5, 6, 7, 8]),
    (Only(&[12, 15]), &[12, 15], &[0, 1, 11, 13, 14, 16, 65_535]),
    (Only(&[7, 7, 7]), &[7], &[0, 1, 6, 8]),
    (Only(&[1, 2, 3, 4, 5, 6, 7, 8]), &[1, 2, 3, 4, 5, 6, 7, 8], &[0, 9, 65_535]),
];

/// What slots take and do not take, by every method.
#[test]
fn taken_words() {
    for (words, taken, others) in TAKEN {
        let slot = alone(words);
        let listed = taken.iter().map(|&word| (word, 1)).chain(others.iter().map(|&word| (word, 0)));
        for (word, times) in listed {
            assert_eq!(u64::from(takes(&slot.slots[0], word)), times);
            let text = [word];
            let (written_out, sieved) = (Brute::enumerated(&slot, &text), Brute::windowed(&slot, &text));
            assert_eq!(written_out.is_occurrence(&[1]).value, times);
            assert_eq!([written_out.support().value, sieved.support().value], [times; 2]);
            assert_eq!([written_out.tallied(), sieved.tallied()], [Ok(times.into()); 2]);
            assert_eq!([written_out.first_after(&[0]).found, sieved.last_before(&[9]).found], [times; 2]);
        }
    }
}

/// Of all numbers, a plain slot takes those it lists, an excluding one the others; neither takes 0.
#[test]
fn all_numbers() {
    for words in [&[1][..], &[12, 15], &[65_535, 1, 300, 65_535], &[8, 7, 6, 5, 4, 3, 2, 1]] {
        let [plain, excluding] = [Only(words), But(words)].map(|words| alone(words).slots[0]);
        let taken = (0..=65_535).filter(|&word| takes(&plain, word)).count();
        let left = (0..=65_535).filter(|&word| takes(&excluding, word)).count();
        assert_eq!(taken + left, 65_535);
        assert!((1..=65_535).all(|word| takes(&plain, word) != takes(&excluding, word)));
    }
    assert_eq!((0..=65_535).filter(|&word| takes(&alone(But(&[])).slots[0], word)).count(), 65_535);
}

/// Entries past the stated number of words are not looked at.
#[test]
fn words_past_the_stated_number() {
    let slot = |count, excluding| Slot { words: [12, 15, 0, 1, 2, 3, 4, 5], count, low: 0, high: 0, excluding };
    let none = [0, 12, 15, 1].map(|word| takes(&slot(0, true), word));
    let one = [0, 12, 15, 1].map(|word| takes(&slot(1, true), word));
    let two = [0, 12, 15, 1].map(|word| takes(&slot(2, true), word));
    assert_eq!((none, one, two), ([false, true, true, true], [false, false, true, true], [false, false, false, true]));
}

/// Numbers of words from both sides, the word 0, and the gap, tested in this order, for both kinds of slots.
#[test]
fn limits_of_both_kinds() {
    let listed = [7; 9];
    let refusals = |excluding| {
        [0, 1, 8, 9].map(|words| {
            let made = with_slot(&pattern_of(1, 9), 0, 0, excluding, &listed[..words]);
            (made.number, made.place, made.pattern.count)
        })
    };
    assert_eq!(refusals(false), [(2, 1, 0), (0, 0, 1), (0, 0, 1), (2, 1, 0)]);
    assert_eq!(refusals(true), [(0, 0, 1), (0, 0, 1), (0, 0, 1), (2, 1, 0)]);
    for excluding in [false, true] {
        let refused = |low, high, words: &[u16]| with_slot(&alone(But(&[])), low, high, excluding, words).number;
        assert_eq!(
            [refused(0, 1, &[7, 0]), refused(2, 1, &[0]), refused(2, 1, &[7]), refused(2, 1, &[0; 9])],
            [3, 3, 4, 2]
        );
    }
    assert_eq!(with_slot(&alone(But(&[])), 2, 1, true, &[]).number, 4);
    let mut stated = alone(But(&[]));
    stated.slots[0].words = [0; 8];
    assert_eq!(check_pattern(&stated).number, 0);
    for (count, number) in [(1, 3), (8, 3), (9, 2), (usize::MAX, 2)] {
        stated.slots[0].count = count;
        assert_eq!(check_pattern(&stated).number, number);
    }
}

/// An added slot has its mark and its words, the rest of its words 0; all else is as before, also marks past the slots.
#[test]
fn added_slots() {
    let mut before = pattern(ANY_SPAN, &[(0, 0, Only(&[5])), (0, 1, But(&[6]))]);
    let garbage = Slot { words: [9; 8], count: 99, low: 70, high: 1, excluding: true };
    before.slots[2..].fill(garbage);
    for excluding in [false, true] {
        let made = with_slot(&before, 2, 3, excluding, &[12, 15]);
        let slot = Slot { words: [12, 15, 0, 0, 0, 0, 0, 0], count: 2, low: 2, high: 3, excluding };
        let mut expected = Pattern { count: 3, ..before };
        expected.slots[2] = slot;
        assert_eq!((made.number, made.place, made.pattern), (0, 0, expected));
    }
    let none = with_slot(&before, 2, 3, true, &[]).pattern.slots[2];
    assert_eq!(none, Slot { words: [0; 8], count: 0, low: 2, high: 3, excluding: true });
}

/// The second slot of a file in which it has this field of words, or why the file is refused.
fn read(words: &str) -> Result<Slot, (u32, usize)> {
    let made = made_from_file(format!("least most\n1 9\nlow high words\n0 0 7\n2 3 {words}\n").as_bytes());
    match made.number {
        0 => {
            assert_eq!((made.pattern.count, made.pattern.slots[0].excluding), (2, false));
            assert_eq!(made.pattern.slots[2..], [Slot::default(); 14]);
            Ok(made.pattern.slots[1])
        }
        number => Err((number, made.place)),
    }
}

/// Fields of words as they may be spelled, and what they are read as.
#[test]
fn good_spellings() {
    let fields: [(&str, Words); 7] = [
        ("12,15", Only(&[12, 15])),
        ("!12,15", But(&[12, 15])),
        ("!", But(&[])),
        ("!1", But(&[1])),
        ("!65535", But(&[65_535])),
        ("!7,7", But(&[7])),
        ("!1,2,3,4,5,6,7,8", But(&[1, 2, 3, 4, 5, 6, 7, 8])),
    ];
    for (field, words) in fields {
        assert_eq!(read(field), Ok(pattern(ANY_SPAN, &[(2, 3, words)]).slots[0]));
    }
}

/// Fields of words that are refused: by their layout, by the word 0, by too many words.
#[test]
fn wrong_spellings() {
    for field in
        ["!!", "!!7", "!,1", "!1,", "!,", "1,!2", "!1,!2", "12!", "!12!", "1!2", " !", "! ", "! 1", "!01", "!65536", ""]
    {
        assert_eq!(read(field), Err((11, 5)), "{field}");
    }
    for field in ["!0", "!0,7", "!7,0", "!1,2,3,4,5,6,7,0"] {
        assert_eq!(read(field), Err((3, 2)), "{field}");
    }
    for field in ["!1,2,3,4,5,6,7,8,9", "!0,0,0,0,0,0,0,0,0"] {
        assert_eq!(read(field), Err((2, 2)), "{field}");
    }
}

/// A mark outside the words of a slot: 11 in a line of values, 10 in one of names.
#[test]
fn marks_elsewhere() {
    let files: [(&str, (u32, usize)); 10] = [
        ("least most\n!1 9\nlow high words\n0 0 7\n", (11, 2)),
        ("least most\n1 !\nlow high words\n0 0 7\n", (11, 2)),
        ("least most\n1 9\nlow high words\n!0 0 7\n", (11, 4)),
        ("least most\n1 9\nlow high words\n0 ! 7\n", (11, 4)),
        ("least most\n1 9\nlow words high\n0 !7 0\n", (0, 0)),
        ("least most\n1 9\nlow words high\n0 7 !0\n", (11, 4)),
        ("least most\n1 9\nlow high words\n0 0 !", (11, 4)),
        ("!least most\n1 9\nlow high words\n0 0 7\n", (10, 1)),
        ("least most\n1 9\nlow high !words\n0 0 7\n", (10, 3)),
        ("least most\n1 9\nlow high words!\n0 0 7\n", (10, 3)),
    ];
    for (file, refusal) in files {
        let made = made_from_file(file.as_bytes());
        assert_eq!((made.number, made.place), refusal, "{file}");
    }
    for (file, refusal) in [("!word\n7\n", (10, 1)), ("word\n!7\n", (11, 2)), ("word\n7\n!\n", (11, 3))] {
        let read = words_from_file(file.as_bytes(), &mut [0; 9]);
        assert_eq!((read.number, read.place), refusal, "{file}");
    }
}

/// A slot and its other form have the same occurrences: by hand for small texts, at random for longer ones.
#[test]
fn other_forms() {
    let forms = [(But(&[1]), Only(&[2, 3])), (But(&[]), Only(&[1, 2, 3])), (But(&[1, 2, 3]), Only(&[4]))];
    for (excluding, plain) in forms {
        let [excluding, plain] = [excluding, plain].map(|words| pattern(ANY_SPAN, &[(0, 0, words), (0, 1, words)]));
        for text in texts(&[0, 1, 2, 3], 5) {
            assert_alike(&excluding, &plain, &text);
        }
    }
    let mut rng = Rng::new(3);
    let kind = Kind { slots: (1, 6), highest_word: 5, most_words: 4, widest_gap: 3 };
    for _ in 0..1_000 {
        let pattern = any_pattern(&mut rng, &kind);
        assert_alike(&pattern, &turned(&pattern, 5, |_| true), &any_text(&mut rng, 30, 5));
    }
}

/// Asserts that two patterns have the same occurrences and lists in a text, by every method.
fn assert_alike(pattern: &Pattern, other: &Pattern, text: &[u16]) {
    let (listed, sieved) = (Brute::enumerated(pattern, text), Brute::windowed(other, text));
    let rows = listed.searcher().unwrap().rows();
    assert_eq!(rows, sieved.searcher().unwrap().all());
    assert_eq!(Ok(rows.len() as u128), sieved.tallied());
    assert_eq!((listed.front(), listed.back()), (sieved.front(), sieved.back()));
}
