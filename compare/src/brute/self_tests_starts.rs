//! Columns in the brute force, how many occurrences start at each place: those written down by hand, formulas, its methods
//! against each other, and the order of the refusals.

use super::rows::grouped;
use super::*;
use crate::cases::columns::{chosen_sevens, gapped_sevens, phrases, two_sevens, COLUMNS};
use crate::cases::inputs::sevens;
use crate::cases::orders::canonical;
use crate::cases::random::{any_pattern, any_text, Kind};
use crate::cases::sentences::{cut_every, joined};
use crate::cases::small::{patterns, texts, tuples};
use crate::cases::worked::worked_texts;
use crate::cases::Words::{But, Only};
use crate::cases::{pattern, ANY_SPAN};
use crate::halves::halved;
use crate::layout::{Answer, Pattern};
use crate::rng::Rng;

/// What the brute force writes to a list of so many entries, filled with the numbers from 1, and what it answers.
fn starts_in(brute: &Brute<impl Searcher>, room: usize) -> (Answer, Vec<u64>) {
    let mut list: Vec<u64> = (1..=room as u64).collect();
    (brute.starts(&mut list), list)
}

/// The answer that so many words are written.
fn words(value: usize) -> Answer {
    Answer { number: 0, place: 0, value: value as u64 }
}

/// Asserts that this column is written, by both methods, also at the start of a longer list, and not of a shorter one.
fn assert_column(pattern: &Pattern, text: &[u16], column: &[u128]) {
    assert_column_by(&Brute::enumerated(pattern, text), column);
    assert_column_by(&Brute::windowed(pattern, text), column);
}

/// Asserts the same for one method.
pub fn assert_column_by(brute: &Brute<impl Searcher>, column: &[u128]) {
    let entries = halved(column);
    let length = entries.len();
    let longer = [&entries[..], &[length as u64 + 1, length as u64 + 2]].concat();
    for (room, list) in [(length, entries), (length + 2, longer)] {
        assert_eq!(starts_in(brute, room), (words(column.len()), list), "{:?} {:?}", brute.pattern, brute.text);
    }
    for room in 0..length {
        let unchanged = (1..=room as u64).collect();
        assert_eq!(starts_in(brute, room), (Answer { number: 8, place: 0, value: 0 }, unchanged));
    }
}

/// Two numbers for each word, the high half first, the entries after them as they were.
#[test]
fn laid_out() {
    let pattern = pattern(ANY_SPAN, &sevens(2, 0, 63));
    let written = starts_in(&Brute::windowed(&pattern, &[7, 7, 8, 7]), 10);
    assert_eq!(written, (words(4), vec![0, 2, 0, 1, 0, 0, 0, 0, 9, 10]));
    let short = starts_in(&Brute::windowed(&pattern, &[7, 7, 8, 7]), 7);
    assert_eq!(short, (Answer { number: 8, place: 0, value: 0 }, vec![1, 2, 3, 4, 5, 6, 7]));
}

/// The columns found by hand, and the rows that are named for the worked texts.
#[test]
fn by_hand() {
    for (span, slots, text, column) in COLUMNS {
        assert_column(&pattern(span, slots), text, column);
    }
    for case in worked_texts() {
        if let Some(rows) = case.all {
            let begin = |place: usize| rows.iter().filter(|row| row[0] as usize == place).count() as u128;
            let column: Vec<u128> = (1..=case.text.len()).map(begin).collect();
            assert_column(&canonical(&pattern(case.span, case.slots)), case.text, &column);
        }
    }
}

/// One occurrence, at the first word, at the last and between, with other words or sentence ends around it.
#[test]
fn one_occurrence() {
    for (pattern, phrase) in phrases() {
        for (before, after, other) in [(0, 0, 9), (0, 3, 9), (3, 0, 9), (4, 5, 9), (1, 1, 0), (3, 0, 0)] {
            let text = [vec![other; before], phrase.clone(), vec![other; after]].concat();
            let mut column = vec![0; text.len()];
            column[before] = 1;
            assert_column(&pattern, &text, &column);
        }
    }
}

/// Columns by formulas: two sevens in sentences of sevens, all choices of some of them, and those with gaps up to a limit.
#[test]
fn by_formulas() {
    for every in [2, 3, 5, 12, 99] {
        let text = cut_every(every, vec![7; 23]);
        for (low, high) in [(0, 0), (0, 1), (2, 5), (0, 63), (11, 12), (63, 63)] {
            let (pattern, column) = two_sevens(low, high, &text);
            assert_column(&pattern, &text, &column);
        }
    }
    for (slots, words) in [(1, 1), (1, 9), (2, 9), (3, 9), (5, 12), (9, 9), (16, 18), (3, 2)] {
        let (pattern, column) = chosen_sevens(slots, words);
        assert_column(&pattern, &vec![7; words], &column);
        assert_eq!(gapped_sevens(slots, 63, words), (pattern, column));
    }
    for (slots, high, words) in [(2, 0, 9), (2, 3, 9), (3, 0, 1), (3, 2, 12), (4, 1, 9), (6, 1, 12), (16, 0, 18)] {
        let (pattern, column) = gapped_sevens(slots, high, words);
        assert_column(&pattern, &vec![7; words], &column);
    }
    let (pattern, column) = chosen_sevens(16, 65);
    assert_column_by(&Brute::windowed(&pattern, &[7; 65]), &column);
    assert_eq!((column[0], column[48..60].to_vec()), (159_518_999_862_720, [vec![16, 1], vec![0; 10]].concat()));
}

/// Both methods count, for each place, the rows that start there and pass the test.
#[test]
fn all_rows_that_pass() {
    let (sets, spans) = ([Only(&[1]), Only(&[1, 2]), But(&[1])], [ANY_SPAN, (3, 4), (4, 5)]);
    for pattern in patterns(3, &sets, &[(0, 1), (0, 3), (1, 2)], &spans) {
        for text in texts(&[0, 1, 2], 4).iter().step_by(3) {
            let mut rows = tuples(&(0..=text.len() as u16 + 1).collect::<Vec<_>>(), 3);
            rows.retain(|row| is_occurrence(&pattern, text, row));
            assert_column(&pattern, text, &grouped(&rows, text.len()));
        }
    }
}

/// The sums agree with the rows written out one by one and with those of the sieves, and add up to the tally.
#[test]
fn sums_agree_with_lists() {
    let mut rng = Rng::new(5);
    let mut begun = 0;
    for round in 0..2_000 {
        let kind = Kind { slots: (1, 6), highest_word: 4, most_words: 2, widest_gap: 1 + round % 4 };
        let pattern = any_pattern(&mut rng, &kind);
        let length = rng.within(0, 40);
        let text = any_text(&mut rng, length, 4);
        let (listed, sieved) = (Brute::enumerated(&pattern, &text), Brute::windowed(&pattern, &text));
        let column = listed.searcher().unwrap().starts();
        assert_eq!(sieved.searcher().unwrap().starts(), column);
        assert_eq!(grouped(&sieved.searcher().unwrap().all(), length), column);
        assert_eq!((Ok(column.iter().sum()), column.len()), (listed.tallied(), length));
        begun += column.iter().filter(|&&entry| entry > 0).count();
    }
    assert!(begun > 5_000, "occurrences start at {begun} places");
}

/// The column of two texts with a 0 between them: the first's, a 0, the second's.
#[test]
fn two_texts() {
    let mut rng = Rng::new(6);
    let kind = Kind { slots: (1, 4), highest_word: 3, most_words: 2, widest_gap: 9 };
    for _ in 0..500 {
        let (pattern, lengths) = (any_pattern(&mut rng, &kind), [rng.within(0, 20), rng.within(0, 20)]);
        let [text, other] = lengths.map(|length| any_text(&mut rng, length, 3));
        let column = |text: &[u16]| Brute::enumerated(&pattern, text).searcher().unwrap().starts();
        assert_eq!(column(&joined(&text, &other)), [column(&text), vec![0], column(&other)].concat());
    }
}

/// The pattern's tests come first, 16 the last of them, then 6 and 8; a tally past 64 bits is answered.
#[test]
fn order_of_refusals() {
    let wide = pattern(ANY_SPAN, &sevens(16, 0, 63));
    let mut unsorted = wide;
    (unsorted.slots[4].words[1], unsorted.slots[4].count) = (7, 2);
    let spanless = Pattern { least: 0, ..unsorted };
    let tested = |pattern: &Pattern, words: usize, room: usize| {
        let (answer, list) = starts_in(&Brute::windowed(pattern, &vec![7; words]), room);
        assert_eq!((answer.value, list), (0, (1..=room as u64).collect()));
        (answer.number, answer.place)
    };
    let too_long = [(&spanless, (5, 0)), (&unsorted, (16, 5)), (&wide, (6, 0))];
    for (pattern, refusal) in too_long {
        assert_eq!([0, 20_001, 40_000, 40_002, 40_003].map(|room| tested(pattern, 20_001, room)), [refusal; 5]);
    }
    assert_eq!([0, 199, 200, 201, 399].map(|room| tested(&wide, 200, room)), [(8, 0); 5]);
    assert_column_by(&Brute::windowed(&wide, &[7; 200]), &gapped_sevens(16, 63, 200).1);
    assert_eq!(tested(&unsorted, 200, 199), (16, 5));
    assert_eq!(tested(&pattern_of(1, 20_000), 200, 0), (1, 0));
    assert_eq!(tested(&pattern_of(1, 20_000), 0, 0), (1, 0));
}
