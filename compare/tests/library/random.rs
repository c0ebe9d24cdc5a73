//! Patterns and texts at random, within the limits and past them, and lines at random.

use compare::brute::{Brute, Row, Searcher};
use compare::cases::lines::any_lines;
use compare::cases::orders::disorder;
use compare::cases::random::{add_garbage, any_cursors, any_marks, any_pattern, any_text, break_pattern, Kind};
use compare::cases::sentences::without_stops;
use compare::layout::Pattern;
use compare::rng::Rng;

use crate::both::{pattern_of, with_slot, Both};
use crate::file_calls::lines;
use crate::run::Run;

/// The most occurrences that are written out one by one; beyond, they are sieved.
const WRITTEN_OUT: u128 = 2_000;

/// The most rows of the front list that are looked at one by one.
const ROWS: usize = 12;

/// Of so many patterns within the other limits, one has words that do not rise.
const UNSORTED: usize = 40;

/// What the random patterns are like: narrow, wide, and with many slots.
const KINDS: [Kind; 4] = [
    Kind { slots: (1, 5), highest_word: 3, most_words: 2, widest_gap: 4 },
    Kind { slots: (2, 8), highest_word: 6, most_words: 8, widest_gap: 9 },
    Kind { slots: (6, 16), highest_word: 2, most_words: 3, widest_gap: 3 },
    Kind { slots: (1, 16), highest_word: 9, most_words: 8, widest_gap: 63 },
];

/// What the patterns for longer texts are like.
const WIDE: Kind = Kind { slots: (2, 16), highest_word: 4, most_words: 2, widest_gap: 63 };

/// Compares random patterns, texts and files.
pub fn run(run: &mut Run) {
    let mut rng = Rng::new(22);
    for round in 0..6_000 {
        let kind = &KINDS[round % KINDS.len()];
        let mut pattern = any_pattern(&mut rng, kind);
        if rng.once_in(UNSORTED) {
            let slot = rng.within(0, pattern.count - 1);
            disorder(&mut rng, &mut pattern.slots[slot]);
        }
        let length = rng.within(0, 60);
        let text = any_text(&mut rng, length, kind.highest_word);
        compare(run, &mut rng, &pattern, &text);
    }
    for _ in 0..80 {
        let pattern = any_pattern(&mut rng, &WIDE);
        let text = any_text(&mut rng, 300, WIDE.highest_word);
        compare_by(Both::new(run, Brute::windowed(&pattern, &text)), &mut rng);
    }
    for round in 0..6_000 {
        let mut pattern = any_pattern(&mut rng, &KINDS[round % KINDS.len()]);
        for _ in 0..rng.within(1, 3) {
            break_pattern(&mut rng, &mut pattern);
        }
        let text = any_text(&mut rng, 9, 3);
        compare(run, &mut rng, &pattern, &text);
    }
    for _ in 0..20_000 {
        added_slot(run, &mut rng);
    }
    for bytes in 0..3_000 {
        run.input();
        lines(run, &any_lines(&mut rng, bytes % 700));
    }
}

/// Compares every call on a pattern and a text, by the method that fits their number of occurrences.
fn compare(run: &mut Run, rng: &mut Rng, pattern: &Pattern, text: &[u16]) {
    let sieved = Brute::windowed(pattern, text);
    if sieved.tallied().is_ok_and(|tally| tally > WRITTEN_OUT) {
        compare_by(Both::new(run, sieved), rng);
    } else {
        compare_by(Both::new(run, Brute::enumerated(pattern, text)), rng);
    }
}

/// Compares every call on a pattern and a text, from some marks.
fn compare_by(mut both: Both<impl Searcher>, rng: &mut Rng) {
    let length = both.brute.text.len();
    let slots = both.brute.pattern.count.min(20);
    for _ in 0..4 {
        let marks = any_marks(rng, slots, length);
        both.searches(&marks);
        both.row(&marks);
    }
    let rows = both.brute.front().map_or(Vec::new(), <[_]>::to_vec);
    for row in rows.iter().take(ROWS).chain(&across_stops(&both)) {
        both.row(row);
        both.searches(row);
    }
    let places = rng.pick(&[slots, slots + 1, slots.saturating_sub(1)]);
    let marks = any_marks(rng, places, length);
    let client = rng.within(0, 5);
    let cursors = any_cursors(rng, length);
    both.every_call(&marks, &cursors, client);
}

/// Some rows that are occurrences but for the 0, if the text has any.
fn across_stops(both: &Both<impl Searcher>) -> Vec<Row> {
    let (pattern, text) = (both.brute.pattern, both.brute.text);
    if both.brute.searcher().is_err() || !text.contains(&0) {
        return Vec::new();
    }
    let whole = without_stops(pattern, text);
    let rows = Brute::windowed(pattern, &whole).front().expect("the pattern is accepted").to_vec();
    rows.into_iter().take(ROWS).collect()
}

/// Compares adding a slot to a pattern of any state, and a new pattern with any span limits.
fn added_slot(run: &mut Run, rng: &mut Rng) {
    let mut pattern = any_pattern(rng, &KINDS[3]);
    pattern.count = rng.pick(&[0, 1, 2, 14, 15, 16, 17, 65_535, 1 << 32, usize::MAX]);
    add_garbage(rng, &mut pattern);
    let words: Vec<u16> = (0..rng.within(0, 10)).map(|_| rng.word(0, 30)).collect();
    let (low, high) = rng.pick(&[(0, 0), (0, 63), (63, 63), (0, 64), (64, 64), (2, 1), (0, 1), (65_535, 0)]);
    run.input();
    with_slot(run, &pattern, low, high, &words);
    pattern_of(run, rng.word(0, 65_535), rng.word(0, 65_535));
}
