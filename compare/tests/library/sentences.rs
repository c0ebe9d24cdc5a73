//! Texts cut by sentence ends: a 0 at every place, rows across sentence ends, and two texts with a 0 between them.

use compare::brute::{Brute, Row, Searcher};
use compare::cases::dense::{any_dense_pattern, any_dense_text};
use compare::cases::inputs::sevens;
use compare::cases::random::{any_pattern, any_text, text_with_stops, Kind, STOPS};
use compare::cases::sentences::{cut_at, joined, without_stops};
use compare::cases::Words::{But, Only};
use compare::cases::{pattern, ANY_SPAN};
use compare::layout::{Cursors, Pattern};
use compare::rng::Rng;

use crate::alone::{added, listed, number, LISTS, NUMBERS};
use crate::both::Both;
use crate::call::Call;
use crate::column;
use crate::run::Run;

/// What the patterns are like: short, of medium reach, and with more slots.
const KINDS: [Kind; 3] = [
    Kind { slots: (1, 4), highest_word: 2, most_words: 2, widest_gap: 4 },
    Kind { slots: (2, 6), highest_word: 3, most_words: 3, widest_gap: 9 },
    Kind { slots: (5, 12), highest_word: 2, most_words: 2, widest_gap: 2 },
];

/// What the patterns are like whose tallies pass 64 bits now and then.
const DENSE: Kind = Kind { slots: (12, 16), highest_word: 1, most_words: 1, widest_gap: 63 };

/// The most rows tried for one pattern and text.
const ROWS: usize = 60;

/// The most occurrences that are listed for two texts.
const LISTED: u128 = 5_000;

/// Compares texts cut by sentence ends.
pub fn run(run: &mut Run) {
    let mut rng = Rng::new(99);
    one_or_two(run);
    for round in 0..3_000 {
        let kind = &KINDS[round % KINDS.len()];
        let pattern = any_pattern(&mut rng, kind);
        let (words, others) = (rng.within(0, 30), rng.within(0, 30));
        let text = text_with_stops(&mut rng, words, kind.highest_word, STOPS[round % STOPS.len()]);
        across(run, &pattern, &text, &rows(&pattern, &without_stops(&pattern, &text)));
        two_texts(run, &pattern, &text, &any_text(&mut rng, others, kind.highest_word));
    }
    for _ in 0..80 {
        let pattern = any_pattern(&mut rng, &DENSE);
        let lengths = [rng.within(0, 900), rng.within(0, 900)];
        let stops = rng.pick(&[Some(300), None]);
        let [text, other] = lengths.map(|words| text_with_stops(&mut rng, words, DENSE.highest_word, stops));
        two_texts(run, &pattern, &text, &other);
    }
    for _ in 0..40 {
        let (pattern, lengths) = (any_dense_pattern(&mut rng), [rng.within(100, 400), rng.within(100, 400)]);
        let [text, other] = lengths.map(|words| any_dense_text(&mut rng, words));
        two_texts(run, &pattern, &text, &other);
    }
    for kind in &KINDS {
        let pattern = any_pattern(&mut rng, kind);
        let [many, none] = [Some(20), None].map(|stops| text_with_stops(&mut rng, 9_999, kind.highest_word, stops));
        two_texts(run, &pattern, &many, &none);
        two_texts(run, &pattern, &none, &none);
    }
}

/// Compares texts with a 0 at every place, and at every two places, for rows that are narrow, wide, of many slots, and of
/// excluding slots.
fn one_or_two(run: &mut Run) {
    let wide = pattern(ANY_SPAN, &[(0, 0, Only(&[1])), (0, 63, Only(&[2])), (63, 63, Only(&[3]))]);
    at_every_place(run, &wide, &[&[9, 1], &[9; 63][..], &[2], &[9; 63], &[3, 9]].concat());
    let steps = pattern(ANY_SPAN, &[(0, 0, Only(&[1])), (3, 3, Only(&[2])), (0, 4, Only(&[1, 2])), (2, 5, Only(&[3]))]);
    at_every_place(run, &steps, &[9, 1, 9, 9, 9, 2, 9, 1, 2, 9, 9, 3, 3, 9]);
    let but = pattern(ANY_SPAN, &[(0, 0, But(&[9])), (3, 3, But(&[1, 3])), (0, 4, But(&[])), (2, 5, Only(&[3]))]);
    at_every_place(run, &but, &[9, 1, 9, 9, 9, 2, 9, 1, 2, 9, 9, 3, 3, 9]);
    at_every_place(run, &pattern(ANY_SPAN, &[(0, 0, But(&[]))]), &[1, 2, 3, 9, 65_535]);
    at_every_place(run, &pattern(ANY_SPAN, &sevens(1, 0, 0)), &[7; 9]);
    at_every_place(run, &pattern((4, 6), &sevens(3, 0, 3)), &[7; 12]);
    at_every_place(run, &pattern(ANY_SPAN, &sevens(16, 0, 1)), &[7; 19]);
    let three = pattern(ANY_SPAN, &sevens(3, 0, 2));
    let (text, rows) = (vec![7; 11], rows(&three, &[7; 11]));
    for (one, other) in (1..=11).flat_map(|one| (1..one).map(move |other| (one, other))) {
        across(run, &three, &cut_at(&[one, other], text.clone()), &rows);
    }
}

/// Compares a text with a 0 at every place in turn, with the rows that it has without it.
fn at_every_place(run: &mut Run, pattern: &Pattern, text: &[u16]) {
    let rows = rows(pattern, text);
    for place in 1..=text.len() {
        across(run, pattern, &cut_at(&[place], text.to_vec()), &rows);
    }
}

/// The occurrences of an accepted pattern, or some of them if there are many.
fn rows(pattern: &Pattern, text: &[u16]) -> Vec<Row> {
    let all = Brute::enumerated(pattern, text).searcher().expect("the pattern is accepted").all();
    all.iter().step_by(all.len() / ROWS + 1).cloned().collect()
}

/// Compares every call on a text, and these rows, of which some are occurrences but for a 0, also as marks.
fn across(run: &mut Run, pattern: &Pattern, text: &[u16], rows: &[Row]) {
    let mut both = Both::new(run, Brute::enumerated(pattern, text));
    for row in rows {
        both.row(row);
        both.searches(row);
    }
    both.every_call(&vec![0; pattern.count], &Cursors::default(), 2);
}

/// Compares the library's answers for two texts with a 0 between them with its answers for each: numbers add up, and
/// the second text's column and rows follow on the first's.
fn two_texts(run: &mut Run, pattern: &Pattern, text: &[u16], other: &[u16]) {
    let whole = joined(text, other);
    let case = |call: Call| format!("{call}\npattern: {pattern:?}\ntexts with a 0 between: {text:?} {other:?}");
    run.input();
    let mut sums = [0, 0];
    for (sum, (call, answer)) in sums.iter_mut().zip(NUMBERS) {
        let library = answer(pattern, &whole);
        run.agree(&library, &added(answer(pattern, text), answer(pattern, other)), || case(call));
        run.call(call, library.number);
        *sum = number(library);
    }
    column::follow_on(run, pattern, text, other);
    for (call, list) in LISTS {
        let rows = if call == Call::All { sums[1] } else { sums[0] };
        if rows <= LISTED {
            let listed = |text: &[u16]| listed(list, pattern, text, rows as usize * pattern.count);
            let moved = listed(other).iter().map(|place| place + text.len() as u16 + 1).collect();
            run.agree(&listed(&whole), &[listed(text), moved].concat(), || case(call));
            run.call(call, 0);
        }
    }
}
