//! Rows by the conditions they fail: all rows of small patterns and texts, occurrences with one thing changed, and rows
//! that fail one condition alone, with that one lifted.

use compare::brute::{Brute, Condition, Searcher};
use compare::cases::placed::{any_occurrence, broken, lifted, Placed};
use compare::cases::random::Kind;
use compare::cases::small::{patterns, texts, tuples};
use compare::cases::Words::{But, Only};
use compare::cases::ANY_SPAN;
use compare::ffi;
use compare::layout::{Answer, Pattern};
use compare::rng::Rng;

use crate::both::Both;
use crate::call::Call;
use crate::run::Run;

/// Patterns, and the texts that each is tried in.
type Family = (Vec<Pattern>, Vec<Vec<u16>>);

/// Gaps that neighbours keep and that they break.
const GAPS: [(u16, u16); 4] = [(1, 2), (0, 0), (0, 3), (2, 2)];

/// Span limits that bind from above, from below, from both sides or not at all.
const SPANS: [(u16, u16); 6] = [ANY_SPAN, (2, 3), (4, 4), (3, 20_000), (1, 2), (5, 6)];

/// So many places past the text's end are tried.
const PAST: u16 = 2;

/// Places far past the end of a small text.
const FAR: [u16; 2] = [20_000, 65_535];

/// They are tried in one of so many texts.
const FAR_ONCE_IN: usize = 20;

/// What the patterns are like whose occurrences are changed: short, wide, with many words, and with many slots.
const KINDS: [Kind; 4] = [
    Kind { slots: (1, 4), highest_word: 3, most_words: 2, widest_gap: 4 },
    Kind { slots: (2, 5), highest_word: 9, most_words: 3, widest_gap: 63 },
    Kind { slots: (2, 9), highest_word: 9, most_words: 8, widest_gap: 6 },
    Kind { slots: (9, 16), highest_word: 4, most_words: 3, widest_gap: 9 },
];

/// Compares all rows of small patterns and texts, and occurrences with one thing changed.
pub fn run(run: &mut Run) {
    let mut rng = Rng::new(141);
    for (patterns, texts) in families() {
        for pattern in &patterns {
            for text in &texts {
                every_row(run, &mut rng, pattern, text);
            }
        }
    }
    for round in 0..2_000 {
        one_changed(run, &mut rng, &KINDS[round % KINDS.len()]);
    }
}

/// Small patterns of one to three slots, plain, excluding and mixed, with texts cut in every way.
fn families() -> Vec<Family> {
    let one = [Only(&[1]), Only(&[1, 2]), But(&[]), But(&[1]), But(&[1, 2])];
    let (plain, excluding, mixed) = ([Only(&[1]), Only(&[2])], [But(&[]), But(&[1])], [Only(&[1]), But(&[1])]);
    let steps = [(0, 1), (1, 2)];
    vec![
        (patterns(1, &one, &[], &SPANS), texts(&[0, 1, 2], 4)),
        (patterns(2, &plain, &GAPS, &SPANS), texts(&[0, 1, 2], 4)),
        (patterns(2, &excluding, &GAPS, &SPANS), texts(&[0, 1, 2], 4)),
        (patterns(2, &mixed, &GAPS, &SPANS), texts(&[0, 1, 2], 5)),
        (patterns(2, &plain[..1], &GAPS, &SPANS), texts(&[0, 1], 7)),
        (patterns(3, &plain[..1], &steps, &SPANS), texts(&[0, 1], 6)),
        (patterns(3, &excluding[..1], &steps, &[(4, 5)]), texts(&[0, 1], 6)),
        (patterns(3, &mixed, &steps, &[(4, 5)]), texts(&[0, 1, 2], 4)),
        (patterns(3, &mixed, &GAPS[2..3], &SPANS[..3]), texts(&[0, 1, 2], 4)),
    ]
}

/// Compares every row of a small text, its places in any order, from 0 to past the end.
fn every_row(run: &mut Run, rng: &mut Rng, pattern: &Pattern, text: &[u16]) {
    let mut both = Both::new(run, Brute::enumerated(pattern, text));
    let mut places: Vec<u16> = (0..=text.len() as u16 + PAST).collect();
    if rng.once_in(FAR_ONCE_IN) {
        places.extend(FAR);
    }
    for row in tuples(&places, pattern.count) {
        compare(&mut both, &row);
    }
}

/// Compares an occurrence at random, and the same with one thing changed so that it fails one condition alone, each of
/// the four in turn where that can be.
fn one_changed(run: &mut Run, rng: &mut Rng, kind: &Kind) {
    let occurrence = any_occurrence(rng, kind);
    fails(run, &occurrence, [false; 4]);
    for condition in Condition::ALL {
        if let Some(changed) = broken(rng, condition, &occurrence) {
            fails(run, &changed, condition.alone());
        }
    }
}

/// Compares a row that must fail these conditions.
fn fails(run: &mut Run, placed: &Placed, failed: [bool; 4]) {
    let mut both = Both::new(run, Brute::windowed(&placed.pattern, &placed.text));
    assert_eq!(both.brute.failed(&placed.row), Ok(failed), "{placed:?}");
    compare(&mut both, &placed.row);
}

/// Compares a row of an accepted pattern and text, counts it by the conditions it fails, and lifts one that is alone.
fn compare(both: &mut Both<impl Searcher>, row: &[u16]) {
    both.row(row);
    let failed = both.brute.failed(row).expect("the pattern, the text and the row's length are accepted");
    both.run.failures.row(failed);
    if let Some(condition) = Condition::ALL.into_iter().find(|condition| failed == condition.alone()) {
        lift(both, row, condition);
    }
}

/// Holds the library to a yes for a row that fails this condition alone, once it is lifted.
fn lift(both: &mut Both<impl Searcher>, row: &[u16], condition: Condition) {
    let placed = Placed { pattern: *both.brute.pattern, text: both.brute.text.to_vec(), row: row.to_vec() };
    let Some(lifted) = lifted(condition, placed) else { return };
    let library = ffi::is_occurrence(&lifted.pattern, &lifted.text, &lifted.row);
    let yes = Answer { number: 0, place: 0, value: 1 };
    let case = || format!("is_occurrence, a row that fails the {} alone, with it lifted\n{lifted:?}", condition.name());
    both.run.agree(&library, &yes, case);
    both.run.call(Call::IsOccurrence, library.number);
    both.run.failures.lifted(condition);
}
