//! Columns, how many occurrences start at each place: those written down by hand, one occurrence at every place,
//! formulas, small texts, and the library's columns held to its own tallies and full lists.

use compare::brute::Brute;
use compare::cases::columns::{chosen_sevens, phrases, two_sevens, COLUMNS};
use compare::cases::random::{any_pattern, any_text, Kind};
use compare::cases::sentences::{cut_every, joined};
use compare::cases::small::{patterns, texts};
use compare::cases::Words::{But, Only};
use compare::cases::{pattern, ANY_SPAN};
use compare::ffi;
use compare::halves::sum;
use compare::layout::Pattern;
use compare::rng::Rng;

use crate::alone::{added, column, listed, number};
use crate::both::Both;
use crate::call::Call;
use crate::column_lengths;
use crate::column_totals;
use crate::run::Run;

/// The longest text.
pub const WORDS: usize = 20_000;

/// What the patterns at random are like: short, of medium reach, and with more slots.
const KINDS: [Kind; 3] = [
    Kind { slots: (1, 4), highest_word: 3, most_words: 2, widest_gap: 4 },
    Kind { slots: (2, 6), highest_word: 4, most_words: 3, widest_gap: 20 },
    Kind { slots: (5, 16), highest_word: 2, most_words: 2, widest_gap: 2 },
];

/// The most occurrences of a text that are written out.
const WRITTEN_OUT: u128 = 20_000;

/// The most occurrences that the library's own column is held to one by one.
const LISTED: u128 = 500;

/// The fewest rows of texts at random that the columns must be held to.
const FEWEST: usize = 20_000;

/// Compares columns.
pub fn run(run: &mut Run) {
    for (span, slots, text, column) in COLUMNS {
        stated(run, &pattern(span, slots), text, column);
    }
    one_occurrence(run);
    formulas(run);
    small_texts(run);
    any_texts(run);
    column_lengths::run(run);
    column_totals::run(run);
}

/// Compares a column that is stated, with lists of every interesting length lent.
pub fn stated(run: &mut Run, pattern: &Pattern, text: &[u16], column: &[u128]) {
    Both::new(run, Brute::windowed(pattern, text)).column();
    agree(run, pattern, text, column);
}

/// Holds the library to this column.
fn agree(run: &mut Run, pattern: &Pattern, text: &[u16], expected: &[u128]) {
    let library = &column(pattern, text)[..];
    run.agree(&library, &expected, || format!("{}\npattern: {pattern:?}\ntext: {text:?}", Call::Starts));
    run.call(Call::Starts, 0);
}

/// Compares texts with one occurrence, at every place of short ones, the first and the last among them, and at some of
/// the longest one; other words or sentence ends stand around it.
fn one_occurrence(run: &mut Run) {
    for (pattern, phrase) in phrases() {
        for (before, after) in (0..=9).flat_map(|before| (0..=9).map(move |after| (before, after))) {
            once(run, &pattern, &phrase, before, before + after);
        }
        let others = WORDS - phrase.len();
        for before in [0, 1, 63, 64, 255, 256, 4_096, 9_999, 16_383, 16_384, others - 1, others] {
            once(run, &pattern, &phrase, before, others);
        }
    }
}

/// Compares a text with one occurrence after so many of its other words.
fn once(run: &mut Run, pattern: &Pattern, phrase: &[u16], before: usize, others: usize) {
    let mut column = vec![0; phrase.len() + others];
    column[before] = 1;
    for other in [9, 0] {
        let text = [&vec![other; before], phrase, &vec![other; others - before]].concat();
        stated(run, pattern, &text, &column);
    }
}

/// Compares two sevens in sentences of sevens, short and long, and all choices of some of up to 65 sevens.
fn formulas(run: &mut Run) {
    for every in [2, 3, 20, 64, 66, 962, WORDS, WORDS + 1] {
        for words in [every - 1, 130, WORDS].into_iter().filter(|&words| words <= WORDS) {
            let text = cut_every(every, vec![7; words]);
            for (low, high) in [(0, 0), (0, 63), (5, 9), (63, 63)] {
                let (pattern, column) = two_sevens(low, high, &text);
                stated(run, &pattern, &text, &column);
            }
        }
    }
    for (slots, words) in (1..=16).flat_map(|slots| [1, 5, 16, 17, 40, 64, 65].map(|words| (slots, words))) {
        let (pattern, column) = chosen_sevens(slots, words);
        stated(run, &pattern, &vec![7; words], &column);
    }
}

/// Compares all small texts of some small patterns with the occurrences written out, and with the library's own answers.
fn small_texts(run: &mut Run) {
    let (mixed, spans) = ([Only(&[1]), But(&[1]), But(&[])], [ANY_SPAN, (3, 4)]);
    let families = [
        (patterns(1, &mixed, &[], &spans), texts(&[0, 1, 2], 5)),
        (patterns(2, &mixed[..2], &[(0, 1), (1, 3)], &spans), texts(&[0, 1, 2], 5)),
        (patterns(3, &mixed[..2], &[(0, 2)], &spans), texts(&[0, 1, 2], 4)),
        (patterns(4, &mixed[2..], &[(0, 2)], &[ANY_SPAN, (5, 6)]), texts(&[0, 1], 8)),
    ];
    for (patterns, texts) in families {
        for (pattern, text) in patterns.iter().flat_map(|pattern| texts.iter().map(move |text| (pattern, text))) {
            Both::new(run, Brute::enumerated(pattern, text)).column();
            own(run, pattern, text);
        }
    }
}

/// Compares patterns and texts at random with the occurrences written out, if they are not too many, with the library's
/// own answers, and two texts with a 0 between them.
fn any_texts(run: &mut Run) {
    let mut rng = Rng::new(161);
    let mut rows = 0;
    for round in 0..3_000 {
        let kind = &KINDS[round % KINDS.len()];
        let (pattern, lengths) = (any_pattern(&mut rng, kind), [rng.within(0, 60), rng.within(0, 20)]);
        let [text, other] = lengths.map(|length| any_text(&mut rng, length, kind.highest_word));
        let sieved = Brute::windowed(&pattern, &text);
        match sieved.tallied() {
            Ok(0..=WRITTEN_OUT) => Both::new(run, Brute::enumerated(&pattern, &text)).column(),
            _ => Both::new(run, sieved).column(),
        }
        rows += own(run, &pattern, &text);
        two_texts(run, &pattern, &text, &other);
    }
    assert!(rows >= FEWEST, "columns are held to {rows} rows");
}

/// Holds the library's column to its own tally, that it is the sum, and where there are few occurrences, to its own full
/// list, in which as many rows start at each place: how many rows.
pub fn own(run: &mut Run, pattern: &Pattern, text: &[u16]) -> usize {
    let case = || format!("{} and its sum or rows\npattern: {pattern:?}\ntext: {text:?}", Call::Starts);
    let (column, tally) = (column(pattern, text), number(ffi::tally(pattern, text)));
    run.agree(&sum(&column), &tally, case);
    run.call(Call::Starts, 0);
    if tally > LISTED {
        return 0;
    }
    let rows = listed(ffi::all, pattern, text, tally as usize * pattern.count);
    let mut begun = vec![0; text.len()];
    rows.chunks(pattern.count).for_each(|row| begun[row[0] as usize - 1] += 1);
    run.agree(&column, &begun, case);
    tally as usize
}

/// Begins an input of two texts, and holds the library's column and tally for both with a 0 between them to those for
/// each: whether the low halves of the tallies carry.
pub fn two_texts(run: &mut Run, pattern: &Pattern, text: &[u16], other: &[u16]) -> bool {
    run.input();
    follow_on(run, pattern, text, other);
    let [one, two, both] = [text, other, &joined(text, other)].map(|text| ffi::tally(pattern, text));
    let case = || format!("{}\npattern: {pattern:?}\ntexts with a 0 between: {text:?} {other:?}", Call::Tally);
    run.agree(&both, &added(one, two), case);
    run.call(Call::Tally, both.number);
    one.low.checked_add(two.low).is_none()
}

/// Holds the library's column for two texts with a 0 between them to its columns for each: the first's, a 0, the second's.
pub fn follow_on(run: &mut Run, pattern: &Pattern, text: &[u16], other: &[u16]) {
    let expected = [column(pattern, text), vec![0], column(pattern, other)].concat();
    agree(run, pattern, &joined(text, other), &expected);
}
