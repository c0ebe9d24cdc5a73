//! Rows of two patterns and of the two merged, as the library itself answers for each.

use std::collections::BTreeSet;

use compare::brute::Row;
use compare::cases::merged::{any_pair, sharing_row};
use compare::cases::placed::any_occurrence;
use compare::cases::random::{any_text, Kind};
use compare::cases::small::{patterns, texts, tuples};
use compare::cases::Words::{But, Only};
use compare::cases::ANY_SPAN;
use compare::ffi;
use compare::layout::{Answer, Made, Pattern};
use compare::rng::Rng;

use crate::call::Call;
use crate::merged::compare;
use crate::run::Run;

/// What the pairs at random are like: short, of medium reach, and with more slots.
const KINDS: [Kind; 3] = [
    Kind { slots: (1, 3), highest_word: 4, most_words: 3, widest_gap: 4 },
    Kind { slots: (2, 6), highest_word: 3, most_words: 3, widest_gap: 3 },
    Kind { slots: (5, 16), highest_word: 2, most_words: 2, widest_gap: 1 },
];

/// The most occurrences that are listed.
const LISTED: usize = 500;

/// The most rows of a list that are asked about one by one.
const ROWS: usize = 20;

/// The fewest rows of texts at random that must be occurrences of both patterns.
const FEWEST: usize = 10_000;

/// Compares the rows of merged patterns with those of both.
pub fn run(run: &mut Run) {
    small_texts(run);
    any_texts(run);
}

/// Compares every row of small texts, for each of some small patterns merged with each.
fn small_texts(run: &mut Run) {
    let sets = [But(&[1]), Only(&[1, 2]), But(&[]), Only(&[1]), But(&[2]), Only(&[2, 3])];
    let families = [
        (patterns(1, &sets, &[], &[ANY_SPAN]), texts(&[0, 1, 2, 3], 4)),
        (patterns(2, &sets[..4], &[(0, 2)], &[ANY_SPAN]), texts(&[0, 1, 2], 4)),
        (patterns(2, &sets[..2], &[(0, 1), (1, 2)], &[(1, 3), (2, 20_000)]), texts(&[0, 1, 2], 4)),
        (patterns(2, &sets[2..3], &[(0, 1), (1, 1), (2, 2)], &[(1, 2), (2, 3), (3, 4)]), texts(&[0, 1], 5)),
        (patterns(3, &sets[1..3], &[(0, 1)], &[(1, 4), (4, 5)]), texts(&[0, 1], 4)),
    ];
    for (family, texts) in families {
        for (at, first) in family.iter().enumerate() {
            for second in &family[..at] {
                let merged = Merged { first, second, made: compare(run, first, second) };
                texts.iter().for_each(|text| every_row(run, &merged, text));
            }
        }
    }
}

/// Compares every row, from place 0 to past the text's end, and the full lists.
fn every_row(run: &mut Run, merged: &Merged, text: &[u16]) {
    run.input();
    merged.lists(run, text, merged.both_lists(text));
    let places: Vec<u16> = (0..=text.len() as u16 + 1).collect();
    for row in tuples(&places, merged.first.count) {
        merged.row(run, text, &row);
    }
}

/// Compares the rows of pairs at random in texts at random, and of pairs that have an occurrence at random in common.
fn any_texts(run: &mut Run) {
    let mut rng = Rng::new(152);
    let mut shared = 0;
    for round in 0..4_500 {
        let kind = &KINDS[round % KINDS.len()];
        let (pair, words) = (any_pair(&mut rng, kind), rng.within(0, 40));
        shared += some_rows(run, &pair, &any_text(&mut rng, words, kind.highest_word), None);
        let occurrence = any_occurrence(&mut rng, kind);
        let other = sharing_row(&mut rng, &occurrence, kind);
        shared += some_rows(run, &[occurrence.pattern, other], &occurrence.text, Some(occurrence.row));
    }
    assert!(shared >= FEWEST, "{shared} rows are occurrences of both patterns");
}

/// Compares the full lists of two patterns and of the two merged, some rows of each, and one more if there is one: how
/// many rows are in all lists.
fn some_rows(run: &mut Run, [first, second]: &[Pattern; 2], text: &[u16], one_more: Option<Row>) -> usize {
    let merged = Merged { first, second, made: compare(run, first, second) };
    let lists = merged.both_lists(text);
    for row in lists.iter().flatten().flat_map(|rows| rows.iter().take(ROWS)).chain(&one_more) {
        merged.row(run, text, row);
    }
    merged.lists(run, text, lists)
}

/// All occurrences as the library lists them, if they are not too many.
fn all(pattern: &Pattern, text: &[u16]) -> Option<Vec<Row>> {
    let mut entries = vec![0; LISTED * pattern.count];
    let answer = ffi::all(pattern, text, &mut entries);
    assert!([0, 8].contains(&answer.number), "all is refused with {}\npattern: {pattern:?}", answer.number);
    let rows = entries.chunks(pattern.count).take(answer.value as usize).map(<[u16]>::to_vec).collect();
    (answer.number == 0).then_some(rows)
}

/// Two accepted patterns, and what the library makes of them.
struct Merged<'a> {
    first: &'a Pattern,
    second: &'a Pattern,
    made: Made,
}

impl Merged<'_> {
    /// The call, the patterns and a text written out.
    fn case(&self, call: Call, text: &[u16]) -> String {
        format!("{call} of merged patterns\nfirst: {:?}\nsecond: {:?}\ntext: {text:?}", self.first, self.second)
    }

    /// Holds the library to saying that a row is an occurrence of the merged pattern exactly if it is one of both;
    /// there is none of both where merging is refused with 18.
    fn row(&self, run: &mut Run, text: &[u16], row: &[u16]) {
        let asked = |pattern: &Pattern| ffi::is_occurrence(pattern, text, row);
        let both = Answer { number: 0, place: 0, value: asked(self.first).value & asked(self.second).value };
        let merged = match self.made.number {
            0 => asked(&self.made.pattern),
            18 => Answer { number: 0, place: 0, value: 0 },
            _ => return,
        };
        run.agree(&merged, &both, || format!("{row:?}: {}", self.case(Call::IsOccurrence, text)));
        run.call(Call::IsOccurrence, merged.number);
    }

    /// The full lists of both patterns, if they are not too long.
    fn both_lists(&self, text: &[u16]) -> [Option<Vec<Row>>; 2] {
        [self.first, self.second].map(|pattern| all(pattern, text))
    }

    /// Holds the library to a full list of the merged pattern with just the rows in both full lists: how many. There
    /// are none where merging is refused with 18.
    fn lists(&self, run: &mut Run, text: &[u16], both: [Option<Vec<Row>>; 2]) -> usize {
        let [Some(mut rows), Some(others)] = both else { return 0 };
        let others = BTreeSet::from_iter(others);
        rows.retain(|row| others.contains(row));
        let merged = match self.made.number {
            0 => all(&self.made.pattern, text),
            18 => Some(Vec::new()),
            _ => return 0,
        };
        let shared = rows.len();
        run.agree(&merged, &Some(rows), || self.case(Call::All, text));
        run.call(Call::All, 0);
        shared
    }
}
