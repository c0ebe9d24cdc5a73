//! All small texts and patterns, all their largest nonoverlapping sets, and the lines of all small files.

use compare::brute::{largest_sets, largest_size, overlap, sorted_by_slot, Brute, Enumerated, Row};
use compare::cases::lines::small_files;
use compare::cases::sentences::without_stops;
use compare::cases::small::{patterns, texts, tuples};
use compare::cases::Words::{But, Only};
use compare::cases::ANY_SPAN;
use compare::layout::Pattern;
use compare::rng::Rng;

use crate::both::{check_pattern, write_pattern, Both};
use crate::file_calls::lines;
use crate::run::Run;

/// Gaps of every small shape.
const GAPS: [(u16, u16); 6] = [(0, 0), (0, 1), (1, 1), (0, 2), (1, 2), (2, 2)];

/// Span limits that bind in small texts, and some that do not.
const SPANS: [(u16, u16); 5] = [ANY_SPAN, (3, 4), (1, 3), (4, 4), (2, 20_000)];

/// The most rows tried one by one for a pattern and a text, and how many of more rows are tried.
const ROWS: (usize, usize) = (512, 128);

/// The same for marks.
const MARKS: (usize, usize) = (8, 8);

/// The most largest sets looked at for one pattern and text.
const SETS: usize = 300;

/// Compares all small texts, patterns and files.
pub fn run(run: &mut Run) {
    let mut rng = Rng::new(11);
    let sets = [Only(&[1]), Only(&[2]), Only(&[1, 2])];
    let apart = [Only(&[1]), Only(&[2]), Only(&[1, 3])];
    let but = [But(&[]), But(&[1]), But(&[1, 2])];
    let mixed = [Only(&[1]), But(&[1]), But(&[])];
    let wide = [(0, 1), (1, 2), (0, 2)];
    let families = [
        (patterns(1, &sets, &GAPS, &SPANS), texts(&[0, 1, 2], 5)),
        (patterns(2, &sets, &GAPS, &SPANS), texts(&[1, 2], 6)),
        (patterns(2, &sets, &wide[1..], &SPANS[..2]), texts(&[0, 1, 2], 5)),
        (patterns(2, &sets[2..], &[(0, 4), (1, 5)], &SPANS), texts(&[0, 1], 8)),
        (patterns(3, &sets, &wide, &SPANS[..2]), texts(&[1, 2], 5)),
        (patterns(3, &apart, &[(0, 2)], &SPANS[..1]), texts(&[1, 2, 3], 5)),
        (patterns(3, &apart[..2], &wide[2..], &SPANS[..2]), texts(&[0, 1, 2], 5)),
        (patterns(3, &sets[2..], &wide, &SPANS), texts(&[0, 1], 7)),
        (patterns(4, &sets[..1], &wide, &SPANS[..2]), texts(&[1, 2], 6)),
        (patterns(4, &sets[..1], &wide[2..], &SPANS[..2]), texts(&[0, 1, 2], 6)),
        (patterns(1, &but, &GAPS, &SPANS), texts(&[0, 1, 2, 3], 4)),
        (patterns(2, &but, &wide, &SPANS[..2]), texts(&[0, 1, 2, 3], 4)),
        (patterns(2, &mixed, &GAPS, &SPANS[..2]), texts(&[0, 1, 2], 5)),
        (patterns(3, &mixed, &wide[2..], &SPANS[..2]), texts(&[0, 1, 2], 5)),
        (patterns(3, &but[..2], &wide, &SPANS[..1]), texts(&[0, 1, 2], 5)),
        (patterns(4, &mixed[1..], &wide[2..], &SPANS[..1]), texts(&[0, 1, 2], 5)),
    ];
    for (patterns, texts) in families {
        for pattern in &patterns {
            run.input();
            check_pattern(run, pattern);
            write_pattern(run, pattern);
            for text in &texts {
                compare(run, &mut rng, pattern, text);
            }
        }
    }
    for file in small_files() {
        run.input();
        lines(run, &file);
    }
}

/// Compares every call on one small pattern and text.
fn compare(run: &mut Run, rng: &mut Rng, pattern: &Pattern, text: &[u16]) {
    let mut both = Both::new(run, Brute::enumerated(pattern, text));
    both.check();
    both.numbers();
    both.column_in(rng.pick(&both.column_rooms()));
    both.lists();
    both.all();
    let searcher = both.brute.searcher().expect("small patterns are accepted");
    let occurrences = searcher.rows().to_vec();
    let last = text.len() as u16;
    let places: Vec<u16> = (0..=last + 1).collect();
    for row in some(rng, &places, pattern.count, ROWS) {
        both.row(&row);
    }
    let marks: Vec<u16> = [0, 1, 2, last / 2, last, last + 1, 65_535].to_vec();
    for marks in some(rng, &marks, pattern.count, MARKS) {
        both.searches(&marks);
    }
    both.searches(&vec![0; pattern.count]);
    both.searches(&vec![65_535; pattern.count]);
    let across = Enumerated::new(pattern, &without_stops(pattern, text));
    for row in across.rows() {
        both.row(row);
        both.searches(row);
    }
    largest(&both, &occurrences);
}

/// All rows of so many entries over these choices, or if there are more than `most`, `sampled` of them.
fn some(rng: &mut Rng, choices: &[u16], length: usize, (most, sampled): (usize, usize)) -> Vec<Row> {
    if choices.len().pow(length as u32) <= most {
        return tuples(choices, length);
    }
    let row = |rng: &mut Rng| (0..length).map(|_| rng.pick(choices)).collect();
    (0..sampled).map(|_| row(rng)).collect()
}

/// Asserts that the lists are largest nonoverlapping sets, and that every such set, sorted, lies between them.
fn largest(both: &Both<Enumerated>, occurrences: &[Row]) {
    let (pattern, text) = (both.brute.pattern, both.brute.text);
    let case = || format!("pattern: {pattern:?}\ntext: {text:?}");
    let front = both.brute.front().expect("accepted");
    let back = both.brute.back().expect("accepted");
    for list in [front, back] {
        let apart = |(at, row): (usize, &Row)| list[..at].iter().all(|other| !overlap(other, row));
        assert!(list.iter().enumerate().all(apart), "a list overlaps\n{}", case());
        assert_eq!(list.len(), largest_size(occurrences), "not largest\n{}", case());
    }
    for set in largest_sets(occurrences, SETS) {
        for (at, row) in sorted_by_slot(&set).iter().enumerate() {
            let within = |slot: usize| front[at][slot] <= row[slot] && row[slot] <= back[at][slot];
            let lies_between = (0..row.len()).all(within);
            let occurs = occurrences.contains(row);
            assert!(lies_between && occurs, "set {set:?}, row {row:?}\n{}", case());
        }
    }
}
