//! Two patterns merged: all small ones, and pairs at random. What holds of them is asked of the library itself.

use compare::cases::merged::any_pair;
use compare::cases::orders::canonical;
use compare::cases::random::{add_garbage, any_pattern, break_pattern, Kind};
use compare::cases::small::patterns;
use compare::cases::Words::{self, But, Only};
use compare::cases::ANY_SPAN;
use compare::ffi;
use compare::layout::{Answer, Made, Pattern};
use compare::rng::Rng;

use crate::both::merge;
use crate::run::Run;
use crate::{merged_refusals, merged_rows};

/// Gaps of every small shape, and some at the other end.
const GAPS: [(u16, u16); 9] = [(0, 1), (1, 2), (0, 0), (1, 1), (2, 2), (0, 2), (0, 63), (63, 63), (0, 62)];

/// Span limits of every small shape, and some at the other end.
const SPANS: [(u16, u16); 10] =
    [ANY_SPAN, (2, 3), (1, 1), (1, 2), (1, 3), (2, 2), (3, 3), (3, 20_000), (20_000, 20_000), (1, 19_999)];

/// What the pairs at random are like: with few words and with any, of few slots and of many.
const KINDS: [Kind; 4] = [
    Kind { slots: (1, 4), highest_word: 4, most_words: 3, widest_gap: 4 },
    Kind { slots: (1, 16), highest_word: 12, most_words: 8, widest_gap: 9 },
    Kind { slots: (1, 16), highest_word: 65_535, most_words: 8, widest_gap: 63 },
    Kind { slots: (16, 16), highest_word: 300, most_words: 8, widest_gap: 63 },
];

/// Which of two patterns are broken, by their bits; mostly none.
const BROKEN: [usize; 7] = [0b00, 0b00, 0b00, 0b00, 0b01, 0b10, 0b11];

/// The fewest pairs at random that must merge.
const FEWEST: usize = 5_000;

/// Compares merged patterns.
pub fn run(run: &mut Run) {
    let mut rng = Rng::new(151);
    for family in families() {
        every_pair(run, &mut rng, family);
    }
    at_random(run, &mut rng);
    merged_rows::run(run);
    merged_refusals::run(run);
}

/// Compares two patterns merged, in either order. The library must accept what it makes of them, and make the same in
/// either order if it accepts both; refused, it must give a new pattern.
pub fn compare(run: &mut Run, first: &Pattern, second: &Pattern) -> Made {
    run.input();
    let (made, other) = (merge(run, first, second), merge(run, second, first));
    let case = || format!("merge, what holds of it\nfirst: {first:?}\nsecond: {second:?}");
    if [first, second].iter().all(|pattern| ffi::check_pattern(pattern).number == 0) {
        run.agree(&other, &made, case);
    }
    if made.number == 0 {
        run.agree(&ffi::check_pattern(&made.pattern), &Answer { number: 0, place: 0, value: 0 }, case);
    } else {
        run.agree(&made.pattern, &ffi::pattern_of(ANY_SPAN.0, ANY_SPAN.1), case);
    }
    made
}

/// Compares an accepted pattern merged with itself: the library must make the same, its other entries 0.
fn with_itself(run: &mut Run, pattern: &Pattern) {
    run.input();
    let made = merge(run, pattern, pattern);
    let case = || format!("merge with itself\npattern: {pattern:?}");
    run.agree(&made, &Made { number: 0, place: 0, pattern: canonical(pattern) }, case);
}

/// All sets of these words.
fn subsets(words: &[u16]) -> Vec<Vec<u16>> {
    let subset = |bits: usize| (0..words.len()).filter(|at| bits >> at & 1 == 1).map(|at| words[at]).collect();
    (0..1 << words.len()).map(subset).collect()
}

/// The slots that list one of these sets, plain and excluding.
fn forms(sets: &[Vec<u16>]) -> Vec<Words<'_>> {
    let plain = sets.iter().filter(|set| !set.is_empty()).map(|set| Only(set));
    plain.chain(sets.iter().map(|set| But(set))).collect()
}

/// Families of small patterns: of one and two slots with all sets of few words, with every gap and span, with lists too
/// long together, of three slots, and of several numbers of slots.
fn families() -> Vec<Vec<Pattern>> {
    let (two, four) = (subsets(&[1, 2]), subsets(&[1, 2, 3, 4]));
    let mixed = [Only(&[1]), But(&[2])];
    let long = [
        But(&[1, 2, 3, 4, 5, 6, 7, 8]),
        But(&[9]),
        Only(&[1]),
        Only(&[9]),
        But(&[]),
        But(&[2, 3, 4, 5, 6, 7, 8, 9]),
        Only(&[1, 2, 3, 4, 5, 6, 7, 8]),
    ];
    let counts = (1..=4).flat_map(|slots| patterns(slots, &long[..2], &GAPS[..1], &SPANS[..2])).collect();
    vec![
        patterns(1, &forms(&four), &[], &SPANS),
        patterns(2, &forms(&two), &GAPS, &SPANS[..1]),
        patterns(2, &mixed, &GAPS, &SPANS),
        patterns(2, &long, &GAPS[..2], &SPANS[..2]),
        patterns(3, &long[..5], &GAPS[..1], &SPANS[..1]),
        counts,
    ]
}

/// Compares each of these patterns merged with each; every second one has numbers at random past the stated ones.
fn every_pair(run: &mut Run, rng: &mut Rng, mut family: Vec<Pattern>) {
    family.iter_mut().step_by(2).for_each(|pattern| add_garbage(rng, pattern));
    for (at, first) in family.iter().enumerate() {
        with_itself(run, first);
        for second in &family[..at] {
            compare(run, first, second);
        }
    }
}

/// Compares pairs at random: made from one another, broken, and unlike.
fn at_random(run: &mut Run, rng: &mut Rng) {
    let mut merged = 0;
    for round in 0..20_000 {
        let kind = &KINDS[round % KINDS.len()];
        let mut pair = any_pair(rng, kind);
        with_itself(run, &pair[0]);
        let broken = rng.pick(&BROKEN);
        for (_, pattern) in pair.iter_mut().enumerate().filter(|(at, _)| broken >> at & 1 == 1) {
            break_pattern(rng, pattern);
        }
        merged += usize::from(compare(run, &pair[0], &pair[1]).number == 0);
        compare(run, &any_pattern(rng, kind), &any_pattern(rng, kind));
    }
    assert!(merged >= FEWEST, "{merged} pairs merge");
}
