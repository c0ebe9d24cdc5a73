//! Patterns handed in with words that do not rise: every call refuses them with 16 and the first such slot, an excerpt
//! is empty, and adding does not look at them.

use compare::brute::{self, Brute};
use compare::cases::inputs::sevens;
use compare::cases::orders::{disorder, with_words};
use compare::cases::random::{any_cursors, any_marks, any_pattern, any_text, Kind};
use compare::cases::small::texts;
use compare::cases::tallies::thresholds;
use compare::cases::Words::{But, Only};
use compare::cases::{alike, pattern, Words, ANY_SPAN};
use compare::ffi;
use compare::layout::{Cursors, Excerpted, Pattern, Slot};
use compare::rng::Rng;

use crate::both::{check, check_pattern, rewind, with_slot, write_pattern, Both};
use crate::run::Run;

/// What the patterns at random are like.
const KIND: Kind = Kind { slots: (1, 16), highest_word: 9, most_words: 8, widest_gap: 20 };

/// A text in which the slots of sevens occur.
const TEXT: [u16; 20] = [7; 20];

/// Eight words that rise; the text's is among them.
const EIGHT: [u16; 8] = [7, 8, 255, 256, 300, 32_767, 32_768, 65_535];

/// Words on both sides of where their bytes or their signs would order them otherwise.
const WORDS: [u16; 10] = [1, 2, 127, 255, 256, 257, 32_767, 32_768, 65_534, 65_535];

/// Compares patterns with words that do not rise.
pub fn run(run: &mut Run) {
    for slots in [1, 3, 16] {
        for (at, words) in (0..slots).flat_map(|at| [(at, Only(&EIGHT)), (at, But(&EIGHT))]) {
            every_neighbour(run, slots, at, words);
        }
    }
    small_lists(run);
    two_words(run);
    two_slots(run);
    tallies(run);
    adding(run);
    at_random(run);
}

/// Compares every call on a pattern, and asserts that its test gives this answer, and if that is a refusal, so does every
/// call, and the excerpt is empty.
fn refused(run: &mut Run, pattern: &Pattern, text: &[u16], refusal: (u32, usize)) {
    let case = || format!("refused with {refusal:?}\npattern: {pattern:?}");
    let tested = ffi::check_pattern(pattern);
    run.agree(&(tested.number, tested.place), &refusal, case);
    let marks = vec![0; pattern.count];
    if refusal.0 != 0 {
        let told = told(pattern, text, &marks);
        run.agree(&told, &vec![refusal; told.len()], case);
        run.agree(&ffi::excerpt(pattern, text, &marks, 0), &Excerpted { length: 0, word: 0 }, case);
    }
    let mut both = Both::new(run, Brute::windowed(pattern, text));
    both.every_call(&marks, &Cursors::default(), 1);
}

/// What each call that tells of a refusal says to a pattern and a text, with these marks, and no room lent.
fn told(pattern: &Pattern, text: &[u16], marks: &[u16]) -> Vec<(u32, usize)> {
    let answers = [
        ffi::check(pattern, text.len()),
        ffi::is_occurrence(pattern, text, marks),
        ffi::leftmost(pattern, text, &mut []),
        ffi::rightmost(pattern, text, &mut []),
        ffi::all(pattern, text, &mut []),
        ffi::support(pattern, text),
        ffi::starts(pattern, text, &mut []),
        ffi::write_pattern(pattern, &mut []),
    ];
    let found = [ffi::first_after(pattern, text, marks), ffi::last_before(pattern, text, marks)];
    let served = ffi::next(&Cursors::default(), 1, pattern, text);
    let (made, tally) = (ffi::merge(pattern, pattern), ffi::tally(pattern, text));
    let answers = answers.iter().map(|answer| (answer.number, answer.place));
    let found = found.iter().map(|found| (found.number, found.place));
    let others = [(served.number, served.place), (made.number, made.place), (tally.number, tally.place)];
    answers.chain(found).chain(others).collect()
}

/// Compares slots with two neighbouring words exchanged, equal, or the second the least, for every two neighbours and
/// every stated number of words: where they are past it, the pattern is accepted.
fn every_neighbour(run: &mut Run, slots: usize, at: usize, words: Words) {
    let (excluding, words) = words.parts();
    let base = pattern(ANY_SPAN, &alike(Only(&[7]), slots, 0, 1));
    for wrong in 1..8 {
        let (before, word) = (words[wrong - 1], words[wrong]);
        for pair in [[word, before], [before, before], [word, word], [before, 1]] {
            let mut listed = [0; 8];
            listed.copy_from_slice(words);
            listed[wrong - 1..=wrong].copy_from_slice(&pair);
            for count in 1..=8 {
                let mut stated = base;
                stated.slots[at] = Slot { words: listed, count, excluding, ..base.slots[at] };
                let rises = (1..count).all(|word| listed[word - 1] < listed[word]);
                refused(run, &stated, &TEXT, if rises { (0, 0) } else { (16, at + 1) });
            }
        }
    }
}

/// Compares the tests of slots with all lists of up to five of the words 0 to 3: a 0 among them is 3 at once.
fn small_lists(run: &mut Run) {
    for list in texts(&[0, 1, 2, 3], 5) {
        for (at, excluding) in [(0, false), (0, true), (1, false), (1, true)] {
            let mut stated = pattern(ANY_SPAN, &alike(Only(&[2]), 2, 0, 1));
            stated.slots[at] = with_words(&Slot { excluding, ..stated.slots[at] }, &list);
            run.input();
            check_pattern(run, &stated);
            check(run, &stated, 20_001);
            write_pattern(run, &stated);
            with_slot(run, &stated, 0, 1, &list);
        }
    }
}

/// Compares all pairs of great and small words, handed in and added.
fn two_words(run: &mut Run) {
    for (one, other) in WORDS.iter().flat_map(|&one| WORDS.map(|other| (one, other))) {
        for words in [Only(&[one, other]), But(&[one, other])] {
            let stated = pattern(ANY_SPAN, &[(0, 0, words)]);
            refused(run, &stated, &WORDS, if one < other { (0, 0) } else { (16, 1) });
            with_slot(run, &stated, 0, 1, &[one, other]);
            with_slot(run, &brute::pattern_of(1, 9), 0, 0, &[other, one, other]);
        }
    }
}

/// Compares every two of sixteen slots with words that do not rise, both stated, one, or none: the first is the place.
fn two_slots(run: &mut Run) {
    for (one, other) in (0..16).flat_map(|one| (0..16).map(move |other| (one, other))) {
        for excluding in [false, true] {
            let mut stated = pattern(ANY_SPAN, &sevens(16, 0, 1));
            for (at, words) in [(one, [8, 7]), (other, [7, 7])] {
                stated.slots[at] = with_words(&Slot { excluding, ..stated.slots[at] }, &words);
            }
            let first = one.min(other);
            refused(run, &stated, &TEXT, (16, first + 1));
            let last = one.max(other);
            stated.count = last.max(1);
            refused(run, &stated, &TEXT, if first < stated.count { (16, first + 1) } else { (0, 0) });
        }
    }
}

/// Compares patterns whose tally would pass 64 bits, if their words rose.
fn tallies(run: &mut Run) {
    for (pattern, words, _) in thresholds() {
        for at in 0..pattern.count {
            let mut stated = pattern;
            stated.slots[at] =
                with_words(&stated.slots[at], if stated.slots[at].excluding { &[9, 8] } else { &[7, 7] });
            let mut both = Both::new(run, Brute::windowed(&stated, &[7; 1_000][..words]));
            both.tally();
            both.column();
            both.all();
        }
        let tally = ffi::tally(&pattern, &[7; 1_000][..words]);
        assert_eq!((tally.number, tally.place, tally.high), (0, 0, 1));
    }
}

/// Compares adding to patterns with words that do not rise: it leaves those as they are, and what it makes is refused
/// when it is handed in; so is the old pattern, which a refused slot gives back.
fn adding(run: &mut Run) {
    for (slots, at) in (1..16).flat_map(|slots| (0..slots).map(move |at| (slots, at))) {
        let mut stated = pattern(ANY_SPAN, &sevens(slots, 0, 1));
        stated.slots[at] = with_words(&stated.slots[at], &[9, 7, 7]);
        for (low, high, words) in [(0, 1, &[8, 7][..]), (1, 0, &[8, 7]), (0, 1, &[0]), (0, 1, &[7; 9])] {
            run.input();
            with_slot(run, &stated, low, high, words);
            let made = ffi::with_slot(&stated, low, high, false, words);
            assert_eq!(made.pattern.slots[..slots], stated.slots[..slots]);
            refused(run, &made.pattern, &TEXT, (16, at + 1));
        }
    }
}

/// Compares patterns at random with words that do not rise at one to three slots, and `rewind`, which is handed none.
fn at_random(run: &mut Run) {
    let mut rng = Rng::new(141);
    for _ in 0..4_000 {
        let mut stated = any_pattern(&mut rng, &KIND);
        for _ in 0..rng.within(1, 3) {
            let at = rng.within(0, stated.count - 1);
            disorder(&mut rng, &mut stated.slots[at]);
        }
        let words = rng.within(0, 30);
        let text = any_text(&mut rng, words, 9);
        let (marks, cursors) = (any_marks(&mut rng, stated.count, words), any_cursors(&mut rng, words));
        let client = rng.within(0, 5);
        let mut both = Both::new(run, Brute::windowed(&stated, &text));
        both.every_call(&marks, &cursors, client);
        rewind(run, &cursors, client);
    }
}
