//! Texts of 20,000 words, against sieves, plain sums, and rows written down at once.

use compare::brute::{Brute, Row};
use compare::cases::inputs::sevens;
use compare::cases::random::{any_marks, any_pattern, text_with_stops, Kind};
use compare::cases::sentences::{cut_at, cut_every, sentences};
use compare::cases::Words::{But, Only};
use compare::cases::{alike, pattern, Words, Written, ANY_SPAN};
use compare::layout::{Answer, Cursors, Pattern};
use compare::rng::Rng;

use crate::alone::LISTS;
use crate::both::Both;
use crate::lent::Lent;
use crate::run::Run;

/// The longest text.
const WORDS: usize = 20_000;

/// What the patterns are like: short, of medium reach, and wide.
const KINDS: [Kind; 3] = [
    Kind { slots: (1, 4), highest_word: 3, most_words: 2, widest_gap: 5 },
    Kind { slots: (4, 9), highest_word: 4, most_words: 2, widest_gap: 8 },
    Kind { slots: (10, 16), highest_word: 12, most_words: 2, widest_gap: 63 },
];

/// What the patterns are like that occur in short sentences of two words.
const NARROW: Kind = Kind { slots: (2, 4), highest_word: 2, most_words: 2, widest_gap: 7 };

/// Patterns with excluding slots, for texts of four words: as .. as, any words between two, and words but for eight.
const EXCLUDING: [&[Written]; 3] = [
    &[(0, 0, Only(&[1])), (0, 0, But(&[2, 3])), (0, 0, Only(&[1]))],
    &[(0, 0, Only(&[1])), (0, 3, But(&[])), (1, 2, But(&[4])), (0, 63, Only(&[2]))],
    &[(0, 0, But(&[1, 2, 3, 5, 6, 7, 8, 9])), (0, 20, But(&[1, 4])), (0, 1, But(&[65_535]))],
];

/// Compares long texts.
pub fn run(run: &mut Run) {
    let mut rng = Rng::new(77);
    let nine = pattern(ANY_SPAN, &sevens(9, 0, 63));
    let mut both = Both::new(run, Brute::windowed(&nine, &[7; WORDS]));
    both.tally();
    both.column();
    for stops in [Some(20), Some(2), Some(100), None] {
        for kind in &KINDS {
            let pattern = any_pattern(&mut rng, kind);
            let text = text_with_stops(&mut rng, WORDS, kind.highest_word, stops);
            compare(run, &mut rng, &pattern, &text);
        }
    }
    for (slots, high, words) in [(1, 0, WORDS), (2, 63, WORDS), (3, 9, WORDS), (16, 63, 400)] {
        let pattern = pattern(ANY_SPAN, &sevens(slots, 0, high));
        compare(run, &mut rng, &pattern, &vec![7; words]);
    }
    for span in [(20_000, 20_000), (961, 20_000), (1, 16)] {
        let pattern = pattern(span, &sevens(16, 0, 63));
        compare(run, &mut rng, &pattern, &[7; 1_000]);
    }
    for slots in EXCLUDING {
        for stops in [Some(20), None] {
            let text = text_with_stops(&mut rng, WORDS, 4, stops);
            compare(run, &mut rng, &pattern(ANY_SPAN, slots), &text);
        }
    }
    same_words(run, &[7; WORDS]);
    for (at, text) in cut(&[7; WORDS]).iter().enumerate() {
        same_words(run, text);
        let (slots, high) = [(2, 63), (3, 9)][at % 2];
        compare(run, &mut rng, &pattern(ANY_SPAN, &sevens(slots, 0, high)), text);
    }
    for text in cut(&text_with_stops(&mut rng, WORDS, 2, None)) {
        let pattern = any_pattern(&mut rng, &NARROW);
        compare(run, &mut rng, &pattern, &text);
    }
}

/// The text with one sentence end in the middle, with one at each end, and with some at regular places, many and few.
fn cut(text: &[u16]) -> Vec<Vec<u16>> {
    let mut texts = vec![cut_at(&[WORDS / 2], text.to_vec()), cut_at(&[1, WORDS], text.to_vec())];
    texts.extend([2, 3, 20, 64, 962].map(|every| cut_every(every, text.to_vec())));
    texts
}

/// Compares every call on a long text, from some marks and some rows of the lists.
fn compare(run: &mut Run, rng: &mut Rng, pattern: &Pattern, text: &[u16]) {
    let mut both = Both::new(run, Brute::windowed(pattern, text));
    let (front, back) = (picked(rng, both.brute.front()), picked(rng, both.brute.back()));
    for row in front.iter().chain(&back) {
        both.searches(row);
        both.row(row);
    }
    for _ in 0..5 {
        both.searches(&any_marks(rng, pattern.count, text.len()));
    }
    both.every_call(&vec![0; pattern.count], &Cursors::default(), 3);
}

/// Some rows of a list.
fn picked<E: std::fmt::Debug>(rng: &mut Rng, list: Result<&[Row], E>) -> Vec<Row> {
    let list = list.expect("long patterns are accepted");
    let some = list.len().min(4);
    (0..some).map(|_| list[rng.within(0, list.len() - 1)].clone()).collect()
}

/// Compares the lists of some patterns of slots that take the 7, plain and excluding, in sentences of sevens.
fn same_words(run: &mut Run, text: &[u16]) {
    for (slots, low, high) in [(1, 0, 0), (2, 0, 63), (3, 5, 9), (16, 0, 0), (16, 0, 63), (16, 63, 63)] {
        for words in [Only(&[7]), But(&[]), But(&[1, 2, 3, 4, 5, 6, 8, 9])] {
            same_word(run, text, words, slots, low, high);
        }
    }
}

/// Compares the lists of slots that take the 7 in sentences of sevens: a sentence's row k has its places low + 1 apart,
/// from its place k on.
fn same_word(run: &mut Run, text: &[u16], words: Words, slots: usize, low: u16, high: u16) {
    let pattern = pattern(ANY_SPAN, &alike(words, slots, low, high));
    let reach = (slots as u16 - 1) * (low + 1);
    let firsts =
        |(before, sentence): (u16, &[u16])| before + 1..=before + (sentence.len() as u16).saturating_sub(reach);
    let row = |first: u16| (0..slots as u16).map(move |slot| first + slot * (low + 1));
    let rows: Row = sentences(text).into_iter().flat_map(firsts).flat_map(row).collect();
    let count = rows.len() / slots;
    run.input();
    for (call, list) in &LISTS[..2] {
        let (mut lent, mut expected) = (Lent::places(rows.len() + 9), Lent::places(rows.len() + 9));
        expected.part()[..rows.len()].copy_from_slice(&rows);
        let library = list(&pattern, text, lent.part());
        let answer = Answer { number: 0, place: 0, value: count as u64 };
        let case = || format!("{call}\npattern: {pattern:?}\ntext: {text:?}");
        run.agree(&library, &answer, case);
        run.agree(&lent, &expected, case);
        run.call(*call, library.number);
    }
}
