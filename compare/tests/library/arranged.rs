//! The same words in every order and with repeats, added and in files: the same pattern, the same bytes, the same
//! answers.

use compare::brute::Brute;
use compare::cases::files::{input, pattern_file, text_file, usual_pattern_file, SLOT_ORDERS, SPAN_ORDERS};
use compare::cases::orders::{arranged, canonical, in_order, rearranged, spread, weak_orders, with_words};
use compare::cases::random::{any_marks, any_pattern, any_text, Kind};
use compare::cases::small::tuples;
use compare::cases::Words::Only;
use compare::cases::{pattern, Words, ANY_SPAN};
use compare::ffi;
use compare::layout::{Cursors, Made, Pattern, Slot};
use compare::rng::Rng;

use crate::both::{check_pattern, with_slot, write_pattern, Both};
use crate::file_calls::{count, pair, read_input, read_pattern, report};
use crate::run::Run;
use crate::written::file_of;

/// What the patterns at random are like.
const KINDS: [Kind; 3] = [
    Kind { slots: (1, 4), highest_word: 4, most_words: 4, widest_gap: 4 },
    Kind { slots: (1, 8), highest_word: 9, most_words: 8, widest_gap: 9 },
    Kind { slots: (1, 16), highest_word: 65_535, most_words: 8, widest_gap: 63 },
];

/// A text with the words of `SPREAD`.
const TEXT: [u16; 12] = [3, 256, 255, 0, 32_768, 32_767, 511, 65_535, 65_281, 3, 7, 255];

/// Compares words in every order.
pub fn run(run: &mut Run) {
    every_order(run);
    orders_in_files(run);
    too_many(run);
    let mut rng = Rng::new(131);
    for round in 0..4_000 {
        let kind = &KINDS[round % KINDS.len()];
        let pattern = any_pattern(&mut rng, kind);
        let words = rng.within(0, 40);
        let text = any_text(&mut rng, words, kind.highest_word);
        at_random(run, &mut rng, &pattern, &text);
    }
}

/// A pattern of one slot, which takes the word 3.
fn begun() -> Pattern {
    pattern(ANY_SPAN, &[(0, 0, Only(&[3]))])
}

/// The pattern with one more slot of these words, in order or not.
fn followed(excluding: bool, words: &[u16]) -> Pattern {
    pattern(ANY_SPAN, &[(0, 0, Only(&[3])), (0, 9, Words::new(excluding, words))])
}

/// Compares adding up to eight words in every order, also with repeats, and the tests of a pattern that has them so;
/// added they are in order, and the pattern passes its tests if they were.
fn every_order(run: &mut Run) {
    for (turn, order) in (0..=8).flat_map(weak_orders).enumerate() {
        let (words, excluding) = (spread(&order), turn % 2 == 1 || order.is_empty());
        let expected = followed(excluding, &in_order(&words));
        let made = ffi::with_slot(&begun(), 0, 9, excluding, &words);
        run.input();
        let case = || format!("with_slot {excluding} {words:?}");
        run.agree(&made, &Made { number: 0, place: 0, pattern: expected }, case);
        with_slot(run, &begun(), 0, 9, &words);
        let stated = followed(excluding, &words);
        check_pattern(run, &stated);
        let refused = if stated == expected { (0, 0) } else { (16, 2) };
        let tested = ffi::check_pattern(&stated);
        run.agree(&(tested.number, tested.place), &refused, || format!("check_pattern\npattern: {stated:?}"));
    }
}

/// Compares files of up to six words in every order, also with repeats, at the first and at the second slot.
fn orders_in_files(run: &mut Run) {
    for (turn, order) in (1..=6).flat_map(weak_orders).enumerate() {
        let words = spread(&order);
        let excluding = turn % 2 == 1;
        let mut first = begun();
        first.slots[0] = with_words(&Slot { excluding, ..first.slots[0] }, &words);
        for stated in [first, followed(excluding, &words)] {
            let slots = SLOT_ORDERS[turn % SLOT_ORDERS.len()];
            same_as_in_order(run, &stated, &pattern_file(&stated, SPAN_ORDERS[turn / 6 % 2], slots), &TEXT);
        }
    }
}

/// Compares a file with words in any order with the file of the same words in order: the library reads the same
/// pattern, writes it as the same bytes, and counts and prints the same.
fn same_as_in_order(run: &mut Run, stated: &Pattern, file: &[u8], text: &[u16]) {
    let (canonical, text) = (canonical(stated), text_file(text));
    let ordered = usual_pattern_file(&canonical);
    run.input();
    read_pattern(run, file);
    read_input(run, file, &text, 60);
    count(run, file, &text);
    report(run, &input(file, &text));
    let case = || format!("file b\"{}\"", file.escape_ascii());
    run.agree(&ffi::read_pattern(file), &Made { number: 0, place: 0, pattern: canonical }, case);
    run.agree(&ffi::read_pattern(file), &ffi::read_pattern(&ordered), case);
    run.agree(&file_of(&ffi::read_pattern(file).pattern), &ordered, case);
    run.agree(&ffi::count(file, &text), &ffi::count(&ordered, &text), case);
    run.agree(&reported(&input(file, &text)), &reported(&input(&ordered, &text)), case);
}

/// What the library says that the program prints.
fn reported(input: &[u8]) -> Vec<u8> {
    let mut out = vec![0; 30_000];
    let written = ffi::report(input, &mut out);
    out.truncate(written);
    out
}

/// Compares nine words and more, of which many are the same, and eight words with a 0 among them.
fn too_many(run: &mut Run) {
    let mut lists: Vec<Vec<u16>> = (9..=20).flat_map(|words| [vec![7; words], vec![0; words]]).collect();
    for list in tuples(&[8, 7], 9) {
        lists.push(list);
    }
    for order in weak_orders(5) {
        lists.push([spread(&order), spread(&order)[..4].to_vec()].concat());
        lists.push([spread(&order), vec![0], spread(&order)[..2].to_vec()].concat());
    }
    for list in lists {
        run.input();
        with_slot(run, &begun(), 0, 1, &list);
        for mark in ["", "!"] {
            let words = list.iter().map(u16::to_string).collect::<Vec<_>>().join(",");
            let file = format!("least most\n1 9\nlow high words\n0 0 7\n0 1 {mark}{words}\n").into_bytes();
            read_pattern(run, &file);
            pair(run, &file, b"word\n7\n7\n");
            report(run, &input(&file, b"word\n7\n7\n"));
            let number = if list.len() > 8 { 2 } else { 3 };
            let made = ffi::read_pattern(&file);
            assert_eq!((made.number, made.place), (number, 2), "file b\"{}\"", file.escape_ascii());
        }
    }
}

/// Compares a pattern with its words in any order, in files and added slot by slot, with the pattern itself, and every
/// call on what was made.
fn at_random(run: &mut Run, rng: &mut Rng, pattern: &Pattern, text: &[u16]) {
    for _ in 0..2 {
        let stated = rearranged(rng, pattern);
        let file = pattern_file(&stated, rng.pick(&SPAN_ORDERS), rng.pick(&SLOT_ORDERS));
        same_as_in_order(run, &stated, &file, text);
    }
    run.input();
    let made = added(run, rng, pattern);
    run.agree(&made, &canonical(pattern), || format!("added slot by slot\npattern: {pattern:?}"));
    run.agree(&file_of(&made), &file_of(pattern), || format!("written\npattern: {pattern:?}"));
    write_pattern(run, &made);
    let marks = any_marks(rng, pattern.count, text.len());
    let mut both = Both::new(run, Brute::windowed(&made, text));
    both.every_call(&marks, &Cursors::default(), 1);
}

/// The pattern that the library makes by adding the slots one by one, their words in any order.
fn added(run: &mut Run, rng: &mut Rng, pattern: &Pattern) -> Pattern {
    let mut made = ffi::pattern_of(pattern.least, pattern.most);
    for slot in &pattern.slots[..pattern.count] {
        let words = arranged(rng, &slot.words[..slot.count]);
        with_slot(run, &made, slot.low, slot.high, &words);
        made = ffi::with_slot(&made, slot.low, slot.high, slot.excluding, &words).pattern;
    }
    made
}
