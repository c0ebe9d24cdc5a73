//! The brute force against the scope's examples and the worked texts, and its methods against each other.

use super::occurrences::{occurrences, sentence};
use super::*;
use crate::cases::examples::EXAMPLES;
use crate::cases::files::{text_file, usual_pattern_file};
use crate::cases::inputs::sevens;
use crate::cases::lines::small_files;
use crate::cases::orders::canonical;
use crate::cases::random::{any_marks, any_pattern, any_text, Kind};
use crate::cases::sentences::{cut_at, sentences, without_stops};
use crate::cases::small::{patterns, texts, tuples};
use crate::cases::worked::{worked_texts, Rows};
use crate::cases::Words::{But, Only};
use crate::cases::{pattern, ANY_SPAN};
use crate::rng::Rng;

/// Asserts that a list, if it is named, has these rows.
fn assert_rows(named: Option<Rows>, rows: &[Row]) {
    if let Some(named) = named {
        assert_eq!(named, rows);
    }
}

/// The nine texts, those with sentence ends, those for excluding slots and the one for the conditions, by both methods.
#[test]
fn stated_rows() {
    for case in worked_texts() {
        let pattern = canonical(&pattern(case.span, case.slots));
        let listed = Brute::enumerated(&pattern, case.text);
        let sieved = Brute::windowed(&pattern, case.text);
        assert_rows(case.all, &listed.searcher().unwrap().all());
        assert_rows(case.all, &sieved.searcher().unwrap().all());
        assert_eq!(listed.tally(), sieved.tally());
        for row in case.all.into_iter().flatten() {
            assert_eq!(listed.is_occurrence(row).value, 1);
        }
        assert_rows(case.front, listed.front().unwrap());
        assert_rows(case.front, sieved.front().unwrap());
        assert_rows(case.back, listed.back().unwrap());
        assert_rows(case.back, sieved.back().unwrap());
        assert_eq!(listed.support().value, case.count as u64);
        assert_eq!(largest_size(listed.searcher().unwrap().rows()), case.count);
        for row in case.no_occurrences {
            assert_eq!(listed.is_occurrence(row).value, 0);
        }
    }
}

/// The program's examples, byte for byte.
#[test]
fn stated_reports() {
    for (input, output) in EXAMPLES {
        assert_eq!(report(input), output);
    }
}

/// A sentence end counts strictly between a row's first and last place, and there alone; the row is any row.
#[test]
fn sentence_ends_between() {
    let across = |text: &[u16], row: &[u16]| !sentence(text, row);
    let text = [0, 1, 0, 1, 1, 1, 0];
    let one_sentence: [&[u16]; 9] = [&[1], &[3], &[1, 2], &[2, 3], &[1, 3], &[3, 7], &[4, 5, 6], &[7, 1], &[9, 99]];
    let several: [&[u16]; 7] = [&[2, 4], &[1, 4], &[2, 5], &[2, 7], &[6, 8], &[0, 2], &[4, 1, 65_535]];
    assert!(one_sentence.iter().all(|row| !across(&text, row)));
    assert!(several.iter().all(|row| across(&text, row)));
    // With one 0 in the text, the rows across it are those that begin before it and end after it.
    for place in 1..=9 {
        let text = cut_at(&[place as usize], vec![1; 9]);
        for row in tuples(&(0..=11).collect::<Vec<u16>>(), 2) {
            assert_eq!(across(&text, &row), row[0] < place && place < row[1]);
        }
    }
}

/// A 0 at each place in turn, for a row of three slots: it leaves the row an occurrence outside it alone.
#[test]
fn a_stop_at_each_place() {
    let pattern = pattern(ANY_SPAN, &[(0, 0, Only(&[1])), (1, 1, Only(&[2])), (1, 1, Only(&[3]))]);
    let text = vec![9, 9, 1, 9, 2, 9, 3, 9, 9];
    for place in 1..=9 {
        let cut = cut_at(&[place], text.clone());
        let counts = u64::from([1, 2, 8, 9].contains(&place));
        let (listed, sieved) = (Brute::enumerated(&pattern, &cut), Brute::windowed(&pattern, &cut));
        assert_eq!(listed.is_occurrence(&[3, 5, 7]).value, counts);
        assert_eq!(listed.excerpt(&[3, 5, 7], 0).length as u64, 5 * counts);
        let (start, end) = ([0; 3], [99; 3]);
        let forward = [listed.first_after(&start), sieved.first_after(&start)];
        let backward = [listed.last_before(&end), sieved.last_before(&end)];
        for found in [forward, backward].concat() {
            assert_eq!(found.found, counts);
        }
        assert_eq!([listed.support().value, sieved.support().value], [counts; 2]);
        assert_eq!([listed.tallied(), sieved.tallied()], [Ok(counts.into()); 2]);
    }
}

/// What a file with these slot lines and span limits is refused with.
fn refused(span: &str, slots: &str) -> (u32, usize) {
    let file = format!("least most\n{span}\nlow high words\n{slots}");
    let made = made_from_file(file.as_bytes());
    (made.number, made.place)
}

/// The examples in the scope's table of refusals, 1 to 8.
#[test]
fn refusals_of_calls() {
    assert_eq!(check(&pattern_of(1, 20_000), 0).number, 1);
    let accepted = pattern(ANY_SPAN, &sevens(3, 0, 1));
    let nine = with_slot(&accepted, 0, 0, false, &[7; 9]);
    assert_eq!((nine.number, nine.place, nine.pattern), (2, 4, accepted));
    assert_eq!(refused("1 20000", "0 0 0\n"), (3, 1));
    assert_eq!(refused("1 20000", "0 0 7\n3 2 7\n"), (4, 2));
    assert_eq!(refused("0 5", "0 0 7\n"), (5, 0));
    assert_eq!(check(&accepted, 20_001).number, 6);
    assert_eq!([check_pattern(&pattern_of(1, 20_000)).number, check_pattern(&accepted).number], [1, 0]);
    let text = [7, 7, 7, 7];
    let brute = Brute::enumerated(&accepted, &text);
    assert_eq!(brute.first_after(&[0, 0]).number, 7);
    let short = brute.leftmost(&mut [0; 5]);
    assert_eq!((short.number, short.place), (8, 2));
    let short = brute.all(&mut [0; 5]);
    assert_eq!((short.number, short.place), (8, 0));
}

/// The examples in the scope's table of refusals, 10 to 13.
#[test]
fn refusals_of_files() {
    let made = made_from_file(b"least most\n1 5\nwords low\n0 0 7\n");
    assert_eq!((made.number, made.place), (10, 3));
    assert_eq!(refused("1 20000", "0 01 7\n"), (11, 4));
    assert_eq!(made_from_file(&[b'\n'; 60_001]).number, 12);
    assert_eq!(words_from_file(b"word\n7\n8\n", &mut [0]).number, 13);
}

/// What two files are refused with, three words lent; a refusal gives a new pattern and no words, and writes none.
fn refused_both(pattern: &[u8], text: &[u8]) -> (u32, usize) {
    let mut words = [9; 3];
    let read = both_from_files(pattern, text, &mut words);
    assert_eq!((read.words, read.pattern, words), (0, pattern_of(1, 20_000), [9; 3]));
    (read.number, read.place)
}

/// Two files in one call: 12 of either, then the whole pattern file, then the text file, each with its own lines.
#[test]
fn refusals_of_two_files() {
    let good = b"least most\n1 20000\nlow high words\n0 0 7\n";
    let (long, short_span) = ([b'7'; 60_001], b"least most\n0 5\nlow high words\n0 0 7\n");
    assert_eq!(refused_both(&long, b"word\n"), (12, 0));
    assert_eq!(refused_both(b"", &long), (12, 0));
    assert_eq!(refused_both(b"", b""), (10, 1));
    assert_eq!(refused_both(short_span, b"words\n"), (5, 0));
    assert_eq!(refused_both(good, b"words\n"), (10, 1));
    assert_eq!(refused_both(good, b"word\n7\n07\n"), (11, 3));
    assert_eq!(refused_both(good, b"word\n7\n7\n7\n7\n"), (13, 0));
    let mut words = [9; 3];
    let read = both_from_files(good, b"word\n7\n8\n", &mut words);
    assert_eq!((read.number, read.place, read.words), (0, 0, 2));
    assert_eq!((read.pattern, words), (pattern(ANY_SPAN, &sevens(1, 0, 0)), [7, 8, 9]));
}

/// Lines by what they are made of: closed, empty, open, and past the end.
#[test]
fn ends_of_lines() {
    let ends = |bytes: &[u8], at| {
        let found = line(bytes, at);
        (found.end, found.next)
    };
    assert_eq!([0, 1, 2, 3, 4].map(|at| ends(b"7\r\n\n8", at)), [(2, 3), (2, 3), (2, 3), (3, 4), (5, 5)]);
    assert_eq!([5, 6, usize::MAX].map(|at| ends(b"7\r\n\n8", at)), [5, 6, usize::MAX].map(|at| (at, at)));
    assert_eq!([0, 1].map(|at| ends(b"", at)), [(0, 0), (1, 1)]);
    for file in small_files() {
        let mut begun = 0;
        for whole in file.split_inclusive(|&byte| byte == b'\n') {
            let (end, next) = ends(&file, begun);
            assert_eq!((&file[begun..next], next - end), (whole, usize::from(whole.ends_with(b"\n"))));
            begun = next;
        }
        assert_eq!(begun, file.len());
    }
}

/// What is written as a file is read back.
#[test]
fn files_read_back() {
    let mut rng = Rng::new(1);
    let kind = Kind { slots: (1, 16), highest_word: 65_535, most_words: 8, widest_gap: 63 };
    for _ in 0..200 {
        let written = any_pattern(&mut rng, &kind);
        let read = made_from_file(&usual_pattern_file(&written));
        assert_eq!((read.number, read.place), (0, 0));
        assert_eq!(usual_pattern_file(&read.pattern), usual_pattern_file(&written));
        let text = any_text(&mut rng, 50, 65_535);
        let mut words = [9; 50];
        assert_eq!(words_from_file(&text_file(&text), &mut words).value, 50);
        assert_eq!(words, text[..]);
    }
}

/// Writing out occurrences place by place agrees with testing every row.
#[test]
fn occurrences_are_all_rows_that_pass() {
    let gaps = [(0, 0), (0, 2), (1, 2)];
    let spans = [ANY_SPAN, (4, 5)];
    for pattern in patterns(3, &[Only(&[1]), Only(&[1, 2]), But(&[1])], &gaps, &spans) {
        for text in texts(&[0, 1, 2], 5) {
            let places: Vec<u16> = (0..=text.len() as u16 + 1).collect();
            let mut rows = tuples(&places, 3);
            rows.retain(|row| is_occurrence(&pattern, &text, row));
            assert_eq!(occurrences(&pattern, &text), rows);
        }
    }
}

/// The rows, each place moved by this.
fn moved(rows: &[Row], by: u16) -> Vec<Row> {
    rows.iter().map(|row| row.iter().map(|place| place + by).collect()).collect()
}

/// The occurrences are those of the sentences one after another, and those of the text without sentence ends that have
/// no 0 in their excerpt; the lists are those of the sentences one after another.
#[test]
fn occurrences_sentence_by_sentence() {
    let gaps = [(0, 1), (0, 3)];
    let one = patterns(1, &[Only(&[1]), But(&[1]), But(&[])], &gaps, &[ANY_SPAN]);
    let three = patterns(3, &[Only(&[1]), Only(&[1, 2]), But(&[1])], &gaps, &[(3, 5)]);
    for pattern in [one, three].concat() {
        for text in texts(&[0, 1, 2], 7) {
            let (listed, sieved) = (Brute::enumerated(&pattern, &text), Brute::windowed(&pattern, &text));
            let rows = listed.searcher().unwrap().rows();
            let (mut all, mut front, mut back) = (Vec::new(), Vec::new(), Vec::new());
            for (before, sentence) in sentences(&text) {
                let alone = Brute::enumerated(&pattern, sentence);
                all.extend(moved(alone.searcher().unwrap().rows(), before));
                front.extend(moved(alone.front().unwrap(), before));
                back.extend(moved(alone.back().unwrap(), before));
            }
            assert_eq!((rows, listed.front().unwrap(), listed.back().unwrap()), (&all[..], &front[..], &back[..]));
            assert_eq!((sieved.front().unwrap(), sieved.back().unwrap()), (&front[..], &back[..]));
            assert_eq!((sieved.searcher().unwrap().all(), sieved.tallied()), (all, Ok(rows.len() as u128)));
            let excerpt = |row: &Row| &text[row[0] as usize - 1..row[row.len() - 1] as usize];
            let mut kept = occurrences(&pattern, &without_stops(&pattern, &text));
            kept.retain(|row| !excerpt(row).contains(&0));
            assert_eq!(rows, kept);
            assert_eq!(front.len(), largest_size(rows));
        }
    }
}

/// The two ways to search agree.
#[test]
fn sieves_agree_with_lists() {
    let mut rng = Rng::new(2);
    for round in 0..2_000 {
        let kind = Kind { slots: (1, 6), highest_word: 4, most_words: 2, widest_gap: 1 + round % 4 };
        let pattern = any_pattern(&mut rng, &kind);
        let length = rng.within(0, 40);
        let text = any_text(&mut rng, length, 4);
        let listed = Brute::enumerated(&pattern, &text);
        let sieved = Brute::windowed(&pattern, &text);
        assert_eq!(listed.front(), sieved.front());
        assert_eq!(listed.back(), sieved.back());
        assert_eq!(listed.tally(), sieved.tally());
        let rows = listed.searcher().unwrap().all();
        assert_eq!(sieved.searcher().unwrap().all(), rows);
        for _ in 0..10 {
            let marks = any_marks(&mut rng, pattern.count, length);
            assert_eq!(listed.first_after(&marks), sieved.first_after(&marks));
            assert_eq!(listed.last_before(&marks), sieved.last_before(&marks));
        }
    }
}
