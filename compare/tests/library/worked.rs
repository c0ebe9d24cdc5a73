//! The scope's nine texts, those with sentence ends, those for excluding slots, the one whose rows fail one condition
//! alone, and the program's examples, as they are stated and as the brute force finds them.

use compare::brute::Brute;
use compare::cases::examples::EXAMPLES;
use compare::cases::files::{text_file, usual_pattern_file};
use compare::cases::orders::canonical;
use compare::cases::pattern;
use compare::cases::worked::{worked_texts, Rows, Worked};
use compare::cases::written::MOST_BYTES;
use compare::ffi;
use compare::layout::{Answer, Client, Cursors, Found, LineEnds, Pattern};

use crate::alone::column;
use crate::both::Both;
use crate::file_calls;
use crate::run::Run;

/// Compares the texts and the examples.
pub fn run(run: &mut Run) {
    for case in worked_texts() {
        let as_stated = pattern(case.span, case.slots);
        let pattern = canonical(&as_stated);
        stated(case, &pattern);
        let mut both = Both::new(run, Brute::enumerated(&pattern, case.text));
        for row in case.all.into_iter().flatten().chain(case.no_occurrences) {
            both.row(row);
        }
        both.every_call(&vec![0; case.slots.len()], &Cursors::default(), 1);
        let (file, text) = (usual_pattern_file(&as_stated), text_file(case.text));
        stated_in_files(case, &pattern, &file, &text);
        handed_in(run, &as_stated, &pattern, case.text);
        file_calls::pair(run, &file, &text);
        file_calls::lines(run, &text);
    }
    for (input, output) in EXAMPLES {
        let mut out = [0; 200];
        let written = ffi::report(input, &mut out);
        assert_eq!(&out[..written], output);
        run.input();
        file_calls::report(run, input);
        file_calls::lines(run, input);
        assert_lines(input);
        assert_lines(output);
    }
}

/// Compares every call on a pattern whose words are as they are stated, if these are not in order: it is refused.
fn handed_in(run: &mut Run, as_stated: &Pattern, pattern: &Pattern, text: &[u16]) {
    if as_stated != pattern {
        assert_eq!(ffi::check_pattern(as_stated).number, 16);
        let mut both = Both::new(run, Brute::enumerated(as_stated, text));
        both.every_call(&vec![0; pattern.count], &Cursors::default(), 1);
    }
}

/// Asserts what is stated of a text.
fn stated(case: &Worked, pattern: &Pattern) {
    assert_eq!(ffi::support(pattern, case.text).value, case.count as u64);
    if let Some(all) = case.all {
        let tally = ffi::tally(pattern, case.text);
        assert_eq!((tally.number, tally.high, tally.low), (0, 0, all.len() as u64));
        let begin = |place: usize| all.iter().filter(|row| row[0] as usize == place).count() as u128;
        assert_eq!(column(pattern, case.text), (1..=case.text.len()).map(begin).collect::<Vec<_>>());
    }
    for row in case.all.into_iter().flatten() {
        let length = usize::from(row[row.len() - 1] - row[0] + 1);
        assert_eq!(ffi::is_occurrence(pattern, case.text, row).value, 1);
        assert_eq!(ffi::excerpt(pattern, case.text, row, 0).length, length);
    }
    assert_rows(case.all, |list| ffi::all(pattern, case.text, list));
    assert_rows(case.front, |list| ffi::leftmost(pattern, case.text, list));
    assert_rows(case.back, |list| ffi::rightmost(pattern, case.text, list));
    for row in case.no_occurrences {
        assert_eq!(ffi::is_occurrence(pattern, case.text, row).value, 0);
        assert_eq!(ffi::excerpt(pattern, case.text, row, 0).length, 0);
    }
    stated_searches(case, pattern);
}

/// Asserts that the searches find the rows of the lists that are stated, one after another, and then none; so for a
/// client.
fn stated_searches(case: &Worked, pattern: &Pattern) {
    let slots = case.slots.len();
    if let Some(front) = case.front {
        let (mut marks, mut cursors) = (vec![0; slots], Cursors::default());
        for row in front.iter().map(Some).chain([None]) {
            assert_found(row, &ffi::first_after(pattern, case.text, &marks));
            let served = ffi::next(&cursors, 1, pattern, case.text);
            assert_eq!(served.places, ffi::first_after(pattern, case.text, &marks).places);
            (marks, cursors) = (row.map_or(marks, |row| row.to_vec()), served.cursors);
        }
        // The client was served each row of the front list once, and the others nothing.
        assert_eq!(cursors.clients[0].served, front.len());
        assert_eq!(cursors.clients[1..], [Client::default(); 3]);
    }
    let mut marks = vec![65_535; slots];
    for row in case.back.into_iter().flat_map(|back| back.iter().rev().map(Some).chain([None])) {
        assert_found(row, &ffi::last_before(pattern, case.text, &marks));
        marks = row.map_or(marks, |row| row.to_vec());
    }
}

/// Asserts that a search has found this row, or none.
fn assert_found(row: Option<&&[u16]>, found: &Found) {
    let mut expected = Found { number: 0, place: 0, found: u64::from(row.is_some()), places: [0; 16] };
    row.into_iter().for_each(|row| expected.places[..row.len()].copy_from_slice(row));
    assert_eq!(*found, expected);
}

/// Asserts that the files of a text are read as its pattern and its words, and counted, and that the pattern passes its
/// tests and is written as its file.
fn stated_in_files(case: &Worked, pattern: &Pattern, file: &[u8], text: &[u8]) {
    let mut words = vec![0; case.text.len()];
    let read = ffi::read_input(file, text, &mut words);
    assert_eq!((read.number, read.place, read.words), (0, 0, case.text.len() as u64));
    assert_eq!((read.pattern, &words[..]), (*pattern, case.text));
    assert_eq!(ffi::check_pattern(pattern), Answer { number: 0, place: 0, value: 0 });
    let mut written = [0; MOST_BYTES];
    let bytes = ffi::write_pattern(pattern, &mut written).value as usize;
    assert_eq!(&written[..bytes], usual_pattern_file(pattern));
    assert_eq!(ffi::count(file, text), case.count as u32);
}

/// Asserts that the lines of bytes that end with a closed line are found one after another.
fn assert_lines(bytes: &[u8]) {
    let mut begun = 0;
    for line in std::str::from_utf8(bytes).expect("the scope's example is ASCII").lines() {
        let found = ffi::line(bytes, begun);
        assert_eq!(&bytes[begun..found.end], line.as_bytes());
        assert_eq!(found.next, found.end + 1);
        begun = found.next;
    }
    assert_eq!(begun, bytes.len());
    assert_eq!(ffi::line(bytes, begun), LineEnds { end: begun, next: begun });
}

/// Asserts that a list, if it is named, has these rows.
fn assert_rows(named: Option<Rows>, call: impl Fn(&mut [u16]) -> Answer) {
    if let Some(named) = named {
        let entries = named.concat();
        let mut list = vec![0; entries.len()];
        assert_eq!(call(&mut list).value, named.len() as u64);
        assert_eq!(list, entries);
    }
}
