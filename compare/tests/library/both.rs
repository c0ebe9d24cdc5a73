//! Every call on a pattern and a text, made on the library and worked out by brute force.

use std::collections::BTreeSet;
use std::fmt::Debug;

use compare::brute::{self, Brute, Row, Searcher};
use compare::ffi;
use compare::layout::{Answer, Cursors, Found, Made, Pattern, Served};

use crate::call::Call;
use crate::column_lengths::lent;
use crate::lent::Lent;
use crate::run::Run;

/// A list call of the library, and the same of the brute force.
type ListCall<'a, S> = (Call, fn(&Pattern, &[u16], &mut [u16]) -> Answer, fn(&Brute<'a, S>, &mut [u16]) -> Answer);

/// A search of the library, and the same of the brute force.
type Search<'a, S> = (Call, fn(&Pattern, &[u16], &[u16]) -> Found, fn(&Brute<'a, S>, &[u16]) -> Found);

/// The longest list lent for all occurrences.
const LONGEST: usize = 400_000;

/// A pattern and a text whose calls are compared.
pub struct Both<'a, S> {
    pub run: &'a mut Run,
    pub brute: Brute<'a, S>,
}

impl<'a, S: Searcher> Both<'a, S> {
    /// Begins one input of the run.
    pub fn new(run: &'a mut Run, brute: Brute<'a, S>) -> Self {
        run.input();
        Both { run, brute }
    }

    /// Stops with the case written out unless both agree.
    fn agree<T: PartialEq + Debug>(&self, library: &T, brute: &T, call: impl Fn() -> String) {
        let (pattern, text) = (self.brute.pattern, self.brute.text);
        let case = || format!("{}\npattern: {pattern:?}\ntext: {text:?}", call());
        self.run.agree(library, brute, case);
    }

    /// Compares the tests of the limits.
    pub fn check(&mut self) {
        check(self.run, self.brute.pattern, self.brute.text.len());
    }

    /// Compares the count and the tally.
    pub fn numbers(&mut self) {
        let (library, brute) = (ffi::support(self.brute.pattern, self.brute.text), self.brute.support());
        self.agree(&library, &brute, || Call::Support.to_string());
        self.run.call(Call::Support, library.number);
        self.tally();
    }

    /// Compares the tally, both halves.
    pub fn tally(&mut self) {
        let (library, brute) = (ffi::tally(self.brute.pattern, self.brute.text), self.brute.tally());
        self.agree(&library, &brute, || Call::Tally.to_string());
        self.run.call(Call::Tally, library.number);
    }

    /// Compares the column, with lists of every interesting length lent.
    pub fn column(&mut self) {
        self.column_rooms().into_iter().for_each(|room| self.column_in(room));
    }

    /// Lengths for a list of the column, one with a single number for each word among them: short ones if the text is
    /// past its limit, for it is refused with any list.
    pub fn column_rooms(&self) -> Vec<usize> {
        let words = self.brute.text.len();
        if words > 20_000 {
            return vec![0, 37];
        }
        let mut lengths = [vec![0, words, 2 * words + 1], rooms(2 * words)].concat();
        lengths.sort();
        lengths.dedup();
        lengths
    }

    /// Compares the column with so many entries lent.
    pub fn column_in(&mut self, room: usize) {
        let mut expected = Lent::numbers(room);
        let answer = self.brute.starts(expected.part());
        lent(self.run, self.brute.pattern, self.brute.text, (answer, expected), room);
    }

    /// Compares whether a row is an occurrence, and every word of its excerpt.
    pub fn row(&mut self, row: &[u16]) {
        let (pattern, text) = (self.brute.pattern, self.brute.text);
        let library = ffi::is_occurrence(pattern, text, row);
        let brute = self.brute.is_occurrence(row);
        self.agree(&library, &brute, || format!("is_occurrence {row:?}"));
        self.run.call(Call::IsOccurrence, library.number);
        let length = self.brute.excerpt(row, 0).length;
        for index in (0..=length).chain([usize::MAX]) {
            let library = ffi::excerpt(pattern, text, row, index);
            let brute = self.brute.excerpt(row, index);
            self.agree(&library, &brute, || format!("excerpt {row:?} at {index}"));
            self.run.call(Call::Excerpt, 0);
        }
    }

    /// Compares both searches from these marks.
    pub fn searches(&mut self, marks: &[u16]) {
        let searches: [Search<S>; 2] = [
            (Call::FirstAfter, ffi::first_after, Brute::first_after),
            (Call::LastBefore, ffi::last_before, Brute::last_before),
        ];
        for (call, library, brute) in searches {
            let library = library(self.brute.pattern, self.brute.text, marks);
            let brute = brute(&self.brute, marks);
            self.agree(&library, &brute, || format!("{call} {marks:?}"));
            self.run.call(call, library.number);
        }
    }

    /// Compares the front and the back list, with lists of every interesting length lent.
    pub fn lists(&mut self) {
        let rows = self.brute.front().map_or(0, <[Row]>::len);
        let entries = rows * self.brute.pattern.count.min(16);
        for room in [vec![0, entries + 1], rooms(entries)].concat() {
            self.list((Call::Leftmost, ffi::leftmost, Brute::leftmost), room);
            self.list((Call::Rightmost, ffi::rightmost, Brute::rightmost), room);
        }
    }

    /// Compares the list of all occurrences, with lists of every interesting length lent.
    pub fn all(&mut self) {
        let rows = self.brute.tallied().unwrap_or(0);
        let entries = rows * self.brute.pattern.count.min(16) as u128;
        let rooms = match usize::try_from(entries) {
            Ok(entries) if entries <= LONGEST => rooms(entries),
            _ => vec![0, LONGEST],
        };
        for room in rooms {
            self.list((Call::All, ffi::all, Brute::all), room);
        }
    }

    /// Compares one list call with so many entries lent.
    fn list(&mut self, (call, library, brute): ListCall<'a, S>, room: usize) {
        let (mut lent, mut expected) = (Lent::places(room), Lent::places(room));
        let library = library(self.brute.pattern, self.brute.text, lent.part());
        let brute = brute(&self.brute, expected.part());
        let case = || format!("{call} with {room} entries lent");
        self.agree(&library, &brute, case);
        self.agree(&lent, &expected, case);
        self.run.call(call, library.number);
    }

    /// Compares the next occurrence for a client, and gives what the library answers.
    pub fn next(&mut self, cursors: &Cursors, client: usize) -> Served {
        let (pattern, text) = (self.brute.pattern, self.brute.text);
        let library = ffi::next(cursors, client, pattern, text);
        let brute = self.brute.next(cursors, client);
        self.agree(&library, &brute, || format!("next for {client} from {cursors:?}"));
        self.run.call(Call::Next, library.number);
        library
    }

    /// Compares each call once or more, with these marks, which also serve as a row.
    pub fn every_call(&mut self, marks: &[u16], cursors: &Cursors, client: usize) {
        self.check();
        check_pattern(self.run, self.brute.pattern);
        write_pattern(self.run, self.brute.pattern);
        merge(self.run, self.brute.pattern, self.brute.pattern);
        self.numbers();
        self.column();
        self.row(marks);
        self.searches(marks);
        self.lists();
        self.all();
        self.next(cursors, client);
    }
}

/// Lengths for a list that takes so many entries: one too short, exact, longer by some.
fn rooms(entries: usize) -> Vec<usize> {
    let mut rooms = vec![entries.saturating_sub(1), entries, entries + 37];
    rooms.dedup();
    rooms
}

/// Compares the tests of a pattern and of a text of so many words.
pub fn check(run: &mut Run, pattern: &Pattern, words: usize) {
    let (library, brute) = (ffi::check(pattern, words), brute::check(pattern, words));
    let case = || format!("check with {words} words\npattern: {pattern:?}");
    run.agree(&library, &brute, case);
    run.call(Call::Check, library.number);
}

/// Compares the tests of a pattern alone.
pub fn check_pattern(run: &mut Run, pattern: &Pattern) {
    let (library, brute) = (ffi::check_pattern(pattern), brute::check_pattern(pattern));
    run.agree(&library, &brute, || format!("check_pattern\npattern: {pattern:?}"));
    run.call(Call::CheckPattern, library.number);
}

/// Compares what a pattern is written as, with lists of every interesting length lent.
pub fn write_pattern(run: &mut Run, pattern: &Pattern) {
    let bytes = brute::written(pattern).map_or(0, |file| file.len());
    for room in BTreeSet::from_iter([vec![0, bytes + 1, 2_000], rooms(bytes)].concat()) {
        write_pattern_in(run, pattern, room);
    }
}

/// Compares what a pattern is written as, with so many bytes lent.
pub fn write_pattern_in(run: &mut Run, pattern: &Pattern, room: usize) {
    let (mut lent, mut expected) = (Lent::bytes(room), Lent::bytes(room));
    let library = ffi::write_pattern(pattern, lent.part());
    let brute = brute::write_pattern(pattern, expected.part());
    let case = || format!("write_pattern with {room} bytes lent\npattern: {pattern:?}");
    run.agree(&library, &brute, case);
    run.agree(&lent, &expected, case);
    run.call(Call::WritePattern, library.number);
}

/// Compares a new pattern with these span limits.
pub fn pattern_of(run: &mut Run, least: u16, most: u16) {
    let (library, brute) = (ffi::pattern_of(least, most), brute::pattern_of(least, most));
    run.agree(&library, &brute, || format!("pattern_of {least} {most}"));
    run.call(Call::PatternOf, 0);
}

/// Compares adding a slot to a pattern, plain and excluding.
pub fn with_slot(run: &mut Run, pattern: &Pattern, low: u16, high: u16, words: &[u16]) {
    for excluding in [false, true] {
        let library = ffi::with_slot(pattern, low, high, excluding, words);
        let brute = brute::with_slot(pattern, low, high, excluding, words);
        let case = || format!("with_slot {low} {high} {excluding} {words:?}\npattern: {pattern:?}");
        run.agree(&library, &brute, case);
        run.call(Call::WithSlot, library.number);
    }
}

/// Compares two patterns merged, and gives what the library makes of them.
pub fn merge(run: &mut Run, first: &Pattern, second: &Pattern) -> Made {
    let (library, brute) = (ffi::merge(first, second), brute::merge(first, second));
    run.agree(&library, &brute, || format!("merge\nfirst: {first:?}\nsecond: {second:?}"));
    run.call(Call::Merge, library.number);
    library
}

/// Compares setting a client's marks to 0, and gives what the library answers.
pub fn rewind(run: &mut Run, cursors: &Cursors, client: usize) -> Served {
    let library = ffi::rewind(cursors, client);
    let brute = brute::rewind(cursors, client);
    let case = || format!("rewind {client} from {cursors:?}");
    run.agree(&library, &brute, case);
    run.call(Call::Rewind, library.number);
    library
}
