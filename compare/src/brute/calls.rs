//! The calls on a pattern and a text: what each answers and what it writes.

use std::cell::OnceCell;

use super::limits::{test_pattern, test_text};
use super::occurrences::{failed, is_occurrence};
use super::refusal::{answer, refuse, total, Refusal};
use super::rows::{leftmost, rightmost, Row, Searcher};
use super::{cursors, Enumerated, Windowed};
use crate::halves::halved;
use crate::layout::{Answer, Cursors, Excerpted, Found, Pattern, Served, Total};

/// A pattern and a text, with a way to search them if both are within the limits.
pub struct Brute<'a, S> {
    pub pattern: &'a Pattern,
    pub text: &'a [u16],
    searcher: Result<S, Refusal>,
    front: OnceCell<Vec<Row>>,
    back: OnceCell<Vec<Row>>,
    tally: OnceCell<u128>,
}

impl<'a> Brute<'a, Enumerated> {
    /// Searches among all occurrences, written out one by one.
    pub fn enumerated(pattern: &'a Pattern, text: &'a [u16]) -> Self {
        Brute::new(pattern, text, Enumerated::new)
    }
}

impl<'a> Brute<'a, Windowed> {
    /// Searches by sieves, for texts and patterns with too many occurrences to write out.
    pub fn windowed(pattern: &'a Pattern, text: &'a [u16]) -> Self {
        Brute::new(pattern, text, Windowed::new)
    }
}

impl<'a, S: Searcher> Brute<'a, S> {
    /// Tests the pattern and the text, and makes the searcher if they pass.
    fn new(pattern: &'a Pattern, text: &'a [u16], make: fn(&Pattern, &[u16]) -> S) -> Self {
        let tested = test_pattern(pattern).and_then(|()| test_text(text.len()));
        Brute {
            pattern,
            text,
            searcher: tested.map(|()| make(pattern, text)),
            front: OnceCell::new(),
            back: OnceCell::new(),
            tally: OnceCell::new(),
        }
    }

    /// The searcher, or why there is none.
    pub fn searcher(&self) -> Result<&S, Refusal> {
        self.searcher.as_ref().map_err(|refusal| *refusal)
    }

    /// The front list's rows.
    pub fn front(&self) -> Result<&[Row], Refusal> {
        let searcher = self.searcher()?;
        Ok(self.front.get_or_init(|| leftmost(searcher)))
    }

    /// The back list's rows.
    pub fn back(&self) -> Result<&[Row], Refusal> {
        let searcher = self.searcher()?;
        Ok(self.back.get_or_init(|| rightmost(searcher)))
    }

    /// The searcher, if besides there are as many places as slots.
    fn searcher_for(&self, places: &[u16]) -> Result<&S, Refusal> {
        let searcher = self.searcher()?;
        if places.len() != self.pattern.count {
            return refuse(7, 0);
        }
        Ok(searcher)
    }

    /// Whether a row is an occurrence, or why that is not said.
    fn occurs(&self, row: &[u16]) -> Result<bool, Refusal> {
        self.searcher_for(row)?;
        Ok(is_occurrence(self.pattern, self.text, row))
    }

    /// Whether a row is an occurrence, 1 or 0.
    pub fn is_occurrence(&self, row: &[u16]) -> Answer {
        answer(self.occurs(row).map(u64::from))
    }

    /// Which of the conditions, in their order, a row fails, or why that is not said.
    pub fn failed(&self, row: &[u16]) -> Result<[bool; 4], Refusal> {
        self.searcher_for(row)?;
        Ok(failed(self.pattern, self.text, row))
    }

    /// How long the row's excerpt is, and its word at an index from 0.
    pub fn excerpt(&self, row: &[u16], index: usize) -> Excerpted {
        let part = match self.occurs(row) {
            Ok(true) => &self.text[row[0] as usize - 1..row[row.len() - 1] as usize],
            _ => &[],
        };
        Excerpted { length: part.len(), word: part.get(index).copied().unwrap_or(0) }
    }

    /// The earliest occurrence past the marks.
    pub fn first_after(&self, marks: &[u16]) -> Found {
        let searcher = self.searcher_for(marks);
        found(searcher.map(|searcher| searcher.first_after(marks)))
    }

    /// The latest occurrence before the marks.
    pub fn last_before(&self, marks: &[u16]) -> Found {
        let searcher = self.searcher_for(marks);
        found(searcher.map(|searcher| searcher.last_before(marks)))
    }

    /// Writes the front list.
    pub fn leftmost(&self, list: &mut [u16]) -> Answer {
        answer(self.front().and_then(|rows| write(rows, list, rows.len())))
    }

    /// Writes the back list.
    pub fn rightmost(&self, list: &mut [u16]) -> Answer {
        answer(self.back().and_then(|rows| write(rows, list, rows.len())))
    }

    /// Writes all occurrences.
    pub fn all(&self, list: &mut [u16]) -> Answer {
        answer(self.searcher().and_then(|searcher| {
            if self.tallied()? * searcher.slots() as u128 > list.len() as u128 {
                return refuse(8, 0);
            }
            write(&searcher.all(), list, 0)
        }))
    }

    /// The count.
    pub fn support(&self) -> Answer {
        answer(self.front().map(|rows| rows.len() as u64))
    }

    /// The tally.
    pub fn tally(&self) -> Total {
        total(self.tallied())
    }

    /// Writes how many occurrences start at each place, in two halves, and answers how many words there are.
    pub fn starts(&self, list: &mut [u64]) -> Answer {
        answer(self.searcher().and_then(|searcher| {
            let words = self.text.len();
            let Some(start) = list.get_mut(..2 * words) else {
                return refuse(8, 0);
            };
            start.copy_from_slice(&halved(&searcher.starts()));
            Ok(words as u64)
        }))
    }

    /// How many occurrences there are.
    pub fn tallied(&self) -> Result<u128, Refusal> {
        let searcher = self.searcher()?;
        Ok(*self.tally.get_or_init(|| searcher.tally()))
    }

    /// The next occurrence for a client, and the state after it.
    pub fn next(&self, cursors: &Cursors, client: usize) -> Served {
        let mut after = *cursors;
        let outcome = self.searcher().and_then(|searcher| cursors::next(&mut after, client, searcher));
        cursors::served(after, outcome)
    }
}

/// The tests of a pattern, and of a text of so many words; the answer's value is 0.
pub fn check(pattern: &Pattern, words: usize) -> Answer {
    let tested = test_pattern(pattern).and_then(|()| test_text(words));
    answer(tested.map(|()| 0))
}

/// The tests of a pattern alone; the answer's value is 0.
pub fn check_pattern(pattern: &Pattern) -> Answer {
    answer(test_pattern(pattern).map(|()| 0))
}

/// Writes rows one after another to the start of a list; if it is too short, refuses with 8 and this place.
fn write(rows: &[Row], list: &mut [u16], place: usize) -> Result<u64, Refusal> {
    let entries = rows.concat();
    match list.get_mut(..entries.len()) {
        None => refuse(8, place),
        Some(start) => {
            start.copy_from_slice(&entries);
            Ok(rows.len() as u64)
        }
    }
}

/// What a search answers, by its row, its lack of one, or its refusal.
pub fn found(outcome: Result<Option<Row>, Refusal>) -> Found {
    let mut found = Found { number: 0, place: 0, found: 0, places: [0; 16] };
    match outcome {
        Ok(None) => {}
        Ok(Some(row)) => {
            found.found = 1;
            found.places[..row.len()].copy_from_slice(&row);
        }
        Err(refusal) => (found.number, found.place) = (refusal.number, refusal.place),
    }
    found
}
