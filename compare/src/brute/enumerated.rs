//! Searches among all occurrences, written out one by one.

use super::occurrences::occurrences;
use super::rows::{grouped, slot_by_slot, Row, Searcher};
use crate::layout::Pattern;

/// All occurrences of a pattern in a text.
pub struct Enumerated {
    slots: usize,
    words: usize,
    rows: Vec<Row>,
}

impl Enumerated {
    /// Writes out all occurrences of a pattern within the limits in a text within the limits.
    pub fn new(pattern: &Pattern, text: &[u16]) -> Enumerated {
        Enumerated { slots: pattern.count, words: text.len(), rows: occurrences(pattern, text) }
    }

    /// The occurrences.
    pub fn rows(&self) -> &[Row] {
        &self.rows
    }

    /// The best place at every slot over all occurrences whose places `passes` lets through; it must be one of them.
    fn best(&self, marks: &[u16], passes: fn(u16, u16) -> bool, choose: fn(u16, u16) -> u16) -> Option<Row> {
        let past = |row: &&Row| (0..self.slots).all(|slot| passes(row[slot], marks[slot]));
        let rivals: Vec<&Row> = self.rows.iter().filter(past).collect();
        let mut best = rivals.first()?.to_vec();
        for rival in &rivals {
            slot_by_slot(&mut best, rival, choose);
        }
        assert!(rivals.contains(&&best), "no occurrence is best: {best:?}");
        Some(best)
    }
}

impl Searcher for Enumerated {
    fn slots(&self) -> usize {
        self.slots
    }

    fn first_after(&self, marks: &[u16]) -> Option<Row> {
        self.best(marks, |place, mark| place > mark, u16::min)
    }

    fn last_before(&self, marks: &[u16]) -> Option<Row> {
        self.best(marks, |place, mark| place < mark, u16::max)
    }

    fn tally(&self) -> u128 {
        self.rows.len() as u128
    }

    fn starts(&self) -> Vec<u128> {
        grouped(&self.rows, self.words)
    }

    fn all(&self) -> Vec<Row> {
        self.rows.clone()
    }
}
