//! The largest nonoverlapping sets of occurrences, found by trying sets out.

use super::rows::Row;

/// A search through the nonoverlapping sets: for each first place, no occurrence or one that begins there.
struct Trial<'a> {
    /// The occurrences, grouped by their first place.
    groups: Vec<&'a [Row]>,
    chosen: Vec<Row>,
    /// How many rows a set is to have.
    size: usize,
    /// The sets found, and how many of them are to be kept.
    kept: Vec<Vec<Row>>,
    room: usize,
}

impl Trial<'_> {
    /// Tries every choice for the groups from `at` on.
    fn go_on(&mut self, at: usize) {
        if self.chosen.len() == self.size {
            self.kept.push(self.chosen.clone());
            return;
        }
        let too_few_left = self.chosen.len() + self.groups.len() - at < self.size;
        if too_few_left || self.kept.len() >= self.room {
            return;
        }
        for row in self.groups[at] {
            if self.chosen.iter().all(|chosen| !overlap(chosen, row)) {
                self.chosen.push(row.clone());
                self.go_on(at + 1);
                self.chosen.pop();
            }
        }
        self.go_on(at + 1);
    }
}

/// Whether two occurrences have the same place at some slot.
pub fn overlap(one: &[u16], other: &[u16]) -> bool {
    one.iter().zip(other).any(|(place, rival)| place == rival)
}

/// How many rows a largest nonoverlapping set of these occurrences has; they come first place first.
pub fn largest_size(rows: &[Row]) -> usize {
    let mut size = 0;
    while !sets_of(rows, size + 1, 1).is_empty() {
        size += 1;
    }
    size
}

/// The largest nonoverlapping sets of these occurrences, some `room` of them if there are more.
pub fn largest_sets(rows: &[Row], room: usize) -> Vec<Vec<Row>> {
    sets_of(rows, largest_size(rows), room)
}

/// The nonoverlapping sets of so many rows; the search ends once `room` are found.
fn sets_of(rows: &[Row], size: usize, room: usize) -> Vec<Vec<Row>> {
    let mut trial = Trial {
        groups: rows.chunk_by(|one, other| one[0] == other[0]).collect(),
        chosen: Vec::new(),
        size,
        kept: Vec::new(),
        room,
    };
    trial.go_on(0);
    trial.kept
}

#[cfg(test)]
mod tests {
    use super::*;

    /// Sets of a few rows, seen at a glance.
    #[test]
    fn glance() {
        let rows = [vec![1, 3, 5], vec![5, 7, 8], vec![6, 7, 8]];
        assert_eq!(largest_size(&rows), 2);
        assert_eq!(largest_sets(&rows, 9).len(), 2);
        assert_eq!(largest_sets(&rows, 1).len(), 1);
        assert_eq!(largest_size(&[]), 0);
        let chain = [vec![1, 2], vec![1, 3], vec![2, 2], vec![2, 3], vec![2, 4]];
        assert_eq!(largest_size(&chain), 2);
        assert_eq!(largest_sets(&chain, 9).len(), 4);
    }
}
