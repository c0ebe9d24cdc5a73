//! Rows, and what follows from the two searches alone: the front and the back list.

/// A place for each slot.
pub type Row = Vec<u16>;

/// A way to search a pattern in a text, both within the limits.
pub trait Searcher {
    /// How many slots the pattern has.
    fn slots(&self) -> usize;

    /// The occurrence past the marks that is earliest at every slot.
    fn first_after(&self, marks: &[u16]) -> Option<Row>;

    /// The occurrence before the marks that is latest at every slot.
    fn last_before(&self, marks: &[u16]) -> Option<Row>;

    /// How many occurrences there are.
    fn tally(&self) -> u128;

    /// How many occurrences start at each place, one number for each word of the text.
    fn starts(&self) -> Vec<u128>;

    /// All occurrences, first place first, ties by the next slot.
    fn all(&self) -> Vec<Row>;
}

/// The front list: the forward search again and again, each time from the row before.
pub fn leftmost(searcher: &impl Searcher) -> Vec<Row> {
    let first = searcher.first_after(&vec![0; searcher.slots()]);
    std::iter::successors(first, |row| searcher.first_after(row)).collect()
}

/// The back list: the backward search again and again, its earliest row first.
pub fn rightmost(searcher: &impl Searcher) -> Vec<Row> {
    let last = searcher.last_before(&vec![65535; searcher.slots()]);
    let mut rows: Vec<Row> = std::iter::successors(last, |row| searcher.last_before(row)).collect();
    rows.reverse();
    rows
}

/// How many of the rows start at each of so many places.
pub fn grouped(rows: &[Row], places: usize) -> Vec<u128> {
    let mut starts = vec![0; places];
    rows.iter().for_each(|row| starts[row[0] as usize - 1] += 1);
    starts
}

/// A set of rows in rising order: row k has, at each slot, the k-th smallest place.
pub fn sorted_by_slot(rows: &[Row]) -> Vec<Row> {
    let mut sorted = rows.to_vec();
    for slot in 0..rows.first().map_or(0, Vec::len) {
        let mut places: Vec<u16> = rows.iter().map(|row| row[slot]).collect();
        places.sort_unstable();
        for (row, place) in sorted.iter_mut().zip(places) {
            row[slot] = place;
        }
    }
    sorted
}

/// Puts into the row, at each slot, what `choose` makes of its place and the other row's.
pub fn slot_by_slot(row: &mut [u16], other: &[u16], choose: fn(u16, u16) -> u16) {
    for (place, &rival) in row.iter_mut().zip(other) {
        *place = choose(*place, rival);
    }
}
