//! The library's calls on a pattern and a text without the brute force, for answers that are held to each other.

use compare::ffi;
use compare::halves::{halves, sum, whole, wholes};
use compare::layout::{Answer, Found, Pattern, Total};

use crate::call::Call;

/// A call of the library that gives a number, in two halves.
pub type Number = fn(&Pattern, &[u16]) -> Total;

/// A list call of the library.
pub type ListCall = fn(&Pattern, &[u16], &mut [u16]) -> Answer;

/// A search of the library.
pub type Search = fn(&Pattern, &[u16], &[u16]) -> Found;

/// The calls that give a number.
pub const NUMBERS: [(Call, Number); 2] = [(Call::Support, support), (Call::Tally, ffi::tally)];

/// The calls that give a list: the front list, the back list, all occurrences.
pub const LISTS: [(Call, ListCall); 3] =
    [(Call::Leftmost, ffi::leftmost), (Call::Rightmost, ffi::rightmost), (Call::All, ffi::all)];

/// The searches.
pub const SEARCHES: [(Call, Search); 2] = [(Call::FirstAfter, ffi::first_after), (Call::LastBefore, ffi::last_before)];

/// The count, with a high half of 0.
fn support(pattern: &Pattern, text: &[u16]) -> Total {
    let Answer { number, place, value } = ffi::support(pattern, text);
    Total { number, place, high: 0, low: value }
}

/// The number that an answer carries, which is no refusal.
pub fn number(answer: Total) -> u128 {
    assert_eq!((answer.number, answer.place), (0, 0), "an accepted input is refused");
    whole(answer.high, answer.low)
}

/// The answer that adds up two, which are no refusals.
pub fn added(one: Total, other: Total) -> Total {
    let [high, low] = halves(sum(&[number(one), number(other)]));
    Total { number: 0, place: 0, high, low }
}

/// The column of an accepted pattern, with just as many entries lent as it needs.
pub fn column(pattern: &Pattern, text: &[u16]) -> Vec<u128> {
    let mut entries = vec![30_000; 2 * text.len()];
    let answer = ffi::starts(pattern, text, &mut entries);
    let written = Answer { number: 0, place: 0, value: text.len() as u64 };
    assert_eq!(answer, written, "the column\npattern: {pattern:?}\ntext: {text:?}");
    wholes(&entries)
}

/// The entries that a list call writes, with so many lent, which is room enough.
pub fn listed(list: ListCall, pattern: &Pattern, text: &[u16], room: usize) -> Vec<u16> {
    let mut entries = vec![0; room];
    let answer = list(pattern, text, &mut entries);
    assert_eq!(answer.number, 0);
    entries.truncate(answer.value as usize * pattern.count);
    entries
}
