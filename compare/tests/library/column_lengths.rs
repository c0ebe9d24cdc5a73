//! Columns with lists of every length lent: with fewer than two entries for each word they are refused with 8 and nothing
//! is written; with more, the entries past the column stay as they are.

use compare::cases::columns::gapped_sevens;
use compare::ffi;
use compare::halves::halved;
use compare::layout::{Answer, Pattern};

use crate::call::Call;
use crate::column::WORDS;
use crate::lent::Lent;
use crate::run::Run;

/// Compares lists of every length for short texts, and of lengths around one and two entries for each word for long ones.
pub fn run(run: &mut Run) {
    for words in 0..=9 {
        for room in 0..=3 * words + 3 {
            sevens(run, 1, words, room);
            sevens(run, 3, words, room);
        }
    }
    for (slots, words) in [(16, 16), (16, 117), (16, 200), (16, 1_000), (2, 255), (2, WORDS - 1), (2, WORDS)] {
        let around = |entries: usize| [entries - 2, entries - 1, entries, entries + 1, entries + 2];
        let rooms = [vec![0, 1, 3 * words, 4 * words], [words, 2 * words].map(around).concat()].concat();
        rooms.into_iter().for_each(|room| sevens(run, slots, words, room));
    }
}

/// Compares the column of so many sevens in a text of sevens, with so many entries lent.
fn sevens(run: &mut Run, slots: usize, words: usize, room: usize) {
    run.input();
    let (pattern, column) = gapped_sevens(slots, 63, words);
    let mut expected = Lent::numbers(room);
    let answer = written(&column, expected.part());
    lent(run, &pattern, &vec![7; words], (answer, expected), room);
}

/// Writes a column to the start of a list, if there is room: what the call answers.
fn written(column: &[u128], list: &mut [u64]) -> Answer {
    if list.len() < 2 * column.len() {
        return Answer { number: 8, place: 0, value: 0 };
    }
    list[..2 * column.len()].copy_from_slice(&halved(column));
    Answer { number: 0, place: 0, value: column.len() as u64 }
}

/// Holds the library's answer, and the list of so many entries that it is lent, to these.
pub fn lent(run: &mut Run, pattern: &Pattern, text: &[u16], (answer, list): (Answer, Lent<u64>), room: usize) {
    let mut lent = Lent::numbers(room);
    let library = ffi::starts(pattern, text, lent.part());
    let case = || format!("{} with {room} entries lent\npattern: {pattern:?}\ntext: {text:?}", Call::Starts);
    run.agree(&library, &answer, case);
    run.agree(&lent, &list, case);
    run.call(Call::Starts, library.number);
}
