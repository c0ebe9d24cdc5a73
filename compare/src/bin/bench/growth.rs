//! How the library's cost grows with the text, the slots and the gap.

use crate::calls::Call;
use crate::cases::Case;
use crate::clock::alone;
use crate::texts::{Kind, Spans, WORDS};

/// The measured calls: a name, the call, its spans, and its slots in the table of gaps (few for "all", which would have too many rows).
const CALLS: [(&str, Call, Spans, usize); 4] = [
    ("front list", Call::Front, Spans::Loose, 16),
    ("tally, spans do not bind", Call::Tally, Spans::Loose, 16),
    ("tally, spans bind", Call::Tally, Spans::Tight, 16),
    ("all", Call::All, Spans::Loose, 3),
];

/// The library's milliseconds for a case on a text of so many words.
fn time(case: Case, words: usize) -> f64 {
    let (mut ready, _) = case.compared(words);
    alone(|| ready.library())
}

/// A line of a table: what varies, then a time for each call.
fn line(varied: &str, kind: Kind, words: usize, high: u16, slots: impl Fn(usize) -> usize) {
    print!("| {varied} |");
    for (_, call, spans, most) in CALLS {
        let case = Case { kind, slots: slots(most), high, spans, call };
        print!(" {:.3} |", time(case, words));
    }
    println!();
}

/// The head of a table.
fn head(title: &str, varied: &str) {
    println!("\n{title}\n");
    print!("| {varied} |");
    for (name, ..) in CALLS {
        print!(" {name} |");
    }
    println!("\n|---|---|---|---|---|");
}

/// Prints the three tables of growth.
pub fn print() {
    let kind = Kind::Random;
    head("Library ms by text length (four words, 8 slots, gaps 0–3):", "words");
    for words in [1_250, 2_500, 5_000, 10_000, WORDS] {
        line(&words.to_string(), kind, words, 3, |_| 8);
    }
    head("Library ms by slots (four words, gaps 0–3):", "slots");
    for slots in [2, 4, 8, 16] {
        line(&slots.to_string(), kind, WORDS, 3, |_| slots);
    }
    head("Library ms by gap (four words, 16 slots, but 3 for \"all\"):", "gaps");
    for high in [3, 7, 15, 31, 63] {
        line(&format!("0–{high}"), kind, WORDS, high, |most| most);
    }
}
