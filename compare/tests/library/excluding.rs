//! Patterns with slots in their other form, excluding for plain and plain for excluding: the library answers for both alike.

use std::fmt::Debug;

use compare::cases::files::{text_file, usual_pattern_file};
use compare::cases::random::{any_cursors, any_marks, any_pattern, any_text, Kind};
use compare::cases::turned::turned;
use compare::ffi;
use compare::layout::Pattern;
use compare::rng::Rng;

use crate::alone::{column, listed, number, LISTS, NUMBERS, SEARCHES};
use crate::call::Call;
use crate::run::Run;

/// What the patterns are like: of two words, of eight, and with many slots.
const KINDS: [Kind; 4] = [
    Kind { slots: (1, 5), highest_word: 2, most_words: 2, widest_gap: 4 },
    Kind { slots: (1, 6), highest_word: 8, most_words: 8, widest_gap: 9 },
    Kind { slots: (5, 12), highest_word: 3, most_words: 2, widest_gap: 3 },
    Kind { slots: (1, 16), highest_word: 8, most_words: 8, widest_gap: 63 },
];

/// The most occurrences that are listed.
const LISTED: u128 = 5_000;

/// Compares patterns with all, one, or some of their slots in the other form.
pub fn run(run: &mut Run) {
    let mut rng = Rng::new(111);
    for round in 0..3_000 {
        let words = rng.within(0, 60);
        compare(run, &mut rng, &KINDS[round % KINDS.len()], words);
    }
    for kind in &KINDS {
        compare(run, &mut rng, kind, 20_000);
    }
}

/// Compares a pattern and the same in other forms, in a text of so many words.
fn compare(run: &mut Run, rng: &mut Rng, kind: &Kind, words: usize) {
    let pattern = any_pattern(rng, kind);
    let text = any_text(rng, words, kind.highest_word);
    let (one, some) = (rng.within(0, pattern.count - 1), rng.bits());
    let others = [
        turned(&pattern, kind.highest_word, |_| true),
        turned(&pattern, kind.highest_word, |at| at == one),
        turned(&pattern, kind.highest_word, |at| some >> at & 1 == 1),
    ];
    for other in &others {
        Alike { run, pattern: &pattern, other, text: &text }.every_call(rng);
    }
}

/// Two patterns that have the same occurrences in a text.
struct Alike<'a> {
    run: &'a mut Run,
    pattern: &'a Pattern,
    other: &'a Pattern,
    text: &'a [u16],
}

impl Alike<'_> {
    /// Stops with the case written out unless the library answers for both patterns alike, and counts the call.
    fn agree<T: PartialEq + Debug>(&mut self, call: Call, answer: impl Fn(&Pattern) -> T, refused: impl Fn(&T) -> u32) {
        let Alike { pattern, other, text, .. } = self;
        let (one, turned) = (answer(pattern), answer(other));
        self.run.agree(&one, &turned, || format!("{call}\npatterns: {pattern:?}\n{other:?}\ntext: {text:?}"));
        self.run.call(call, refused(&one));
    }

    /// Compares the calls on a pattern and a text, from marks and cursors at random.
    fn every_call(&mut self, rng: &mut Rng) {
        let (text, slots) = (self.text, self.pattern.count);
        self.run.input();
        for (call, number) in NUMBERS {
            self.agree(call, |pattern| number(pattern, text), |answer| answer.number);
        }
        self.agree(Call::Starts, |pattern| column(pattern, text), |_| 0);
        self.lists();
        for _ in 0..3 {
            let marks = any_marks(rng, slots, text.len());
            for (call, search) in SEARCHES {
                self.agree(call, |pattern| search(pattern, text, &marks), |found| found.number);
                self.row(&search(self.pattern, text, &marks).places[..slots]);
            }
            self.row(&marks);
        }
        let (cursors, client) = (any_cursors(rng, text.len()), rng.within(1, 4));
        self.agree(Call::Next, |pattern| ffi::next(&cursors, client, pattern, text), |served| served.number);
        let file = text_file(text);
        let count = |pattern: &Pattern| ffi::count(&usual_pattern_file(pattern), &file);
        self.agree(Call::Count, count, |count| count.saturating_sub(100_000));
    }

    /// Compares the lists, if they are not too long.
    fn lists(&mut self) {
        let (text, slots) = (self.text, self.pattern.count);
        let [support, tally] = NUMBERS.map(|(_, call)| number(call(self.pattern, text)));
        for (call, list) in LISTS {
            let rows = if call == Call::All { tally } else { support };
            if rows <= LISTED {
                let room = rows as usize * slots;
                self.agree(call, |pattern| listed(list, pattern, text, room), |_| 0);
            }
        }
    }

    /// Compares whether a row is an occurrence, and its excerpt's length and last word.
    fn row(&mut self, row: &[u16]) {
        let text = self.text;
        self.agree(Call::IsOccurrence, |pattern| ffi::is_occurrence(pattern, text, row), |answer| answer.number);
        let length = ffi::excerpt(self.pattern, text, row, 0).length;
        self.agree(Call::Excerpt, |pattern| ffi::excerpt(pattern, text, row, length.saturating_sub(1)), |_| 0);
    }
}
