//! A text with a row for each of the four conditions that fails it alone, found by hand; the program `worked_cases`
//! runs it, too. Its x is the word 6 (`worked::X` is another).

use super::worked::{listed, Worked, A, B, STOP};
use super::Words::Only;

/// A word that no slot takes.
const OTHER: u16 = 6;

/// The rows of the text below that fail one condition alone: the word, the gap, the span, the sentence.
pub const FAIL_ALONE: [&[u16]; 4] = [&[1, 3], &[1, 2], &[1, 5], &[6, 8]];

/// Its only occurrence.
pub const OCCURRENCE: &[u16] = &[1, 4];

/// a[1,3]b, with 2 to 4 words in all, in abxbba.b.
pub static CONDITION_TEXT: Worked = Worked {
    span: (2, 4),
    ..listed(
        &[A, B, OTHER, B, B, A, STOP, B],
        &[(0, 0, Only(&[A])), (1, 3, Only(&[B]))],
        &[OCCURRENCE],
        [&[OCCURRENCE], &[OCCURRENCE]],
        &FAIL_ALONE,
    )
};
