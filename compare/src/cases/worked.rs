//! The scope's nine texts, with the rows it names for them, and texts with sentence ends, with rows found by hand.

use super::conditions::CONDITION_TEXT;
use super::excluding::EXCLUDING_TEXTS;
use super::Words::Only;
use super::{Written, ANY_SPAN};

/// A list of rows.
pub type Rows = &'static [&'static [u16]];

/// A text and a pattern, with what the scope says of them or Jobs 1, 2 and 4 of document 02 mean for them; `None`
/// where the scope does not say.
pub struct Worked {
    pub text: &'static [u16],
    pub slots: &'static [Written<'static>],
    pub span: (u16, u16),
    pub count: usize,
    pub all: Option<Rows>,
    pub front: Option<Rows>,
    pub back: Option<Rows>,
    pub no_occurrences: Rows,
}

/// All texts of the tables.
pub fn worked_texts() -> impl Iterator<Item = &'static Worked> {
    TEXTS.iter().chain(&CUT_TEXTS).chain(&EXCLUDING_TEXTS).chain([&CONDITION_TEXT])
}

/// The letters' words: their places in the alphabet.
pub const A: u16 = 1;
pub const B: u16 = 2;
pub const C: u16 = 3;
const G: u16 = 7;
const T: u16 = 20;
pub const X: u16 = 24;

/// aggcaaga.
const AGGCAAGA: &[u16] = &[A, G, G, C, A, A, G, A];

/// a[0,1]g[0,1]a.
const AGA: &[Written] = &[(0, 0, Only(&[A])), (0, 1, Only(&[G])), (0, 1, Only(&[A]))];

/// The nine texts.
static TEXTS: [Worked; 9] = [
    Worked {
        text: AGGCAAGA,
        slots: AGA,
        span: ANY_SPAN,
        count: 2,
        all: Some(&[&[1, 3, 5], &[5, 7, 8], &[6, 7, 8]]),
        front: Some(&[&[1, 3, 5], &[5, 7, 8]]),
        back: Some(&[&[1, 3, 5], &[6, 7, 8]]),
        no_occurrences: &[],
    },
    Worked {
        text: AGGCAAGA,
        slots: AGA,
        span: (4, 5),
        count: 2,
        all: None,
        front: None,
        back: None,
        no_occurrences: &[&[6, 7, 8]],
    },
    Worked {
        text: &[A, A, T, T, A, T, A, T, T],
        slots: &[(0, 0, Only(&[A])), (0, 1, Only(&[T])), (0, 1, Only(&[A]))],
        span: (3, 4),
        count: 2,
        all: None,
        front: Some(&[&[2, 3, 5], &[5, 6, 7]]),
        back: Some(&[&[2, 4, 5], &[5, 6, 7]]),
        no_occurrences: &[],
    },
    Worked {
        text: &[A, C, T, A, T, A, A, G, G],
        slots: &[(0, 0, Only(&[A])), (0, 1, Only(&[T])), (0, 1, Only(&[A])), (1, 3, Only(&[G]))],
        span: ANY_SPAN,
        count: 2,
        all: None,
        front: Some(&[&[1, 3, 4, 8], &[4, 5, 6, 9]]),
        back: Some(&[&[1, 3, 4, 8], &[4, 5, 7, 9]]),
        no_occurrences: &[],
    },
    Worked {
        text: &[A, T, A, T, G, T, A, G, A, T, G, A, T, T, G, A],
        slots: &[(0, 0, Only(&[A])), (0, 2, Only(&[T])), (0, 2, Only(&[G])), (0, 1, Only(&[A]))],
        span: ANY_SPAN,
        count: 4,
        all: None,
        front: Some(&[&[1, 2, 5, 7], &[3, 6, 8, 9], &[7, 10, 11, 12], &[12, 13, 15, 16]]),
        back: None,
        no_occurrences: &[],
    },
    Worked {
        text: &[A, C, C, T, C, T, G, T, T],
        slots: &[(0, 0, Only(&[A])), (0, 3, Only(&[C])), (1, 3, Only(&[T]))],
        span: ANY_SPAN,
        count: 1,
        all: Some(&[&[1, 2, 4], &[1, 2, 6], &[1, 3, 6], &[1, 5, 8], &[1, 5, 9]]),
        front: None,
        back: None,
        no_occurrences: &[],
    },
    Worked {
        text: &[A, A, B, X, C],
        slots: &[(0, 0, Only(&[A])), (0, 2, Only(&[B])), (0, 1, Only(&[C]))],
        span: (1, 4),
        count: 1,
        all: Some(&[&[2, 3, 5]]),
        front: Some(&[&[2, 3, 5]]),
        back: Some(&[&[2, 3, 5]]),
        no_occurrences: &[&[1, 3, 5]],
    },
    Worked {
        text: &[A, B, C, C],
        slots: &[(0, 0, Only(&[A])), (0, 2, Only(&[B])), (0, 2, Only(&[C]))],
        span: (4, 4),
        count: 1,
        all: Some(&[&[1, 2, 4]]),
        front: Some(&[&[1, 2, 4]]),
        back: Some(&[&[1, 2, 4]]),
        no_occurrences: &[&[1, 2, 3]],
    },
    Worked {
        text: &[],
        slots: AGA,
        span: ANY_SPAN,
        count: 0,
        all: Some(&[]),
        front: Some(&[]),
        back: Some(&[]),
        no_occurrences: &[],
    },
];

/// A sentence end.
pub const STOP: u16 = 0;

/// The two words of a phrase.
const NEITHER: u16 = 1;
const NOR: u16 = 2;

/// neither[0,6]nor.
const NEITHER_NOR: &[Written] = &[(0, 0, Only(&[NEITHER])), (0, 6, Only(&[NOR]))];

/// a[0,9]b.
const AB: &[Written] = &[(0, 0, Only(&[A])), (0, 9, Only(&[B]))];

/// A text with all its rows, its front and its back list, and rows that are none.
pub const fn listed(
    text: &'static [u16],
    slots: &'static [Written<'static>],
    all: Rows,
    [front, back]: [Rows; 2],
    no_occurrences: Rows,
) -> Worked {
    let (all, count) = (Some(all), front.len());
    Worked { text, slots, span: ANY_SPAN, count, all, front: Some(front), back: Some(back), no_occurrences }
}

/// Texts with sentence ends.
static CUT_TEXTS: [Worked; 19] = [
    // "neither" at the end of a sentence, "nor" in the next.
    listed(&[X, NEITHER, STOP, NOR, X], NEITHER_NOR, &[], [&[], &[]], &[&[2, 4]]),
    // The phrase in each of two sentences, and "nor" in a third.
    listed(
        &[NEITHER, X, NOR, STOP, NEITHER, NOR, STOP, NOR],
        NEITHER_NOR,
        &[&[1, 3], &[5, 6]],
        [&[&[1, 3], &[5, 6]], &[&[1, 3], &[5, 6]]],
        &[&[1, 6], &[1, 8], &[5, 8]],
    ),
    // Right after the first place, right before the last, and both at once.
    listed(&[A, STOP, X, B], AB, &[], [&[], &[]], &[&[1, 4]]),
    listed(&[A, X, STOP, B], AB, &[], [&[], &[]], &[&[1, 4]]),
    listed(&[A, STOP, B], AB, &[], [&[], &[]], &[&[1, 3]]),
    // Halfway.
    listed(&[A, X, STOP, X, B], AB, &[], [&[], &[]], &[&[1, 5]]),
    // Just outside the row: before it, after it, and on both sides.
    listed(&[STOP, A, X, B], AB, &[&[2, 4]], [&[&[2, 4]], &[&[2, 4]]], &[&[1, 4]]),
    listed(&[A, X, B, STOP], AB, &[&[1, 3]], [&[&[1, 3]], &[&[1, 3]]], &[&[1, 4]]),
    listed(&[STOP, A, B, STOP], AB, &[&[2, 3]], [&[&[2, 3]], &[&[2, 3]]], &[&[1, 3], &[2, 4], &[1, 4]]),
    // Several, also next to each other.
    listed(
        &[A, STOP, STOP, B, STOP, A, B, B, STOP, B],
        AB,
        &[&[6, 7], &[6, 8]],
        [&[&[6, 7]], &[&[6, 8]]],
        &[&[1, 4], &[1, 7], &[1, 8], &[1, 10], &[6, 10]],
    ),
    // One slot.
    listed(
        &[STOP, A, STOP, STOP, A, A, STOP],
        &[(0, 0, Only(&[A]))],
        &[&[2], &[5], &[6]],
        [&[&[2], &[5], &[6]], &[&[2], &[5], &[6]]],
        &[&[1], &[3], &[4], &[7]],
    ),
    // In the first gap alone, in the second alone, in none.
    listed(
        &[A, STOP, B, C, A, B, STOP, C, A, B, C],
        &[(0, 0, Only(&[A])), (0, 2, Only(&[B])), (0, 2, Only(&[C]))],
        &[&[9, 10, 11]],
        [&[&[9, 10, 11]], &[&[9, 10, 11]]],
        &[&[1, 3, 4], &[5, 6, 8]],
    ),
    // A start before the sentence must not take the place from the start within it.
    listed(
        &[A, STOP, A, B, B, STOP, B],
        AB,
        &[&[3, 4], &[3, 5]],
        [&[&[3, 4]], &[&[3, 5]]],
        &[&[1, 4], &[1, 5], &[1, 7], &[3, 7]],
    ),
    // The same word at both slots.
    listed(
        &[G, G, STOP, G, G, G],
        &[(0, 0, Only(&[G])), (0, 3, Only(&[G]))],
        &[&[1, 2], &[4, 5], &[4, 6], &[5, 6]],
        [&[&[1, 2], &[4, 5], &[5, 6]], &[&[1, 2], &[4, 5], &[5, 6]]],
        &[&[1, 4], &[1, 5], &[2, 4], &[2, 5], &[2, 6]],
    ),
    // A span that only a row across the sentence end has, and one that such a row has and one within a sentence.
    Worked { span: (4, 4), ..listed(&[A, B, STOP, B], AB, &[], [&[], &[]], &[&[1, 2], &[1, 4]]) },
    Worked {
        span: (3, 20_000),
        ..listed(&[A, X, B, STOP, A, B], AB, &[&[1, 3]], [&[&[1, 3]], &[&[1, 3]]], &[&[1, 6], &[5, 6]])
    },
    // aggcaaga and acctctgtt of the nine texts, with a sentence end instead of c and of g.
    listed(&[A, G, G, STOP, A, A, G, A], AGA, &[&[5, 7, 8], &[6, 7, 8]], [&[&[5, 7, 8]], &[&[6, 7, 8]]], &[&[1, 3, 5]]),
    listed(
        &[A, C, C, T, C, T, STOP, T, T],
        &[(0, 0, Only(&[A])), (0, 3, Only(&[C])), (1, 3, Only(&[T]))],
        &[&[1, 2, 4], &[1, 2, 6], &[1, 3, 6]],
        [&[&[1, 2, 4]], &[&[1, 3, 6]]],
        &[&[1, 5, 8], &[1, 5, 9]],
    ),
    // Nothing but sentence ends.
    listed(&[STOP, STOP, STOP], AGA, &[], [&[], &[]], &[&[1, 2, 3], &[2, 2, 2]]),
];
