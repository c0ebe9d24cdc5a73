//! Texts for patterns with excluding slots, with rows found by hand.

use super::worked::{listed, Worked, A, B, C, STOP, X};
use super::Words::{But, Only};
use super::Written;

/// The words of phrases such as "as tall as".
const AS: u16 = 1;
const WELL: u16 = 2;
const SOON: u16 = 3;
const TALL: u16 = 4;
const OLD: u16 = 5;

/// as .. as, with any word but two in the middle.
const AS_AS: &[Written] = &[(0, 0, Only(&[AS])), (0, 0, But(&[WELL, SOON])), (0, 0, Only(&[AS]))];

/// One slot that takes any word.
const ANY: &[Written] = &[(0, 0, But(&[]))];

/// Two neighbours, both any word.
const ANY_ANY: &[Written] = &[(0, 0, But(&[])), (0, 0, But(&[]))];

/// Texts for patterns with excluding slots.
pub static EXCLUDING_TEXTS: [Worked; 26] = [
    // "as tall as", "as well as" and "as old as": the middle one is excluded.
    listed(
        &[AS, TALL, AS, WELL, AS, OLD, AS],
        AS_AS,
        &[&[1, 2, 3], &[5, 6, 7]],
        [&[&[1, 2, 3], &[5, 6, 7]], &[&[1, 2, 3], &[5, 6, 7]]],
        &[&[3, 4, 5], &[2, 3, 4], &[1, 2, 5], &[1, 4, 5]],
    ),
    // Both excluded words, and the phrase cut by a sentence end.
    listed(
        &[AS, WELL, AS, SOON, AS, STOP, AS, TALL, STOP, AS],
        AS_AS,
        &[],
        [&[], &[]],
        &[&[1, 2, 3], &[3, 4, 5], &[5, 6, 7], &[7, 8, 10]],
    ),
    // What is not excluded is taken, also the word of the other slots.
    listed(
        &[AS, AS, AS, AS],
        AS_AS,
        &[&[1, 2, 3], &[2, 3, 4]],
        [&[&[1, 2, 3], &[2, 3, 4]], &[&[1, 2, 3], &[2, 3, 4]]],
        &[&[1, 2, 4], &[2, 2, 3]],
    ),
    // The word of the other slots excluded, with gaps.
    listed(
        &[AS, AS, TALL, OLD, AS],
        &[(0, 0, Only(&[AS])), (0, 1, But(&[AS])), (0, 1, Only(&[AS]))],
        &[&[1, 3, 5], &[2, 3, 5], &[2, 4, 5]],
        [&[&[1, 3, 5]], &[&[2, 4, 5]]],
        &[&[1, 2, 3], &[1, 4, 5], &[1, 2, 5]],
    ),
    // Several rows from one place: the lists differ.
    listed(
        &[AS, TALL, OLD, AS, SOON, AS, TALL],
        &[(0, 0, Only(&[AS])), (0, 1, But(&[AS, SOON])), (0, 2, Only(&[AS]))],
        &[&[1, 2, 4], &[1, 3, 4], &[1, 3, 6]],
        [&[&[1, 2, 4]], &[&[1, 3, 6]]],
        &[&[4, 5, 6], &[1, 2, 6]],
    ),
    // Any word next to a sentence end: before it, after it, on both sides.
    listed(&[A, STOP, B], ANY_ANY, &[], [&[], &[]], &[&[1, 2], &[2, 3], &[1, 3]]),
    listed(&[A, B, STOP], ANY_ANY, &[&[1, 2]], [&[&[1, 2]], &[&[1, 2]]], &[&[2, 3]]),
    listed(&[STOP, A, B], ANY_ANY, &[&[2, 3]], [&[&[2, 3]], &[&[2, 3]]], &[&[1, 2]]),
    listed(&[STOP, A, STOP], ANY, &[&[2]], [&[&[2]], &[&[2]]], &[&[1], &[3]]),
    listed(&[STOP, STOP], ANY, &[], [&[], &[]], &[&[1], &[2]]),
    // Any word after a word, and before one, a sentence end within the gap.
    listed(&[A, STOP, B], &[(0, 0, Only(&[A])), (0, 1, But(&[]))], &[], [&[], &[]], &[&[1, 2], &[1, 3]]),
    listed(
        &[A, STOP, B, B],
        &[(0, 0, But(&[])), (0, 1, Only(&[B]))],
        &[&[3, 4]],
        [&[&[3, 4]], &[&[3, 4]]],
        &[&[1, 3], &[2, 3], &[2, 4]],
    ),
    // Any word of all sentences, and none of the sentence ends.
    listed(
        &[A, B, STOP, STOP, C, A, STOP],
        ANY,
        &[&[1], &[2], &[5], &[6]],
        [&[&[1], &[2], &[5], &[6]], &[&[1], &[2], &[5], &[6]]],
        &[&[0], &[3], &[4], &[7], &[8]],
    ),
    // From the first to the last word of a sentence, by its length; by gaps alone; and word by word.
    Worked {
        span: (4, 4),
        ..listed(
            &[STOP, A, B, C, X, STOP, A],
            &[(0, 0, But(&[])), (0, 63, But(&[]))],
            &[&[2, 5]],
            [&[&[2, 5]], &[&[2, 5]]],
            &[&[1, 4], &[3, 6], &[4, 7], &[2, 4]],
        )
    },
    listed(
        &[A, B, C, STOP, X],
        &[(0, 0, But(&[])), (0, 1, But(&[]))],
        &[&[1, 2], &[1, 3], &[2, 3]],
        [&[&[1, 2], &[2, 3]], &[&[1, 2], &[2, 3]]],
        &[&[3, 4], &[3, 5], &[2, 4], &[4, 5]],
    ),
    listed(
        &[STOP, A, B, C, A, B, C, A, B, C, A, B, C, A, B, C, A, STOP],
        &[(0, 0, But(&[X])); 16],
        &[&[2, 3, 4, 5, 6, 7, 8, 9, 10, 11, 12, 13, 14, 15, 16, 17]],
        [
            &[&[2, 3, 4, 5, 6, 7, 8, 9, 10, 11, 12, 13, 14, 15, 16, 17]],
            &[&[2, 3, 4, 5, 6, 7, 8, 9, 10, 11, 12, 13, 14, 15, 16, 17]],
        ],
        &[
            &[1, 2, 3, 4, 5, 6, 7, 8, 9, 10, 11, 12, 13, 14, 15, 16],
            &[3, 4, 5, 6, 7, 8, 9, 10, 11, 12, 13, 14, 15, 16, 17, 18],
        ],
    ),
    // The one word that would fit is excluded, and is not.
    listed(&[A, B, C], &[(0, 0, Only(&[A])), (0, 0, But(&[B])), (0, 0, Only(&[C]))], &[], [&[], &[]], &[&[1, 2, 3]]),
    listed(
        &[A, B, C],
        &[(0, 0, Only(&[A])), (0, 0, But(&[X])), (0, 0, Only(&[C]))],
        &[&[1, 2, 3]],
        [&[&[1, 2, 3]], &[&[1, 2, 3]]],
        &[&[1, 3, 3], &[2, 2, 3]],
    ),
    // The same at the first and at the last slot.
    listed(&[A, B], &[(0, 0, But(&[A])), (0, 0, Only(&[B]))], &[], [&[], &[]], &[&[1, 2]]),
    listed(&[A, B], &[(0, 0, Only(&[A])), (0, 0, But(&[B]))], &[], [&[], &[]], &[&[1, 2]]),
    // Eight words excluded, a word excluded three times where it is written down, and the greatest word excluded.
    listed(
        &[1, 2, 3, 4, 5, 6, 7, 8, 9, 0, 8, 10],
        &[(0, 0, But(&[1, 2, 3, 4, 5, 6, 7, 8]))],
        &[&[9], &[12]],
        [&[&[9], &[12]], &[&[9], &[12]]],
        &[&[1], &[8], &[10], &[11]],
    ),
    listed(&[A, B, C, B], &[(0, 0, But(&[B, B, B]))], &[&[1], &[3]], [&[&[1], &[3]], &[&[1], &[3]]], &[&[2], &[4]]),
    listed(
        &[65_535, 65_534, 1, 0],
        &[(0, 0, But(&[65_535]))],
        &[&[2], &[3]],
        [&[&[2], &[3]], &[&[2], &[3]]],
        &[&[1], &[4]],
    ),
    // Excluding slots on both sides of a plain one, with a sentence end in reach.
    listed(
        &[B, A, A, C, STOP, C, A, B],
        &[(0, 0, But(&[A])), (0, 2, Only(&[A])), (0, 2, But(&[A, B]))],
        &[&[1, 2, 4], &[1, 3, 4]],
        [&[&[1, 2, 4]], &[&[1, 3, 4]]],
        &[&[1, 3, 6], &[4, 7, 8], &[6, 7, 8], &[1, 2, 3], &[1, 3, 5]],
    ),
    // A span limit that decides among the words that are left.
    Worked {
        span: (3, 3),
        ..listed(
            &[A, B, C, X, A, C],
            &[(0, 0, Only(&[A])), (0, 3, But(&[B, X]))],
            &[&[1, 3]],
            [&[&[1, 3]], &[&[1, 3]]],
            &[&[1, 2], &[1, 4], &[1, 5], &[5, 6]],
        )
    },
    // No words at all.
    listed(&[], ANY, &[], [&[], &[]], &[&[0], &[1]]),
];
