//! Texts and patterns with the numbers of occurrences that start at each place, found by hand, or by a formula.

use super::inputs::sevens;
use super::sentences::sentences;
use super::tallies::sixteen_words;
use super::worked::{A, B, C, STOP, X};
use super::Words::{But, Only};
use super::{pattern, Written, ANY_SPAN};
use crate::layout::Pattern;

/// Span limits, slots and a text, and how many occurrences start at each of its places.
pub type Column = ((u16, u16), &'static [Written<'static>], &'static [u16], &'static [u128]);

/// a[0,3]c[1,3]b.
const ACB: &[Written] = &[(0, 0, Only(&[A])), (0, 3, Only(&[C])), (1, 3, Only(&[B]))];

/// accbcbxbb, in which all of its five occurrences start at place 1.
const ACCBCBXBB: &[u16] = &[A, C, C, B, C, B, X, B, B];

/// a[0,1]b[0,1]a.
const ABA: &[Written] = &[(0, 0, Only(&[A])), (0, 1, Only(&[B])), (0, 1, Only(&[A]))];

/// Two and three of the same word, wide apart or close.
const AA: &[Written] = &[(0, 0, Only(&[A])), (0, 9, Only(&[A]))];
const AAA: &[Written] = &[(0, 0, Only(&[A])), (0, 63, Only(&[A])), (0, 63, Only(&[A]))];

/// Any word, and any two and three words.
const ANY: &[Written] = &[(0, 0, But(&[]))];
const ANY_ANY: &[Written] = &[(0, 0, But(&[])), (0, 1, But(&[]))];
const ANY_THREE: &[Written] = &[(0, 0, But(&[])), (0, 2, But(&[])), (0, 2, But(&[]))];

/// Columns found by hand.
pub static COLUMNS: [Column; 30] = [
    // b[0,1]a[0,1]a in bbaaaa: (1,3,4), (1,3,5), (2,3,4), (2,3,5), (2,4,5), (2,4,6).
    (ANY_SPAN, &[(0, 0, Only(&[B])), (0, 1, Only(&[A])), (0, 1, Only(&[A]))], &[B, B, A, A, A, A], &[2, 4, 0, 0, 0, 0]),
    // (1,3,5), (5,7,8), (6,7,8); with spans 4 to 5 the last is none, with spans up to 4 the first.
    (ANY_SPAN, ABA, &[A, B, B, C, A, A, B, A], &[1, 0, 0, 0, 1, 1, 0, 0]),
    ((4, 5), ABA, &[A, B, B, C, A, A, B, A], &[1, 0, 0, 0, 1, 0, 0, 0]),
    ((1, 4), ABA, &[A, B, B, C, A, A, B, A], &[0, 0, 0, 0, 1, 1, 0, 0]),
    // (1,2,4), (1,2,6), (1,3,6), (1,5,8), (1,5,9); their spans are 4, 6, 6, 8 and 9.
    (ANY_SPAN, ACB, ACCBCBXBB, &[5, 0, 0, 0, 0, 0, 0, 0, 0]),
    ((1, 6), ACB, ACCBCBXBB, &[3, 0, 0, 0, 0, 0, 0, 0, 0]),
    ((5, 8), ACB, ACCBCBXBB, &[3, 0, 0, 0, 0, 0, 0, 0, 0]),
    ((9, 9), ACB, ACCBCBXBB, &[1, 0, 0, 0, 0, 0, 0, 0, 0]),
    ((10, 20_000), ACB, ACCBCBXBB, &[0; 9]),
    // The same with a sentence end in it, behind it, and before it.
    (ANY_SPAN, ACB, &[A, C, C, B, C, B, STOP, B, B], &[3, 0, 0, 0, 0, 0, 0, 0, 0]),
    (ANY_SPAN, ACB, &[A, C, C, B, STOP, B, X, B, B], &[1, 0, 0, 0, 0, 0, 0, 0, 0]),
    (ANY_SPAN, ACB, &[A, C, C, B, C, B, X, B, STOP], &[4, 0, 0, 0, 0, 0, 0, 0, 0]),
    (ANY_SPAN, ACB, &[STOP, A, C, X, B, STOP, A, C, X, B, B], &[0, 1, 0, 0, 0, 0, 2, 0, 0, 0, 0]),
    // One slot, at the first word, at the last, at both, at none.
    (ANY_SPAN, &[(0, 0, Only(&[A]))], &[A], &[1]),
    (ANY_SPAN, &[(0, 0, Only(&[A]))], &[A, B, B], &[1, 0, 0]),
    (ANY_SPAN, &[(0, 0, Only(&[A]))], &[B, STOP, A], &[0, 0, 1]),
    (ANY_SPAN, &[(0, 0, Only(&[A, X]))], &[X, B, STOP, A], &[1, 0, 0, 1]),
    ((2, 20_000), &[(0, 0, Only(&[A]))], &[A, A, A], &[0, 0, 0]),
    // The same word at both slots, in two sentences; three of six words, also with spans 4 to 5.
    (ANY_SPAN, AA, &[A, A, A, STOP, A, A], &[2, 1, 0, 0, 1, 0]),
    (ANY_SPAN, AAA, &[A, A, A, A, A, A], &[10, 6, 3, 1, 0, 0]),
    ((4, 5), AAA, &[A, A, A, A, A, A], &[5, 5, 2, 0, 0, 0]),
    (ANY_SPAN, &[(0, 0, Only(&[A])), (1, 2, Only(&[A]))], &[A, A, A, A, A], &[2, 2, 1, 0, 0]),
    // Any words, next to sentence ends, within a span, and by all but some.
    (ANY_SPAN, ANY, &[A, B, STOP, STOP, C, A, STOP], &[1, 1, 0, 0, 1, 1, 0]),
    (ANY_SPAN, ANY_ANY, &[A, B, C, STOP, X], &[2, 1, 0, 0, 0]),
    ((3, 3), ANY_ANY, &[A, B, C, STOP, X, X, X], &[1, 0, 0, 0, 1, 0, 0]),
    ((3, 4), ANY_THREE, &[STOP, A, B, C, X, A], &[0, 3, 3, 1, 0, 0]),
    (
        ANY_SPAN,
        &[(0, 0, Only(&[A])), (0, 1, But(&[A])), (0, 1, Only(&[A]))],
        &[A, A, X, B, A],
        // (1,3,5), (2,3,5), (2,4,5).
        &[1, 2, 0, 0, 0],
    ),
    (
        ANY_SPAN,
        &[(0, 0, But(&[A])), (0, 2, Only(&[A])), (0, 2, But(&[A, B]))],
        &[B, A, A, C, STOP, C, A, B],
        // (1,2,4), (1,3,4).
        &[2, 0, 0, 0, 0, 0, 0, 0],
    ),
    // Nothing but sentence ends, and no words at all.
    (ANY_SPAN, ANY, &[STOP, STOP, STOP], &[0, 0, 0]),
    (ANY_SPAN, ANY, &[], &[]),
];

/// Patterns of one to sixteen slots, each with a phrase in which it occurs once, from its first word to its last; a 9
/// before or after it makes no other occurrence.
pub fn phrases() -> Vec<(Pattern, Vec<u16>)> {
    let two = pattern(ANY_SPAN, &[(0, 0, Only(&[1])), (0, 3, Only(&[2]))]);
    let mixed = pattern(ANY_SPAN, &[(0, 0, Only(&[1])), (1, 3, But(&[2, 9])), (0, 63, Only(&[2]))]);
    let long = pattern((65, 65), &[(0, 0, But(&[9])), (0, 63, But(&[9]))]);
    vec![
        (pattern(ANY_SPAN, &[(0, 0, Only(&[1]))]), vec![1]),
        (pattern(ANY_SPAN, &[(0, 0, But(&[2, 9]))]), vec![1]),
        (two, vec![1, 9, 9, 2]),
        (mixed, vec![1, 9, 3, 9, 9, 2]),
        (long, [vec![1], vec![9; 63], vec![2]].concat()),
        (sixteen_words(), (1..=16).collect()),
    ]
}

/// Two sevens with these gaps between them, and the column in sentences of sevens: from each place the sevens that lie
/// so far ahead and are of the sentence.
pub fn two_sevens(low: u16, high: u16, text: &[u16]) -> (Pattern, Vec<u128>) {
    let ahead = |words: usize| (words as u128).saturating_sub(low.into()).min((high - low + 1).into());
    let column = |words: usize| (0..words).rev().map(ahead).collect();
    let columns: Vec<Vec<u128>> = sentences(text).iter().map(|(_, sentence)| column(sentence.len())).collect();
    (pattern(ANY_SPAN, &sevens(2, low, high)), columns.join(&0))
}

/// So many sevens with any gaps between them, and the column in a text of at most 65 sevens: from each place all choices
/// among the words after it, a number of Pascal's triangle.
pub fn chosen_sevens(slots: usize, words: usize) -> (Pattern, Vec<u128>) {
    let mut column = vec![1; words];
    for _ in 1..slots {
        let after = |at: usize| column[at + 1..].iter().sum();
        column = (0..words).map(after).collect();
    }
    (pattern(ANY_SPAN, &sevens(slots, 0, 63)), column)
}

/// So many sevens with gaps up to `high` between them, and the column in a text of so many sevens: from each place the
/// choices of gaps that leave the last seven within the text.
pub fn gapped_sevens(slots: usize, high: u16, words: usize) -> (Pattern, Vec<u128>) {
    let column = (0..words).rev().map(|after| choices(slots as i128 - 1, high.into(), after as i128)).collect();
    (pattern(ANY_SPAN, &sevens(slots, 0, high)), column)
}

/// In how many ways so many gaps up to `high`, each with a word behind it, fit into so many words: all ways to choose gaps
/// of any size, without those in which one is too wide, with those in which two are, and so on.
fn choices(gaps: i128, high: i128, words: i128) -> u128 {
    // Where the widest gaps fit, so do all.
    let words = words.min(gaps * (high + 1));
    let too_wide = |some: i128| choose(gaps, some) * choose(words - some * (high + 1), gaps);
    let signed = |some: i128| if some % 2 == 0 { too_wide(some) } else { -too_wide(some) };
    (0..=gaps).map(signed).sum::<i128>().try_into().expect("no number of ways is below 0")
}

/// In how many ways so many of these can be chosen.
fn choose(these: i128, some: i128) -> i128 {
    if these < some {
        return 0;
    }
    (0..some).fold(1, |ways, chosen| ways * (these - chosen) / (chosen + 1))
}
