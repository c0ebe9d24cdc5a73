//! Texts cut into sentences, and the rows that only a sentence end keeps from being occurrences.

use crate::layout::Pattern;

/// The text with a 0 at every place that is a multiple of `every`.
pub fn cut_every(every: usize, mut text: Vec<u16>) -> Vec<u16> {
    text.iter_mut().skip(every - 1).step_by(every).for_each(|word| *word = 0);
    text
}

/// The text with a 0 at these places instead of the words there.
pub fn cut_at(places: &[usize], mut text: Vec<u16>) -> Vec<u16> {
    places.iter().for_each(|place| text[place - 1] = 0);
    text
}

/// Both texts with a 0 between them.
pub fn joined(text: &[u16], other: &[u16]) -> Vec<u16> {
    [text, &[0], other].concat()
}

/// The text with a word that no slot lists instead of every 0: its occurrences are the rows that keep all rules but
/// those on the 0, that it ends a sentence and that an excluding slot never takes it.
pub fn without_stops(pattern: &Pattern, text: &[u16]) -> Vec<u16> {
    let slots = &pattern.slots[..pattern.count];
    let listed = |word: &u16| slots.iter().any(|slot| slot.words[..slot.count].contains(word));
    let other = (1..=65_535).find(|word| !listed(word)).expect("a pattern lists 128 words at most");
    text.iter().map(|&word| if word == 0 { other } else { word }).collect()
}

/// The sentences of a text, each with the number of words before it.
pub fn sentences(text: &[u16]) -> Vec<(u16, &[u16])> {
    let mut begun = 0;
    let mut found = Vec::new();
    for sentence in text.split(|&word| word == 0) {
        found.push((begun, sentence));
        begun += sentence.len() as u16 + 1;
    }
    found
}
