//! The texts and patterns that are measured.

use compare::ffi;
use compare::layout::Pattern;
use compare::rng::Rng;
use std::fmt;

/// How many words a text has, if nothing else is said.
pub const WORDS: usize = 20_000;

/// In a text with sentence ends, about one place in so many is one.
const SENTENCE: usize = 20;

/// How many words the Zipf-like text draws from.
const VOCABULARY: usize = 2_000;

/// What kind of text, and of pattern for it.
#[derive(Clone, Copy, PartialEq)]
pub enum Kind {
    /// Random over four words; each slot takes one of them.
    Random,
    /// Word k about as often as 1/k, with sentence ends; each slot takes two of the frequent words.
    Zipf,
    /// One word over and over.
    Equal,
    /// Random over four words; the last slot's word is not in the text.
    Absent,
    /// One word over and over; the gaps do not reach as far as the least span.
    OutOfReach,
    /// Random over four words, with sentence ends; each slot takes one of the words.
    Sentences,
    /// Random over twice so many words, with sentence ends; the slots up to the middle take one half of the words, those
    /// past it the other.
    Plain(u16),
    /// The same text with the same occurrences; the middle slot excludes the other half.
    Excluding(u16),
    /// No text; two patterns whose slots list so many words, so many of them in both, and take these.
    Taken { listed: u16, shared: u16 },
    /// The same patterns with excluding slots.
    Excluded { listed: u16, shared: u16 },
    /// So many words at random, with sentence ends, to be recoded by an expression of so many bytes.
    Coded { words: usize, bytes: usize },
}

/// What the span limits are.
#[derive(Clone, Copy, PartialEq)]
pub enum Spans {
    /// 1 to 20,000: they leave nothing out.
    Loose,
    /// About a third to a half of what the gaps allow.
    Tight,
    /// 1 to one less than the gaps allow.
    Nearly,
}

impl fmt::Display for Kind {
    fn fmt(&self, out: &mut fmt::Formatter) -> fmt::Result {
        match self {
            Kind::Random => out.write_str("four words"),
            Kind::Zipf => out.write_str("Zipf"),
            Kind::Equal => out.write_str("all equal"),
            Kind::Absent => out.write_str("never: word"),
            Kind::OutOfReach => out.write_str("never: span"),
            Kind::Sentences => out.write_str("sentences"),
            Kind::Plain(listed) => write!(out, "{} words, {listed} taken", 2 * listed),
            Kind::Excluding(listed) => write!(out, "{} words, {listed} excluded", 2 * listed),
            Kind::Taken { listed, shared } => write!(out, "{listed} taken, {shared} shared"),
            Kind::Excluded { listed, shared } => write!(out, "{listed} excluded, {shared} shared"),
            Kind::Coded { words, bytes } => write!(out, "{words} words, {bytes}-byte expression"),
        }
    }
}

/// The Zipf-like text: weights 1/k, drawn by their running sums.
fn zipf(rng: &mut Rng, words: usize) -> Vec<u16> {
    let mut sums = vec![0];
    for k in 1..=VOCABULARY {
        sums.push(sums[k - 1] + 1_000_000 / k);
    }
    let draw = |_| {
        if rng.once_in(SENTENCE) {
            return 0;
        }
        let drawn = rng.within(0, sums[VOCABULARY] - 1);
        sums.partition_point(|&sum| sum <= drawn) as u16
    };
    (0..words).map(draw).collect()
}

/// The text of words up to `highest` with sentence ends.
fn sentences(rng: &mut Rng, words: usize, highest: u16) -> Vec<u16> {
    (0..words).map(|_| if rng.once_in(SENTENCE) { 0 } else { rng.word(1, highest) }).collect()
}

/// A text of that kind.
pub fn text(kind: Kind, words: usize) -> Vec<u16> {
    let mut rng = Rng::new(words as u64);
    match kind {
        Kind::Random | Kind::Absent => (0..words).map(|_| rng.word(1, 4)).collect(),
        Kind::Zipf => zipf(&mut rng, words),
        Kind::Equal | Kind::OutOfReach => vec![7; words],
        Kind::Sentences => sentences(&mut rng, words, 4),
        Kind::Plain(listed) | Kind::Excluding(listed) => sentences(&mut rng, words, 2 * listed),
        Kind::Taken { .. } | Kind::Excluded { .. } => Vec::new(),
        Kind::Coded { words, .. } => sentences(&mut rng, words, VOCABULARY as u16),
    }
}

/// So many class bytes at random.
pub fn classes(words: usize) -> Vec<u8> {
    let mut rng = Rng::new(words as u64 + 1);
    (0..words).map(|_| rng.within(0, 255) as u8).collect()
}

/// An expression of 20 bytes, its letters so many further on in the alphabet, `a` after `h`.
fn twenty_bytes(further: u8) -> String {
    let letter = |letter: char| char::from(b'a' + (letter as u8 - b'a' + further) % 8);
    "(a|b)&!c|d&!(e|!f)&g".chars().map(|byte| if byte.is_alphabetic() { letter(byte) } else { byte }).collect()
}

/// The expression that a text of that kind is recoded by, none where it is not. About half of all class bytes meet it.
pub fn expression(kind: Kind) -> Vec<u8> {
    let parts: Vec<String> = (0..9).map(twenty_bytes).collect();
    let expression = match kind {
        Kind::Coded { bytes: 1, .. } => "a".to_string(),
        Kind::Coded { bytes: 20, .. } => twenty_bytes(0),
        Kind::Coded { bytes: 200, .. } => parts.join("&") + "|!(a|!h)&!!b",
        _ => String::new(),
    };
    expression.into_bytes()
}

/// Whether slot j of so many is excluding.
fn excluding(kind: Kind, slots: usize, j: usize) -> bool {
    match kind {
        Kind::Excluding(_) => j == slots / 2,
        Kind::Excluded { .. } => true,
        _ => false,
    }
}

/// Word i of so many that slot j of the first or the second of two patterns lists; those in both are spread evenly.
fn merged_word(listed: u16, shared: u16, j: u16, i: u16, second: bool) -> u16 {
    let both = i * shared % listed < shared;
    1 + j + 2 * i + (second && !both) as u16
}

/// The words that slot j of so many lists, in the first or the second of two patterns.
fn slot_words(kind: Kind, slots: usize, j: usize, second: bool) -> Vec<u16> {
    let k = j as u16;
    match kind {
        Kind::Absent if j + 1 == slots => vec![5],
        Kind::Random | Kind::Absent | Kind::Sentences => vec![1 + k % 4],
        Kind::Zipf => vec![1 + k % 3, 4 + k % 5],
        Kind::Equal | Kind::OutOfReach | Kind::Coded { .. } => vec![7],
        Kind::Plain(listed) | Kind::Excluding(listed) => {
            let past = slots / 2 < j || excluding(kind, slots, j);
            let first = if past { listed + 1 } else { 1 };
            (first..first + listed).collect()
        }
        Kind::Taken { listed, shared } | Kind::Excluded { listed, shared } => {
            (0..listed).map(|i| merged_word(listed, shared, k, i, second)).collect()
        }
    }
}

/// The span limits for so many slots with gaps from 0 to `high`.
pub fn span_limits(kind: Kind, spans: Spans, slots: usize, high: u16) -> (u16, u16) {
    let slots = slots as u16;
    let slack = (slots - 1) * high;
    if kind == Kind::OutOfReach {
        return (slots + slack + 1, 20_000);
    }
    match spans {
        Spans::Loose => (1, 20_000),
        Spans::Tight => (slots + slack / 3, slots + slack / 2),
        Spans::Nearly => (1, slots + slack - 1),
    }
}

/// A pattern for a text of that kind, with gaps from 0 to `high`, and one to merge it with.
pub fn patterns(kind: Kind, spans: Spans, slots: usize, high: u16) -> [Pattern; 2] {
    let (least, most) = span_limits(kind, spans, slots, high);
    [false, true].map(|second| {
        (0..slots).fold(ffi::pattern_of(least, most), |pattern, j| {
            let high = if j == 0 { 0 } else { high };
            let excluding = excluding(kind, slots, j);
            ffi::with_slot(&pattern, 0, high, excluding, &slot_words(kind, slots, j, second)).pattern
        })
    })
}
