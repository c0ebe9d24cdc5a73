//! Each limit of patterns, texts, rows, lists, clients and lines, from both sides, and tallies on both sides of 2^64.

use compare::brute::{self, Brute};
use compare::cases::clients::numbered_apart;
use compare::cases::inputs::sevens;
use compare::cases::lines::one_long_line;
use compare::cases::random::add_garbage;
use compare::cases::sentences::{cut_at, cut_every, joined};
use compare::cases::tallies::{
    equal_sentences, one_below_power, one_below_power_at_some_places, power, sixteen_words, thresholds, with_more,
};
use compare::cases::Words::{But, Only};
use compare::cases::{alike, pattern, Words, ANY_SPAN};
use compare::layout::{Cursors, Pattern};
use compare::rng::Rng;

use crate::both::{check, pattern_of, rewind, with_slot, Both};
use crate::file_calls::lines;
use crate::run::Run;

/// Numbers of slots or words on both sides of their limits, and some that look small when cut to fewer bits.
const COUNTS: [usize; 14] = [0, 1, 2, 8, 9, 15, 16, 17, 256, 65_535, 65_537, (1 << 32) + 1, 1 << 63, usize::MAX];

/// The words of slots that take the 7, plain and excluding.
const TAKING_SEVEN: [Words; 2] = [Only(&[7]), But(&[8])];

/// Eight words of a slot, plain and excluding: rising, and as far as the third or the second word.
const EIGHT_WORDS: [Words; 4] = [
    Only(&[7, 8, 9, 10, 11, 256, 32_768, 65_535]),
    But(&[8, 9, 10, 11, 12, 256, 32_768, 65_535]),
    Only(&[7, 8, 9, 7, 1, 2, 3, 65_535]),
    But(&[8, 9, 8, 1, 2, 3, 4, 65_535]),
];

/// A text with occurrences of the patterns below.
const TEXT: [u16; 9] = [7, 7, 0, 7, 8, 7, 7, 9, 7];

/// Compares each limit from both sides.
pub fn run(run: &mut Run) {
    let mut rng = Rng::new(33);
    for mut pattern in patterns() {
        compare(run, &pattern, &TEXT);
        add_garbage(&mut rng, &mut pattern);
        compare(run, &pattern, &TEXT);
    }
    new_patterns(run);
    texts(run);
    row_lengths(run);
    tallies(run);
    clients(run);
    long_lines(run);
}

/// Compares every call on a pattern and a text.
fn compare(run: &mut Run, pattern: &Pattern, text: &[u16]) {
    let marks = vec![0; pattern.count.min(30)];
    let mut both = Both::new(run, Brute::windowed(pattern, text));
    both.every_call(&marks, &Cursors::default(), 1);
}

/// Patterns on both sides of each of their limits.
fn patterns() -> Vec<Pattern> {
    let mut found = Vec::new();
    for words in TAKING_SEVEN {
        for count in COUNTS {
            let mut stated = pattern(ANY_SPAN, &alike(words, 16, 0, 1));
            stated.count = count;
            found.push(stated);
        }
        for slots in [1, 3, 16] {
            let base = pattern(ANY_SPAN, &alike(words, slots, 0, 1));
            for at in [0, slots / 2, slots - 1] {
                for words in EIGHT_WORDS {
                    found.extend(with_counts(&base, at, words));
                }
                found.extend(with_gaps(&base, at));
            }
            found.extend(with_spans(&base));
        }
    }
    found
}

/// The pattern with every interesting number of these eight words in one slot, and with the word 0 at each of its
/// places.
fn with_counts(base: &Pattern, at: usize, words: Words) -> Vec<Pattern> {
    let (excluding, words) = words.parts();
    let mut found = Vec::new();
    for count in COUNTS {
        let mut changed = *base;
        changed.slots[at].words.copy_from_slice(words);
        (changed.slots[at].count, changed.slots[at].excluding) = (count, excluding);
        found.push(changed);
        for zero in 0..8 {
            let mut holed = changed;
            holed.slots[at].words[zero] = 0;
            found.push(holed);
        }
    }
    found
}

/// The pattern with every interesting gap before one slot.
fn with_gaps(base: &Pattern, at: usize) -> Vec<Pattern> {
    let ends = [0, 1, 2, 62, 63, 64, 255, 256, 65_535];
    let pairs = ends.iter().flat_map(|low| ends.map(|high| (*low, high)));
    let changed = pairs.map(|(low, high)| {
        let mut changed = *base;
        (changed.slots[at].low, changed.slots[at].high) = (low, high);
        changed
    });
    changed.collect()
}

/// The pattern with every interesting pair of span limits.
fn with_spans(base: &Pattern) -> Vec<Pattern> {
    let ends = [0, 1, 2, 5, 19_999, 20_000, 20_001, 65_535];
    let pairs = ends.iter().flat_map(|least| ends.map(|most| (*least, most)));
    let changed = pairs.map(|(least, most)| Pattern { least, most, ..*base });
    changed.collect()
}

/// Compares new patterns, and adding each number of words and each gap to patterns of each length.
fn new_patterns(run: &mut Run) {
    for least in [0, 1, 5, 20_000, 20_001, 65_535] {
        for most in [0, 1, 20_000, 65_535] {
            run.input();
            pattern_of(run, least, most);
        }
    }
    let counts = [0, 1, 7, 15, 16, 17, 65_536, usize::MAX];
    for (count, words) in counts.into_iter().flat_map(|count| TAKING_SEVEN.map(|words| (count, words))) {
        let mut pattern = pattern(ANY_SPAN, &alike(words, 16, 0, 1));
        pattern.count = count;
        for words in 0..=10 {
            let zeros_last = [5, 5, 5, 5, 5, 5, 5, 0, 0, 0];
            let (falling, mixed) = ([19, 18, 17, 16, 15, 14, 13, 12, 11, 10], [4, 9, 4, 300, 2, 9, 1, 300, 4, 8]);
            for (low, high) in [(0, 0), (0, 1), (63, 63), (63, 64), (1, 0)] {
                run.input();
                with_slot(run, &pattern, low, high, &[5; 10][..words]);
                with_slot(run, &pattern, low, high, &zeros_last[10 - words..]);
                with_slot(run, &pattern, low, high, &falling[..words]);
                with_slot(run, &pattern, low, high, &mixed[..words]);
            }
        }
    }
}

/// Compares texts of lengths on both sides of the limit, and their check by length alone.
fn texts(run: &mut Run) {
    let [accepted, excluding] = TAKING_SEVEN.map(|words| pattern(ANY_SPAN, &alike(words, 3, 0, 1)));
    for length in [0, 1, 19_999, 20_000, 20_001, 65_535, 65_536, 65_537, 85_536] {
        let mut text = vec![0; length];
        text.iter_mut().step_by(997).for_each(|word| *word = 7);
        text.iter_mut().skip(1).step_by(499).for_each(|word| *word = 7);
        text.iter_mut().rev().take(4).for_each(|word| *word = 7);
        compare(run, &accepted, &text);
        compare(run, &excluding, &text);
    }
    for length in [0, 20_000, 20_001, 65_536, 1 << 32, (1 << 32) + 5, 1 << 63, usize::MAX] {
        run.input();
        check(run, &accepted, length);
        check(run, &excluding, length);
    }
}

/// Compares rows and marks of every length, for patterns of every number of slots.
fn row_lengths(run: &mut Run) {
    for (slots, words) in (1..=16).flat_map(|slots| TAKING_SEVEN.map(|words| (slots, words))) {
        let pattern = pattern(ANY_SPAN, &alike(words, slots, 0, 0));
        let text = [7; 16];
        let mut both = Both::new(run, Brute::enumerated(&pattern, &text));
        for length in 0..=20 {
            both.row(&(1..=length).collect::<Vec<u16>>());
            both.searches(&vec![0; length as usize]);
            both.searches(&vec![65_535; length as usize]);
        }
    }
}

/// Compares tallies just below 2^64, at it, and far past it.
fn tallies(run: &mut Run) {
    for zeros in [1, 64] {
        for parts in [1, 2, 8, 15, 16] {
            counted(run, &sixteen_words(), &one_below_power(parts, zeros));
            counted(run, &sixteen_words(), &power(parts, zeros));
            counted(run, &sixteen_words(), &with_more(&power(parts, zeros), 1));
        }
    }
    counted(run, &sixteen_words(), &equal_sentences(16));
    for rest in [vec![], one_below_power(15, 1), power(15, 1)] {
        counted(run, &sixteen_words(), &[equal_sentences(15), rest].concat());
    }
    for sentences in [1, 2, 3] {
        let (narrower, text, _) = one_below_power_at_some_places(sentences);
        counted(run, &narrower, &text);
        counted(run, &narrower, &with_more(&text[..text.len() - 1], sentences));
    }
    for (pattern, words, others) in thresholds() {
        for words in [words - 2, words - 1, words, words + 1, 1_000] {
            let text = vec![7; words];
            counted(run, &pattern, &text);
            Both::new(run, Brute::windowed(&pattern, &text)).lists();
        }
        cut_sevens(run, &pattern, words, others);
    }
}

/// Compares the count, the tally, the column and the list of all occurrences.
fn counted(run: &mut Run, pattern: &Pattern, text: &[u16]) {
    let mut both = Both::new(run, Brute::windowed(pattern, text));
    both.numbers();
    both.column();
    both.all();
}

/// Compares sevens that a sentence end keeps below 2^64 or not: so many that they would pass it, with a 0 for one of them;
/// one fewer beside as many others as just pass it or just do not; and sentences of equal lengths.
fn cut_sevens(run: &mut Run, pattern: &Pattern, words: usize, others: usize) {
    let mut texts: Vec<Vec<u16>> =
        (1..=words).step_by(words / 8).map(|place| cut_at(&[place], vec![7; words])).collect();
    texts.extend([2, words - 1, words].map(|place| cut_at(&[place], vec![7; words])));
    for others in [others - 1, others].map(|others| vec![7; others]) {
        texts.push(joined(&vec![7; words - 1], &others));
        texts.push(joined(&others, &vec![7; words - 1]));
    }
    texts.extend([pattern.count, pattern.count + 1, words, words + 1].map(|every| cut_every(every, vec![7; 1_000])));
    for text in &texts {
        let mut both = Both::new(run, Brute::windowed(pattern, text));
        both.tally();
        both.column();
        both.all();
    }
}

/// Compares clients and numbers served on both sides of their limits, the other clients' numbers on both sides, too.
fn clients(run: &mut Run) {
    let accepted = pattern(ANY_SPAN, &sevens(2, 0, 1));
    let any = pattern(ANY_SPAN, &alike(But(&[]), 2, 0, 1));
    let nowhere = pattern(ANY_SPAN, &[(0, 0, Only(&[5]))]);
    for client in [0, 1, 2, 3, 4, 5, 256, 65_537, (1 << 32) + 1, 1 << 63, usize::MAX] {
        for served in [0, 1, 498, 499, 500, 501, 65_536, 1 << 32, 1 << 63, usize::MAX] {
            for others in [0, 499, 500, usize::MAX] {
                let cursors = numbered_apart(client, served, others);
                for pattern in [accepted, any, nowhere, brute::pattern_of(1, 1)] {
                    Both::new(run, Brute::enumerated(&pattern, &TEXT)).next(&cursors, client);
                }
                run.input();
                rewind(run, &cursors, client);
            }
        }
    }
}

/// Compares lines of lengths at which a number of fewer bits would end.
fn long_lines(run: &mut Run) {
    for bytes in
        [0, 1, 2, 62, 63, 64, 126, 127, 128, 254, 255, 256, 257, 32_767, 32_768, 65_534, 65_535, 65_536, 70_000]
    {
        for file in one_long_line(bytes) {
            run.input();
            lines(run, &file);
        }
    }
}
