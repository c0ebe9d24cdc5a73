//! Patterns written as files: by hand, read back, written again, and two that are the same bytes just when they agree.

use std::collections::BTreeSet;

use compare::brute;
use compare::cases::files::text_file;
use compare::cases::orders::canonical;
use compare::cases::random::{add_garbage, any_pattern, break_pattern, Kind};
use compare::cases::small::patterns;
use compare::cases::worked::worked_texts;
use compare::cases::written::{longest, LONGEST_FILE, MOST_BYTES, WRITTEN_FILES};
use compare::cases::Words::{But, Only};
use compare::cases::{pattern, Words, Written, ANY_SPAN};
use compare::ffi;
use compare::layout::{Made, Pattern};
use compare::rng::Rng;

use crate::both::{check_pattern, write_pattern, write_pattern_in};
use crate::file_calls::{lines, read_input, read_pattern};
use crate::run::Run;

/// What the patterns at random are like: with small and great words, few and many slots.
const KINDS: [Kind; 4] = [
    Kind { slots: (1, 3), highest_word: 12, most_words: 3, widest_gap: 12 },
    Kind { slots: (1, 16), highest_word: 65_535, most_words: 8, widest_gap: 63 },
    Kind { slots: (16, 16), highest_word: 120, most_words: 8, widest_gap: 63 },
    Kind { slots: (1, 16), highest_word: 1_200, most_words: 8, widest_gap: 11 },
];

/// Words of slots whose files have the same digits, or differ in the mark alone.
const DIGITS: [Words; 12] = [
    Only(&[1]),
    Only(&[2]),
    Only(&[12]),
    Only(&[112]),
    Only(&[1, 2]),
    Only(&[1, 12]),
    Only(&[2, 11]),
    Only(&[1, 2, 12]),
    But(&[]),
    But(&[1]),
    But(&[12]),
    But(&[1, 2]),
];

/// Compares patterns written as files.
pub fn run(run: &mut Run) {
    by_hand(run);
    let mut rng = Rng::new(121);
    for case in worked_texts() {
        round_trip(run, &canonical(&pattern(case.span, case.slots)));
    }
    for round in 0..8_000 {
        round_trip(run, &any_pattern(&mut rng, &KINDS[round % KINDS.len()]));
    }
    for round in 0..4_000 {
        let mut pattern = any_pattern(&mut rng, &KINDS[round % KINDS.len()]);
        for _ in 0..rng.within(1, 2) {
            break_pattern(&mut rng, &mut pattern);
        }
        run.input();
        check_pattern(run, &pattern);
        write_pattern(run, &pattern);
    }
    every_room(run);
    all_pairs(run, &mut rng);
    for round in 0..80 {
        let pattern = any_pattern(&mut rng, &KINDS[round % KINDS.len()]);
        just_when_they_agree(run, &neighbours(&mut rng, &pattern));
    }
}

/// The bytes that the library writes for an accepted pattern.
pub fn file_of(pattern: &Pattern) -> Vec<u8> {
    let mut out = vec![0; MOST_BYTES];
    let answer = ffi::write_pattern(pattern, &mut out);
    assert_eq!((answer.number, answer.place), (0, 0), "write_pattern\npattern: {pattern:?}");
    out.truncate(answer.value as usize);
    out
}

/// The pattern that the library makes by adding these slots one by one.
fn made((least, most): (u16, u16), slots: &[Written]) -> Pattern {
    slots.iter().fold(ffi::pattern_of(least, most), |begun, &(low, high, words)| {
        let (excluding, words) = words.parts();
        let made = ffi::with_slot(&begun, low, high, excluding, words);
        assert_eq!((made.number, made.place), (0, 0), "with_slot {low} {high} {excluding} {words:?}");
        made.pattern
    })
}

/// Compares the files put down by hand, byte for byte.
fn by_hand(run: &mut Run) {
    let (span, slots) = longest();
    for (span, slots, file) in WRITTEN_FILES.into_iter().chain([(span, &slots[..], LONGEST_FILE)]) {
        let made = made(span, slots);
        assert_eq!(made, canonical(&pattern(span, slots)));
        assert_eq!(String::from_utf8_lossy(&file_of(&made)), file);
        round_trip(run, &made);
    }
}

/// Compares what a pattern is written as, what that is read as, alone and beside a text, and what it is written as again.
fn round_trip(run: &mut Run, pattern: &Pattern) {
    run.input();
    write_pattern(run, pattern);
    let file = file_of(pattern);
    read_pattern(run, &file);
    read_input(run, &file, &text_file(&[7, 0, 1]), 5);
    lines(run, &file);
    let read = ffi::read_pattern(&file);
    let case = || format!("written and read back\npattern: {pattern:?}");
    run.agree(&read, &Made { number: 0, place: 0, pattern: canonical(pattern) }, case);
    run.agree(&file_of(&read.pattern), &file, case);
    write_pattern(run, &read.pattern);
}

/// Compares the writing of some patterns into lists of every length, up to some more than they need.
fn every_room(run: &mut Run) {
    let (span, slots) = longest();
    let short = pattern((1, 1), &[(0, 0, But(&[]))]);
    let mixed = pattern(ANY_SPAN, &[(0, 0, Only(&[7, 65_535])), (0, 63, But(&[10]))]);
    for pattern in [short, mixed, pattern(span, &slots)] {
        run.input();
        for room in 0..MOST_BYTES + 20 {
            write_pattern_in(run, &pattern, room);
        }
        write_pattern_in(run, &pattern, 70_000);
    }
}

/// What patterns are compared by: span limits, and each slot's gap, mark and set of words.
type Said = (u16, u16, Vec<(u16, u16, bool, BTreeSet<u16>)>);

/// What a pattern says.
fn said(pattern: &Pattern) -> Said {
    let slots = pattern.slots[..pattern.count].iter();
    let slots =
        slots.map(|slot| (slot.low, slot.high, slot.excluding, slot.words[..slot.count].iter().copied().collect()));
    (pattern.least, pattern.most, slots.collect())
}

/// Compares families of patterns, all of each with all of it, each pattern twice with other entries past those stated.
fn all_pairs(run: &mut Run, rng: &mut Rng) {
    let gaps = [(0, 0), (0, 1), (1, 1), (0, 11), (1, 11), (11, 11)];
    let spans = [(1, 1), (1, 11), (11, 11), (1, 111), (11, 1_111)];
    let few = [Only(&[1]), Only(&[1, 2]), But(&[]), But(&[1])];
    let families = [
        [patterns(1, &DIGITS, &gaps, &spans), patterns(2, &DIGITS, &gaps[..1], &spans[..2])].concat(),
        [patterns(1, &DIGITS[..2], &gaps, &spans), patterns(2, &DIGITS[..2], &gaps, &spans)].concat(),
        [patterns(1, &few, &gaps, &spans), patterns(2, &few, &gaps[..2], &spans[..2])].concat(),
        [patterns(2, &few, &gaps[1..3], &spans[..1]), patterns(3, &few, &gaps[1..3], &spans[..1])].concat(),
        [patterns(3, &few[..2], &gaps[..3], &spans[..1]), patterns(4, &few[..2], &gaps[..2], &spans[..1])].concat(),
    ];
    for family in families {
        let mut other = family.clone();
        other.iter_mut().for_each(|pattern| add_garbage(rng, pattern));
        just_when_they_agree(run, &[family, other].concat());
    }
}

/// Asserts that two of these patterns are written as the same bytes just when they agree.
fn just_when_they_agree(run: &mut Run, patterns: &[Pattern]) {
    let mut written = Vec::new();
    for pattern in patterns {
        run.input();
        write_pattern(run, pattern);
        written.push((file_of(pattern), said(pattern)));
    }
    for (at, (file, said)) in written.iter().enumerate() {
        for (rival, (other_file, other_said)) in written[..at].iter().enumerate() {
            let alike = (file == other_file, said == other_said);
            assert_eq!(alike.0, alike.1, "same bytes, same pattern\n{:?}\n{:?}", patterns[at], patterns[rival]);
        }
    }
}

/// The pattern, the same with other entries past those stated, and those that differ from it in one number, mark or slot.
fn neighbours(rng: &mut Rng, pattern: &Pattern) -> Vec<Pattern> {
    let mut found = vec![*pattern];
    let mut add = |change: &dyn Fn(&mut Pattern)| {
        let mut changed = *pattern;
        change(&mut changed);
        found.push(changed);
    };
    add(&|changed| changed.count += 1);
    add(&|changed| changed.count -= 1);
    for by in [1, 10, 1_000, u16::MAX, u16::MAX - 9] {
        add(&|changed| changed.least = changed.least.wrapping_add(by));
        add(&|changed| changed.most = changed.most.wrapping_add(by));
        for at in 0..pattern.count {
            add(&|changed| changed.slots[at].low = changed.slots[at].low.wrapping_add(by));
            add(&|changed| changed.slots[at].high = changed.slots[at].high.wrapping_add(by));
            for word in 0..pattern.slots[at].count {
                add(&|changed| changed.slots[at].words[word] = changed.slots[at].words[word].wrapping_add(by));
            }
        }
    }
    for at in 0..pattern.count {
        add(&|changed| changed.slots[at].excluding ^= true);
        add(&|changed| changed.slots[at].count += 1);
        add(&|changed| changed.slots[at].count = changed.slots[at].count.saturating_sub(1));
    }
    found.retain(|changed| brute::check_pattern(changed).number == 0);
    let mut others = found.clone();
    others.iter_mut().for_each(|other| add_garbage(rng, other));
    [found, others].concat()
}
