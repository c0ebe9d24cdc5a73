//! Several failures at once, in plain and in excluding slots, so that the order of the tests is seen.

use compare::brute::Brute;
use compare::cases::clients::numbered_apart;
use compare::cases::inputs::sevens;
use compare::cases::small::tuples;
use compare::cases::Words::But;
use compare::cases::{pattern, ANY_SPAN};
use compare::layout::Pattern;

use crate::both::{check, check_pattern, write_pattern_in, Both};
use crate::run::Run;

/// The failures that can be put together, each by its bit.
const SLOTS: u32 = 1;
const WORDS: u32 = 2;
const ZERO: u32 = 4;
const GAP: u32 = 8;
const RISING: u32 = 16;
const SPAN: u32 = 32;
const TEXT: u32 = 64;
const PLACES: u32 = 128;
const SERVED: u32 = 256;

/// All failures of a slot.
const OF_SLOTS: u32 = WORDS | ZERO | GAP | RISING;

/// Compares every set of failures, with those of slots at every slot, the slots plain, excluding or mixed.
pub fn run(run: &mut Run) {
    for marked in [0b000, 0b111, 0b101] {
        for failures in 0..2 * SERVED {
            let places = if failures & RISING == 0 { 27 } else { 81 };
            for at in 0..places {
                let at = [at / 27, at / 9 % 3, at / 3 % 3, at % 3];
                every_call(run, &broken(marked, failures, at), failures);
            }
        }
    }
    sets_of_three(run);
    two_of_sixteen(run);
}

/// Compares every call on a pattern with these failures, with those of the text, the marks and the cursors.
fn every_call(run: &mut Run, pattern: &Pattern, failures: u32) {
    let (short, long) = ([7, 7, 7, 7, 0, 7, 7, 7], [7; 20_001]);
    let text = if failures & TEXT == 0 { &short[..] } else { &long };
    let wrong = failures & PLACES != 0;
    let marks = if wrong { &[0, 0][..] } else { &[0, 0, 0] };
    let client = if wrong { 5 } else { 1 };
    // The other clients' numbers are on the other side of the limit.
    let served = if failures & SERVED == 0 { 0 } else { 500 };
    let cursors = numbered_apart(client, served, 500 - served);
    let mut both = Both::new(run, Brute::enumerated(pattern, text));
    both.every_call(marks, &cursors, client);
}

/// Compares the tests of patterns of three slots, each slot plain or excluding and with every set of failures.
fn sets_of_three(run: &mut Run) {
    let sets: Vec<u16> = (0..=(OF_SLOTS / WORDS) as u16).collect();
    for sets in tuples(&sets, 3) {
        for others in [0, SLOTS, SPAN, SLOTS | SPAN] {
            for marked in 0..8 {
                for zeroth in [0, 1] {
                    let mut pattern = broken(marked, others, [0, 0, 0, zeroth]);
                    for (at, set) in sets.iter().enumerate() {
                        break_slot(&mut pattern, at, u32::from(*set) * WORDS);
                    }
                    compare(run, &pattern);
                }
            }
        }
    }
}

/// Compares the tests of patterns of sixteen slots, all or half of them stated, all or half of them plain, and one or
/// two failing in each way.
fn two_of_sixteen(run: &mut Run) {
    let failures = [WORDS, ZERO, GAP, RISING];
    for at in 0..16 * 16 {
        for both in 0..16 {
            for (stated, marked) in [(16, 0), (8, 0), (16, 0b0101_0011_0101_0011), (8, 0b1100_1010_1100_1010)] {
                let mut pattern = marked_sevens(16, marked);
                break_slot(&mut pattern, at / 16, failures[both / 4]);
                break_slot(&mut pattern, at % 16, failures[both % 4]);
                pattern.count = stated;
                compare(run, &pattern);
            }
        }
    }
}

/// Compares the tests of a pattern, alone, with a text within the limit and one past it, and before it is written.
fn compare(run: &mut Run, pattern: &Pattern) {
    run.input();
    check_pattern(run, pattern);
    check(run, pattern, 0);
    check(run, pattern, 20_001);
    write_pattern_in(run, pattern, 0);
}

/// So many slots that take the word 7, those whose bit is 1 by excluding the word 8.
fn marked_sevens(slots: usize, marked: u32) -> Pattern {
    let mut written = sevens(slots, 0, 1);
    for (_, slot) in written.iter_mut().enumerate().filter(|(at, _)| marked >> at & 1 == 1) {
        slot.2 = But(&[8]);
    }
    pattern(ANY_SPAN, &written)
}

/// A pattern of three slots, some excluding, with these failures: words that do not rise, too few or many words, the word
/// 0, and a wrong gap at these slots.
fn broken(marked: u32, failures: u32, [rising, words, zero, gap]: [usize; 4]) -> Pattern {
    let mut broken = marked_sevens(3, marked);
    break_slot(&mut broken, rising, failures & RISING);
    break_slot(&mut broken, words, failures & WORDS);
    break_slot(&mut broken, zero, failures & ZERO);
    break_slot(&mut broken, gap, failures & GAP);
    if failures & SPAN != 0 {
        (broken.least, broken.most) = (0, 5);
    }
    if failures & SLOTS != 0 {
        broken.count = if gap == 1 { 0 } else { 17 };
    }
    broken
}

/// Words that fall, that are all equal, and of which only the last two do not rise; they stay so with a 0 for the first.
const NOT_RISING: [[u16; 3]; 3] = [[9, 8, 7], [7, 7, 7], [1, 8, 8]];

/// Gives a slot these failures: words that do not rise, too few or many words, the word 0, and a wrong gap. No words are
/// too few for a plain slot alone, so an excluding one gets too many.
fn break_slot(pattern: &mut Pattern, at: usize, failures: u32) {
    let slot = &mut pattern.slots[at];
    if failures & RISING != 0 {
        slot.words[..3].copy_from_slice(&NOT_RISING[at % 3]);
        slot.count = 3;
    }
    if failures & WORDS != 0 {
        slot.count = if at == 1 && !slot.excluding { 0 } else { 9 };
    }
    if failures & ZERO != 0 {
        slot.words[0] = 0;
    }
    if failures & GAP != 0 {
        (slot.low, slot.high) = (2, 1);
    }
}
