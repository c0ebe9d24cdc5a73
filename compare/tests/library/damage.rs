//! Good files with bytes changed, dropped, doubled and put in, cut at every byte, with a `!` at every offset, and with
//! lines mixed up.

use compare::cases::files::{
    damage, damages_at, input, marked_everywhere, pattern_file, text_file, usual_pattern_file, BYTES, SLOT_ORDERS,
    SPAN_ORDERS,
};
use compare::cases::Words::{But, Only};
use compare::cases::{pattern, Written, ANY_SPAN};
use compare::rng::Rng;

use crate::file_calls::{lines, pair, read_pattern, read_text, report};
use crate::run::Run;

/// Words lent to the text reader, more than a damaged file has.
const ROOM: usize = 40;

/// Slots of patterns whose files are damaged in every way: plain ones, and a mixture, some words not in order.
const DAMAGED: [&[Written]; 2] = [
    &[(0, 0, Only(&[7, 65_535])), (0, 10, Only(&[1, 10])), (1, 3, Only(&[2]))],
    &[(0, 0, Only(&[65_535, 7])), (0, 10, But(&[1, 65_535])), (1, 3, But(&[]))],
];

/// Slots of patterns in whose files marks are put: plain ones, excluding ones, and mixtures; the last are refused.
const MARKED: [&[Written]; 6] = [
    &[(0, 0, Only(&[7])), (0, 1, Only(&[12, 15]))],
    &[(0, 0, But(&[7])), (0, 1, But(&[15, 12]))],
    &[(0, 0, Only(&[7, 12])), (0, 1, But(&[1, 2, 3, 4, 5, 6, 8, 65_535])), (0, 0, But(&[]))],
    &[(0, 0, But(&[]))],
    &[(0, 0, But(&[])), (0, 63, But(&[])), (63, 63, But(&[]))],
    &[(0, 0, But(&[9])), (0, 1, Only(&[0])), (0, 1, But(&[0, 1]))],
];

/// Compares damaged files.
pub fn run(run: &mut Run) {
    let text = text_file(&[7, 65_535, 10, 100, 2, 0, 7, 1, 0, 2, 2]);
    for (at, slots) in DAMAGED.iter().enumerate() {
        for (turn, slot) in SLOT_ORDERS.iter().enumerate() {
            let file = pattern_file(&pattern((2, 20_000), slots), SPAN_ORDERS[turn % 2], *slot);
            at_every_byte(run, &file, &text);
            at_random(run, &file, &text, (6 * at + turn) as u64);
        }
    }
    marks(run);
}

/// Compares every single damage of either file.
fn at_every_byte(run: &mut Run, pattern: &[u8], text: &[u8]) {
    for at in 0..pattern.len() {
        damages_at(pattern, at, BYTES).iter().for_each(|damaged| damaged_pattern(run, damaged, text));
    }
    for at in 0..text.len() {
        damages_at(text, at, BYTES).iter().for_each(|damaged| damaged_text(run, pattern, damaged));
    }
}

/// Compares every call on a damaged pattern file.
fn damaged_pattern(run: &mut Run, damaged: &[u8], text: &[u8]) {
    run.input();
    read_pattern(run, damaged);
    lines(run, damaged);
    pair(run, damaged, text);
    report(run, &input(damaged, text));
}

/// Compares every call on a damaged text file.
fn damaged_text(run: &mut Run, pattern: &[u8], damaged: &[u8]) {
    run.input();
    read_text(run, damaged, ROOM);
    lines(run, damaged);
    pair(run, pattern, damaged);
    report(run, &input(pattern, damaged));
}

/// Compares files with a `!` at every offset.
fn marks(run: &mut Run) {
    let text = text_file(&[7, 12, 7, 0, 8]);
    for slots in MARKED {
        for slot in SLOT_ORDERS {
            let file = pattern_file(&pattern(ANY_SPAN, slots), SPAN_ORDERS[0], slot);
            marked_everywhere(&file).iter().for_each(|damaged| damaged_pattern(run, damaged, &text));
        }
    }
    let pattern = usual_pattern_file(&pattern(ANY_SPAN, MARKED[2]));
    for text in [&[][..], &[7], &[7, 65_535, 0, 12]] {
        marked_everywhere(&text_file(text)).iter().for_each(|damaged| damaged_text(run, &pattern, damaged));
    }
}

/// Compares files with a few random damages each.
fn at_random(run: &mut Run, pattern: &[u8], text: &[u8], seed: u64) {
    let mut rng = Rng::new(55 + seed);
    for _ in 0..2_000 {
        let (mut pattern, mut text) = (pattern.to_vec(), text.to_vec());
        let mut whole = input(&pattern, &text);
        for _ in 0..rng.within(1, 4) {
            pattern = damage(&mut rng, &pattern);
            text = damage(&mut rng, &text);
            whole = damage(&mut rng, &whole);
        }
        run.input();
        read_pattern(run, &pattern);
        read_text(run, &text, ROOM);
        read_text(run, &text, rng.within(0, 9));
        pair(run, &pattern, &text);
        lines(run, &whole);
        report(run, &input(&pattern, &text));
        report(run, &whole);
    }
}
