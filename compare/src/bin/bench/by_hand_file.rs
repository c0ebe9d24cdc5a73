//! The library's writing of a pattern as a file, written by hand in ordinary safe Rust.

use compare::layout::{Pattern, Slot};

/// The lines of names.
const SPAN_NAMES: &[u8] = b"least most\n";
const SLOT_NAMES: &[u8] = b"low high words\n";

/// Whether the slot keeps its limits but for the order of its words.
fn slot_passes(slot: &Slot, first: bool) -> bool {
    let fewest = if slot.excluding { 0 } else { 1 };
    let gap = slot.low <= slot.high && slot.high <= if first { 0 } else { 63 };
    (fewest..=8).contains(&slot.count) && !slot.words[..slot.count].contains(&0) && gap
}

/// Whether the slot's words rise.
fn rises(slot: &Slot) -> bool {
    slot.words[..slot.count].windows(2).all(|pair| pair[0] < pair[1])
}

/// Whether the pattern is accepted.
#[inline]
pub fn accepted(pattern: &Pattern) -> bool {
    let Some(slots) = pattern.slots.get(..pattern.count) else {
        return false;
    };
    let span = 1 <= pattern.least && pattern.least <= pattern.most && pattern.most <= 20_000;
    let passes = slots.iter().enumerate().all(|(j, slot)| slot_passes(slot, j == 0));
    !slots.is_empty() && passes && span && slots.iter().all(rises)
}

/// How many digits the number has.
fn digits(number: u16) -> usize {
    1 + (number >= 10) as usize + (number >= 100) as usize + (number >= 1_000) as usize + (number >= 10_000) as usize
}

/// How many bytes the slot's line has: each word's digits with the comma or line feed past them, the mark, and the gap.
fn slot_bytes(slot: &Slot) -> usize {
    let words: usize = slot.words[..slot.count].iter().map(|&word| digits(word) + 1).sum();
    digits(slot.low) + digits(slot.high) + 2 + slot.excluding as usize + words.max(1)
}

/// How many bytes the pattern's file has.
fn file_bytes(pattern: &Pattern) -> usize {
    let span = digits(pattern.least) + digits(pattern.most) + 2;
    let slots: usize = pattern.slots[..pattern.count].iter().map(slot_bytes).sum();
    SPAN_NAMES.len() + span + SLOT_NAMES.len() + slots
}

/// A list that is filled from its start.
struct Out<'a> {
    list: &'a mut [u8],
    written: usize,
}

impl Out<'_> {
    /// Writes these bytes.
    fn bytes(&mut self, bytes: &[u8]) {
        self.list[self.written..self.written + bytes.len()].copy_from_slice(bytes);
        self.written += bytes.len();
    }

    /// Writes the number, and a byte past it.
    fn number(&mut self, mut number: u16, past: u8) {
        let mut at = self.written + digits(number);
        self.list[at] = past;
        self.written = at + 1;
        loop {
            at -= 1;
            self.list[at] = b'0' + (number % 10) as u8;
            number /= 10;
            if number == 0 {
                return;
            }
        }
    }

    /// Writes the slot's line.
    fn slot(&mut self, slot: &Slot) {
        self.number(slot.low, b' ');
        self.number(slot.high, b' ');
        if slot.excluding {
            self.bytes(b"!");
        }
        let Some((last, words)) = slot.words[..slot.count].split_last() else {
            return self.bytes(b"\n");
        };
        for &word in words {
            self.number(word, b',');
        }
        self.number(*last, b'\n');
    }
}

/// Writes the pattern's file, if the pattern is accepted and the file has room, and says how many bytes it has.
pub fn write_pattern(pattern: &Pattern, list: &mut [u8]) -> Option<u64> {
    if !accepted(pattern) || list.len() < file_bytes(pattern) {
        return None;
    }
    let mut out = Out { list, written: 0 };
    out.bytes(SPAN_NAMES);
    out.number(pattern.least, b' ');
    out.number(pattern.most, b'\n');
    out.bytes(SLOT_NAMES);
    for slot in &pattern.slots[..pattern.count] {
        out.slot(slot);
    }
    Some(out.written as u64)
}
