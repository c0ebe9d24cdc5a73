//! A pattern written as a file, by joining strings.

use std::collections::BTreeSet;

use super::limits::test_pattern;
use super::occurrences::slots;
use super::refusal::{answer, refuse, Refusal};
use crate::layout::{Answer, Pattern, Slot};

/// Writes the pattern's file to the start of `out`: how many bytes.
pub fn write_pattern(pattern: &Pattern, out: &mut [u8]) -> Answer {
    answer(written(pattern).and_then(|file| {
        if file.len() > out.len() {
            return refuse(8, 0);
        }
        out[..file.len()].copy_from_slice(file.as_bytes());
        Ok(file.len() as u64)
    }))
}

/// The pattern's file, or why it has none.
pub fn written(pattern: &Pattern) -> Result<String, Refusal> {
    test_pattern(pattern)?;
    let mut lines =
        vec![String::from("least most"), format!("{} {}", pattern.least, pattern.most), String::from("low high words")];
    lines.extend(slots(pattern).iter().map(slot_line));
    Ok(lines.join("\n") + "\n")
}

/// The line of a slot, its words read out of a set, so that no order is relied on.
fn slot_line(slot: &Slot) -> String {
    let listed = BTreeSet::from_iter(&slot.words[..slot.count]);
    let words = listed.into_iter().map(u16::to_string).collect::<Vec<_>>().join(",");
    let mark = if slot.excluding { "!" } else { "" };
    format!("{} {} {mark}{words}", slot.low, slot.high)
}
