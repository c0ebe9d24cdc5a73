//! Pattern files and text files, good ones and damaged ones.

use super::small::texts;
use crate::layout::{Pattern, Slot};
use crate::rng::Rng;

/// The orders of the two names of the span limits.
pub const SPAN_ORDERS: [[usize; 2]; 2] = [[0, 1], [1, 0]];

/// The orders of the three names of a slot.
pub const SLOT_ORDERS: [[usize; 3]; 6] = [[0, 1, 2], [0, 2, 1], [1, 0, 2], [1, 2, 0], [2, 0, 1], [2, 1, 0]];

/// The pattern file of a pattern whose stated numbers are within the limits, its names in these orders.
pub fn pattern_file(pattern: &Pattern, span: [usize; 2], slot: [usize; 3]) -> Vec<u8> {
    let mut file = line(["least", "most"].map(String::from), span);
    file += &line([pattern.least, pattern.most].map(|limit| limit.to_string()), span);
    file += &line(["low", "high", "words"].map(String::from), slot);
    for stated in &pattern.slots[..pattern.count] {
        let fields = [stated.low.to_string(), stated.high.to_string(), words(stated)];
        file += &line(fields, slot);
    }
    file.into_bytes()
}

/// The pattern file of a pattern, its names in the usual order.
pub fn usual_pattern_file(pattern: &Pattern) -> Vec<u8> {
    pattern_file(pattern, SPAN_ORDERS[0], SLOT_ORDERS[0])
}

/// The field of a slot's words: a `!` if it is excluding, and the words joined by commas.
fn words(slot: &Slot) -> String {
    let mark = if slot.excluding { "!" } else { "" };
    let listed: Vec<String> = slot.words[..slot.count].iter().map(u16::to_string).collect();
    format!("{mark}{}", listed.join(","))
}

/// A line of these fields in this order.
fn line<const FIELDS: usize>(fields: [String; FIELDS], order: [usize; FIELDS]) -> String {
    order.map(|at| fields[at].clone()).join(" ") + "\n"
}

/// The text file of a text.
pub fn text_file(text: &[u16]) -> Vec<u8> {
    let mut file = String::from("word\n");
    for word in text {
        file += &format!("{word}\n");
    }
    file.into_bytes()
}

/// The program's input: both files with an empty line between them.
pub fn input(pattern: &[u8], text: &[u8]) -> Vec<u8> {
    [pattern, b"\n", text].concat()
}

/// Bytes that a damaged file may contain: each means something somewhere, or nothing anywhere.
pub const BYTES: &[u8] = b"\n\r \t,!0123679lmwx-+.\x00\x0B\x7F\x80\xFF";

/// The file cut short before each of its bytes, and without that byte, with it doubled, and with others in its place.
pub fn damages_at(file: &[u8], at: usize, bytes: &[u8]) -> Vec<Vec<u8>> {
    let (before, from, after) = (&file[..at], &file[at..], &file[at + 1..]);
    let mut damaged = vec![before.to_vec(), [before, after].concat(), [before, &file[at..=at], from].concat()];
    for &byte in bytes {
        damaged.push([before, &[byte], after].concat());
        damaged.push([before, &[byte], from].concat());
    }
    damaged
}

/// All fields of up to 5 bytes over `!`, `,`, `0`, `1` and the space.
pub fn small_fields() -> Vec<String> {
    let bytes = [b'!', b',', b'0', b'1', b' '].map(u16::from);
    let field = |bytes: &Vec<u16>| bytes.iter().map(|&byte| char::from(byte as u8)).collect();
    texts(&bytes, 5).iter().map(field).collect()
}

/// The file with a `!` put in at every offset, and in the place of every byte.
pub fn marked_everywhere(file: &[u8]) -> Vec<Vec<u8>> {
    let put_in = (0..=file.len()).map(|at| [&file[..at], b"!", &file[at..]].concat());
    let put_for = (0..file.len()).map(|at| [&file[..at], b"!", &file[at + 1..]].concat());
    put_in.chain(put_for).collect()
}

/// The file with one random damage; called again on its result, it does one more.
pub fn damage(rng: &mut Rng, file: &[u8]) -> Vec<u8> {
    if file.is_empty() {
        return vec![rng.pick(BYTES)];
    }
    if rng.once_in(4) {
        return damage_lines(rng, file);
    }
    let at = rng.within(0, file.len() - 1);
    let byte = rng.pick(BYTES);
    let damaged = damages_at(file, at, &[byte]);
    // A cut leaves little of the file, so it is rarer than the others.
    let first = if rng.once_in(8) { 0 } else { 1 };
    damaged[rng.within(first, damaged.len() - 1)].clone()
}

/// The file with one line dropped, doubled, emptied, or put in another's place.
fn damage_lines(rng: &mut Rng, file: &[u8]) -> Vec<u8> {
    let mut lines: Vec<&[u8]> = file.split_inclusive(|&byte| byte == b'\n').collect();
    let (one, other) = (rng.within(0, lines.len() - 1), rng.within(0, lines.len() - 1));
    match rng.within(1, 4) {
        1 => drop(lines.remove(one)),
        2 => lines.insert(other, lines[one]),
        3 => lines[one] = b"\n",
        _ => lines.swap(one, other),
    }
    lines.concat()
}
