//! The library's calls: their declarations, and a thin safe wrapper for each.
//!
//! What the C header asks of a caller holds by the wrappers' types. A slice's pointer is not null, also without
//! entries, is aligned, and is valid for as many entries as the slice has until the call returns; a slice that a call
//! writes to is borrowed mutably, so it overlaps no other. Patterns and cursors go by value, and the library answers
//! for any numbers in them. A mark is 0 or 1 on both sides: Rust's `bool` is C's. The stack is the caller's business:
//! `tests/stack.rs` has threads of the size stated.

use crate::layout::{Answer, Cursors, Excerpted, Found, LineEnds, Made, Pattern, ReadBoth, Served, Total};

extern "C" {
    fn bedbloomer_count(pattern: *const u8, pattern_bytes: usize, text: *const u8, text_bytes: usize) -> u32;
    fn bedbloomer_report(input: *const u8, input_bytes: usize, out: *mut u8, out_bytes: usize) -> usize;
    fn bedbloomer_read_pattern(bytes: *const u8, byte_count: usize) -> Made;
    fn bedbloomer_read_text(bytes: *const u8, byte_count: usize, words: *mut u16, word_count: usize) -> Answer;
    fn bedbloomer_read_input(
        pattern: *const u8,
        pattern_bytes: usize,
        text: *const u8,
        text_bytes: usize,
        words: *mut u16,
        word_count: usize,
    ) -> ReadBoth;
    fn bedbloomer_write_pattern(pattern: Pattern, out: *mut u8, out_bytes: usize) -> Answer;
    fn bedbloomer_line(bytes: *const u8, byte_count: usize, at: usize) -> LineEnds;
    fn bedbloomer_pattern_of(least: u16, most: u16) -> Pattern;
    fn bedbloomer_with_slot(
        pattern: Pattern,
        low: u16,
        high: u16,
        excluding: bool,
        words: *const u16,
        word_count: usize,
    ) -> Made;
    fn bedbloomer_check(pattern: Pattern, words: usize) -> Answer;
    fn bedbloomer_check_pattern(pattern: Pattern) -> Answer;
    fn bedbloomer_merge(first: Pattern, second: Pattern) -> Made;
    fn bedbloomer_is_occurrence(
        pattern: Pattern,
        text: *const u16,
        text_words: usize,
        row: *const u16,
        row_places: usize,
    ) -> Answer;
    fn bedbloomer_excerpt(
        pattern: Pattern,
        text: *const u16,
        text_words: usize,
        row: *const u16,
        row_places: usize,
        index: usize,
    ) -> Excerpted;
    fn bedbloomer_first_after(
        pattern: Pattern,
        text: *const u16,
        text_words: usize,
        marks: *const u16,
        mark_count: usize,
    ) -> Found;
    fn bedbloomer_last_before(
        pattern: Pattern,
        text: *const u16,
        text_words: usize,
        marks: *const u16,
        mark_count: usize,
    ) -> Found;
    fn bedbloomer_leftmost(
        pattern: Pattern,
        text: *const u16,
        text_words: usize,
        list: *mut u16,
        list_entries: usize,
    ) -> Answer;
    fn bedbloomer_rightmost(
        pattern: Pattern,
        text: *const u16,
        text_words: usize,
        list: *mut u16,
        list_entries: usize,
    ) -> Answer;
    fn bedbloomer_all(
        pattern: Pattern,
        text: *const u16,
        text_words: usize,
        list: *mut u16,
        list_entries: usize,
    ) -> Answer;
    fn bedbloomer_support(pattern: Pattern, text: *const u16, text_words: usize) -> Answer;
    fn bedbloomer_tally(pattern: Pattern, text: *const u16, text_words: usize) -> Total;
    fn bedbloomer_starts(
        pattern: Pattern,
        text: *const u16,
        text_words: usize,
        list: *mut u64,
        list_entries: usize,
    ) -> Answer;
    fn bedbloomer_recode(
        text: *const u16,
        text_words: usize,
        classes: *const u8,
        class_count: usize,
        expression: *const u8,
        expression_bytes: usize,
        code: u16,
        out: *mut u16,
        out_words: usize,
    ) -> Answer;
    fn bedbloomer_next(
        cursors: Cursors,
        client: usize,
        pattern: Pattern,
        text: *const u16,
        text_words: usize,
    ) -> Served;
    fn bedbloomer_rewind(cursors: Cursors, client: usize) -> Served;
}

/// The count for a pattern file and a text file, or 100,000 plus the refusal's number.
pub fn count(pattern: &[u8], text: &[u8]) -> u32 {
    // SAFETY: each pointer and its length are one slice's, borrowed during the call, which only reads them.
    unsafe { bedbloomer_count(pattern.as_ptr(), pattern.len(), text.as_ptr(), text.len()) }
}

/// Writes what the program prints, as far as `out` holds it: how many bytes.
pub fn report(input: &[u8], out: &mut [u8]) -> usize {
    // SAFETY: each pointer and its length are one slice's; only `out` is written, and it is borrowed mutably.
    unsafe { bedbloomer_report(input.as_ptr(), input.len(), out.as_mut_ptr(), out.len()) }
}

/// The pattern in a pattern file.
pub fn read_pattern(bytes: &[u8]) -> Made {
    // SAFETY: the pointer and the length are one slice's, borrowed during the call, which only reads it.
    unsafe { bedbloomer_read_pattern(bytes.as_ptr(), bytes.len()) }
}

/// Writes the words in a text file to the start of `words`: how many.
pub fn read_text(bytes: &[u8], words: &mut [u16]) -> Answer {
    // SAFETY: each pointer and its length are one slice's; only `words` is written, and it is borrowed mutably.
    unsafe { bedbloomer_read_text(bytes.as_ptr(), bytes.len(), words.as_mut_ptr(), words.len()) }
}

/// The pattern in a pattern file, and the words in a text file written to the start of `words`.
pub fn read_input(pattern: &[u8], text: &[u8], words: &mut [u16]) -> ReadBoth {
    let (pattern, pattern_bytes) = (pattern.as_ptr(), pattern.len());
    let (text, text_bytes) = (text.as_ptr(), text.len());
    // SAFETY: each pointer and its length are one slice's; only `words` is written, and it is borrowed mutably.
    unsafe { bedbloomer_read_input(pattern, pattern_bytes, text, text_bytes, words.as_mut_ptr(), words.len()) }
}

/// Writes the pattern's file to the start of `out`: how many bytes.
pub fn write_pattern(pattern: &Pattern, out: &mut [u8]) -> Answer {
    // SAFETY: the pointer and the length are one slice's, which is borrowed mutably; the pattern goes by value.
    unsafe { bedbloomer_write_pattern(*pattern, out.as_mut_ptr(), out.len()) }
}

/// The line that begins at a byte: where it ends, and where the next begins.
pub fn line(bytes: &[u8], at: usize) -> LineEnds {
    // SAFETY: the pointer and the length are one slice's, borrowed during the call, which only reads it.
    unsafe { bedbloomer_line(bytes.as_ptr(), bytes.len(), at) }
}

/// A pattern without slots, with these span limits.
pub fn pattern_of(least: u16, most: u16) -> Pattern {
    // SAFETY: no pointer is handed over, and the call answers for any numbers.
    unsafe { bedbloomer_pattern_of(least, most) }
}

/// The pattern with one slot more, marked or not.
pub fn with_slot(pattern: &Pattern, low: u16, high: u16, excluding: bool, words: &[u16]) -> Made {
    // SAFETY: the pointer and the length are one slice's, borrowed during the call, which only reads it; the mark is a
    // `bool`, 0 or 1.
    unsafe { bedbloomer_with_slot(*pattern, low, high, excluding, words.as_ptr(), words.len()) }
}

/// The tests of a pattern, and of a text of so many words.
pub fn check(pattern: &Pattern, words: usize) -> Answer {
    // SAFETY: no pointer is handed over, and the call answers for any numbers.
    unsafe { bedbloomer_check(*pattern, words) }
}

/// The tests of a pattern.
pub fn check_pattern(pattern: &Pattern) -> Answer {
    // SAFETY: no pointer is handed over, and the call answers for any numbers.
    unsafe { bedbloomer_check_pattern(*pattern) }
}

/// Two patterns merged.
pub fn merge(first: &Pattern, second: &Pattern) -> Made {
    // SAFETY: no pointer is handed over, and the call answers for any numbers.
    unsafe { bedbloomer_merge(*first, *second) }
}

/// Whether a row is an occurrence.
pub fn is_occurrence(pattern: &Pattern, text: &[u16], row: &[u16]) -> Answer {
    // SAFETY: each pointer and its length are one slice's, borrowed during the call, which only reads them.
    unsafe { bedbloomer_is_occurrence(*pattern, text.as_ptr(), text.len(), row.as_ptr(), row.len()) }
}

/// How long the row's excerpt is, and its word at an index from 0.
pub fn excerpt(pattern: &Pattern, text: &[u16], row: &[u16], index: usize) -> Excerpted {
    // SAFETY: each pointer and its length are one slice's, borrowed during the call, which only reads them.
    unsafe { bedbloomer_excerpt(*pattern, text.as_ptr(), text.len(), row.as_ptr(), row.len(), index) }
}

/// The earliest occurrence past the marks.
pub fn first_after(pattern: &Pattern, text: &[u16], marks: &[u16]) -> Found {
    // SAFETY: each pointer and its length are one slice's, borrowed during the call, which only reads them.
    unsafe { bedbloomer_first_after(*pattern, text.as_ptr(), text.len(), marks.as_ptr(), marks.len()) }
}

/// The latest occurrence before the marks.
pub fn last_before(pattern: &Pattern, text: &[u16], marks: &[u16]) -> Found {
    // SAFETY: each pointer and its length are one slice's, borrowed during the call, which only reads them.
    unsafe { bedbloomer_last_before(*pattern, text.as_ptr(), text.len(), marks.as_ptr(), marks.len()) }
}

/// Writes the front list: how many rows.
pub fn leftmost(pattern: &Pattern, text: &[u16], list: &mut [u16]) -> Answer {
    // SAFETY: each pointer and its length are one slice's; only `list` is written, and it is borrowed mutably.
    unsafe { bedbloomer_leftmost(*pattern, text.as_ptr(), text.len(), list.as_mut_ptr(), list.len()) }
}

/// Writes the back list: how many rows.
pub fn rightmost(pattern: &Pattern, text: &[u16], list: &mut [u16]) -> Answer {
    // SAFETY: each pointer and its length are one slice's; only `list` is written, and it is borrowed mutably.
    unsafe { bedbloomer_rightmost(*pattern, text.as_ptr(), text.len(), list.as_mut_ptr(), list.len()) }
}

/// Writes all occurrences: how many rows.
pub fn all(pattern: &Pattern, text: &[u16], list: &mut [u16]) -> Answer {
    // SAFETY: each pointer and its length are one slice's; only `list` is written, and it is borrowed mutably.
    unsafe { bedbloomer_all(*pattern, text.as_ptr(), text.len(), list.as_mut_ptr(), list.len()) }
}

/// The count.
pub fn support(pattern: &Pattern, text: &[u16]) -> Answer {
    // SAFETY: the pointer and the length are one slice's, borrowed during the call, which only reads it.
    unsafe { bedbloomer_support(*pattern, text.as_ptr(), text.len()) }
}

/// The tally.
pub fn tally(pattern: &Pattern, text: &[u16]) -> Total {
    // SAFETY: the pointer and the length are one slice's, borrowed during the call, which only reads it.
    unsafe { bedbloomer_tally(*pattern, text.as_ptr(), text.len()) }
}

/// Writes how many occurrences start at each place: how many words.
pub fn starts(pattern: &Pattern, text: &[u16], list: &mut [u64]) -> Answer {
    // SAFETY: each pointer and its length are one slice's; only `list` is written, and it is borrowed mutably.
    unsafe { bedbloomer_starts(*pattern, text.as_ptr(), text.len(), list.as_mut_ptr(), list.len()) }
}

/// Writes a text recoded by word class: how many words.
pub fn recode(text: &[u16], classes: &[u8], expression: &[u8], code: u16, out: &mut [u16]) -> Answer {
    let (text, text_words) = (text.as_ptr(), text.len());
    let (classes, class_count) = (classes.as_ptr(), classes.len());
    let (expression, bytes) = (expression.as_ptr(), expression.len());
    let (out, out_words) = (out.as_mut_ptr(), out.len());
    // SAFETY: each pointer and its length are one slice's; only `out` is written, and it is borrowed mutably.
    unsafe { bedbloomer_recode(text, text_words, classes, class_count, expression, bytes, code, out, out_words) }
}

/// The next occurrence for a client.
pub fn next(cursors: &Cursors, client: usize, pattern: &Pattern, text: &[u16]) -> Served {
    // SAFETY: the pointer and the length are one slice's, borrowed during the call, which only reads it.
    unsafe { bedbloomer_next(*cursors, client, *pattern, text.as_ptr(), text.len()) }
}

/// A client's marks set to 0.
pub fn rewind(cursors: &Cursors, client: usize) -> Served {
    // SAFETY: no pointer is handed over, and the call answers for any numbers.
    unsafe { bedbloomer_rewind(*cursors, client) }
}
