//! The structures of the C header, declared again, their sizes and offsets stated in bytes.

use std::mem::{offset_of, size_of};

/// A slot: the first `count` of its words, which rise, the gap before it, and whether it takes any word but these.
#[repr(C)]
#[derive(Clone, Copy, Debug, Default, PartialEq, Eq)]
pub struct Slot {
    pub words: [u16; 8],
    pub count: usize,
    pub low: u16,
    pub high: u16,
    pub excluding: bool,
}

/// A pattern: the first `count` of its slots, and its span limits.
#[repr(C)]
#[derive(Clone, Copy, Debug, PartialEq, Eq)]
pub struct Pattern {
    pub slots: [Slot; 16],
    pub count: usize,
    pub least: u16,
    pub most: u16,
}

/// An answer, or a refusal with its place.
#[repr(C)]
#[derive(Clone, Copy, Debug, PartialEq, Eq)]
pub struct Answer {
    pub number: u32,
    pub place: usize,
    pub value: u64,
}

/// A number of occurrences in two halves, or a refusal with its place.
#[repr(C)]
#[derive(Clone, Copy, Debug, PartialEq, Eq)]
pub struct Total {
    pub number: u32,
    pub place: usize,
    pub high: u64,
    pub low: u64,
}

/// A pattern, beside a refusal with its place or 0 0.
#[repr(C)]
#[derive(Clone, Copy, Debug, PartialEq, Eq)]
pub struct Made {
    pub number: u32,
    pub place: usize,
    pub pattern: Pattern,
}

/// A pattern and how many words were written, beside a refusal with its place or 0 0.
#[repr(C)]
#[derive(Clone, Copy, Debug, PartialEq, Eq)]
pub struct ReadBoth {
    pub number: u32,
    pub place: usize,
    pub words: u64,
    pub pattern: Pattern,
}

/// Where a line's bytes end, and where the next line begins.
#[repr(C)]
#[derive(Clone, Copy, Debug, PartialEq, Eq)]
pub struct LineEnds {
    pub end: usize,
    pub next: usize,
}

/// What a search found.
#[repr(C)]
#[derive(Clone, Copy, Debug, PartialEq, Eq)]
pub struct Found {
    pub number: u32,
    pub place: usize,
    pub found: u64,
    pub places: [u16; 16],
}

/// How long an excerpt is, and one of its words.
#[repr(C)]
#[derive(Clone, Copy, Debug, PartialEq, Eq)]
pub struct Excerpted {
    pub length: usize,
    pub word: u16,
}

/// One client: its marks, and how many occurrences it was served.
#[repr(C)]
#[derive(Clone, Copy, Debug, Default, PartialEq, Eq)]
pub struct Client {
    pub marks: [u16; 16],
    pub served: usize,
}

/// Clients 1 to 4.
#[repr(C)]
#[derive(Clone, Copy, Debug, Default, PartialEq, Eq)]
pub struct Cursors {
    pub clients: [Client; 4],
}

/// The state that a call of `next` or `rewind` leaves, beside what it answers.
#[repr(C)]
#[derive(Clone, Copy, Debug, PartialEq, Eq)]
pub struct Served {
    pub cursors: Cursors,
    pub number: u32,
    pub place: usize,
    pub found: u64,
    pub places: [u16; 16],
}

/// Holds a structure's size and the offsets of all its fields to these bytes; `examples/layout.c` does so for C.
macro_rules! laid_out {
    ($structure:ident, $size:literal, { $($field:ident: $offset:literal),+ }) => {
        const _: () = {
            assert!(size_of::<$structure>() == $size);
            $(assert!(offset_of!($structure, $field) == $offset);)+
            // A field that the list leaves out is an error here.
            let _ = |$structure { $($field: _),+ }: $structure| {};
        };
    };
}

laid_out!(Slot, 32, { words: 0, count: 16, low: 24, high: 26, excluding: 28 });
laid_out!(Pattern, 528, { slots: 0, count: 512, least: 520, most: 522 });
laid_out!(Answer, 24, { number: 0, place: 8, value: 16 });
laid_out!(Total, 32, { number: 0, place: 8, high: 16, low: 24 });
laid_out!(Made, 544, { number: 0, place: 8, pattern: 16 });
laid_out!(ReadBoth, 552, { number: 0, place: 8, words: 16, pattern: 24 });
laid_out!(LineEnds, 16, { end: 0, next: 8 });
laid_out!(Found, 56, { number: 0, place: 8, found: 16, places: 24 });
laid_out!(Excerpted, 16, { length: 0, word: 8 });
laid_out!(Client, 40, { marks: 0, served: 32 });
laid_out!(Cursors, 160, { clients: 0 });
laid_out!(Served, 216, { cursors: 0, number: 160, place: 168, found: 176, places: 184 });
