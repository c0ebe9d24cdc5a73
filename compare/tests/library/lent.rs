//! Lists lent to calls, filled with entries that tell whether a call has touched them, and files between other bytes.

use std::fmt::{Debug, Formatter, Result};

/// How many entries stand before and after the lent part; no call may touch them.
const GUARD: usize = 24;

/// A list whose middle part is lent.
#[derive(PartialEq)]
pub struct Lent<T> {
    entries: Vec<T>,
}

impl Lent<u16> {
    /// A list of so many words or places, filled with numbers that are neither.
    pub fn places(room: usize) -> Lent<u16> {
        let entry = |at: usize| 30_000 + (at % 30_000) as u16;
        Lent { entries: (0..room + 2 * GUARD).map(entry).collect() }
    }
}

impl Lent<u64> {
    /// A list of so many halves, filled with great numbers, no two alike, that no column of the cases has there.
    pub fn numbers(room: usize) -> Lent<u64> {
        let entry = |at: usize| (at as u64 + 1).wrapping_mul(0x9E37_79B9_7F4A_7C15);
        Lent { entries: (0..room + 2 * GUARD).map(entry).collect() }
    }
}

impl Lent<u8> {
    /// A list of so many bytes, filled with bytes that no output has.
    pub fn bytes(room: usize) -> Lent<u8> {
        let entry = |at: usize| 128 + (at % 100) as u8;
        Lent { entries: (0..room + 2 * GUARD).map(entry).collect() }
    }
}

impl<T> Lent<T> {
    /// The part that is lent.
    pub fn part(&mut self) -> &mut [T] {
        let end = self.entries.len() - GUARD;
        &mut self.entries[GUARD..end]
    }
}

/// A file or an expression whose bytes are lent. Past a file stand bytes 10: to a call that reads on, a last line left
/// open looks closed. Past an expression stand bytes that may be the rest of it.
pub struct Fenced {
    bytes: Vec<u8>,
}

impl Fenced {
    /// The file between bytes 10.
    pub fn new(file: &[u8]) -> Fenced {
        Fenced { bytes: [&[b'\n'; GUARD], file, &[b'\n'; GUARD]].concat() }
    }

    /// The expression between brackets that close it, where one is left open, else between letters.
    pub fn expression(bytes: &[u8]) -> Fenced {
        let number = |of: u8| bytes.iter().filter(|&&byte| byte == of).count();
        let fence = if number(b'(') > number(b')') { b')' } else { b'a' };
        Fenced { bytes: [&[fence; GUARD], bytes, &[fence; GUARD]].concat() }
    }

    /// The lent bytes alone.
    pub fn part(&self) -> &[u8] {
        &self.bytes[GUARD..self.bytes.len() - GUARD]
    }
}

impl<T: Debug> Debug for Lent<T> {
    /// Shows the lent part with its guards.
    fn fmt(&self, formatter: &mut Formatter) -> Result {
        let (before, rest) = self.entries.split_at(GUARD);
        let (part, after) = rest.split_at(rest.len() - GUARD);
        write!(formatter, "{part:?} between {before:?} and {after:?}")
    }
}
