//! The lines of a file, found by cutting it up.

use crate::layout::LineEnds;

/// Where the line that begins at a byte ends, and where the next begins; one place for both where no byte 10 follows.
pub fn line(bytes: &[u8], at: usize) -> LineEnds {
    let rest = bytes.get(at..).unwrap_or_default();
    let mut parts = rest.split(|&byte| byte == b'\n');
    let end = at + parts.next().map_or(0, <[u8]>::len);
    let closed = parts.next().is_some();
    LineEnds { end, next: if closed { end + 1 } else { end } }
}
