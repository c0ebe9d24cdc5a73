//! Bytes to be cut into lines: all small files, files with every byte, files at random, and files with long lines.

use super::small::texts;
use crate::rng::Rng;

/// All files of up to 6 bytes over four bytes, and of up to 11 over two, the byte 10 always among them.
pub fn small_files() -> Vec<Vec<u8>> {
    let files = texts(&[10, 0, 13, 55], 6).into_iter().chain(texts(&[10, 32], 11));
    files.map(|file| file.iter().map(|&byte| byte as u8).collect()).collect()
}

/// Every byte alone, between lines, within a line, doubled, and at the end of a file.
pub fn every_byte() -> Vec<Vec<u8>> {
    let around = |byte: u8| {
        [
            vec![byte],
            vec![byte, b'\n'],
            vec![b'\n', byte, b'\n', b'7'],
            vec![b'7', byte, byte, b'7', b'\n'],
            vec![b'\n', b'7', byte],
        ]
    };
    (0..=255).flat_map(around).collect()
}

/// A file of so many bytes at random, its lines short or long.
pub fn any_lines(rng: &mut Rng, bytes: usize) -> Vec<u8> {
    let line = rng.pick(&[1, 2, 5, 20, 100, 1_000]);
    let byte = |rng: &mut Rng| if rng.once_in(line) { b'\n' } else { rng.word(0, 255) as u8 };
    (0..bytes).map(|_| byte(rng)).collect()
}

/// Files with a line of so many bytes, alone and between others, closed and not.
pub fn one_long_line(bytes: usize) -> Vec<Vec<u8>> {
    let line = vec![b'7'; bytes];
    let ends: [(&[u8], &[u8]); 6] =
        [(b"", b""), (b"", b"\n"), (b"", b"\n\n"), (b"\n", b""), (b"1\n\n", b"\n"), (b"12\n", b"\n3")];
    ends.map(|(before, after)| [before, &line, after].concat()).to_vec()
}
