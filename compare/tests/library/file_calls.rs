//! The calls on files, made on the library and worked out by brute force.

use compare::brute;
use compare::ffi;

use crate::call::Call;
use crate::lent::{Fenced, Lent};
use crate::run::Run;

/// Compares what a pattern file is read as.
pub fn read_pattern(run: &mut Run, file: &[u8]) {
    let library = ffi::read_pattern(file);
    let brute = brute::made_from_file(file);
    run.agree(&library, &brute, || format!("read_pattern {}", shown(file)));
    run.call(Call::ReadPattern, library.number);
}

/// Compares what a text file is read as, with so many words lent.
pub fn read_text(run: &mut Run, file: &[u8], room: usize) {
    let (mut lent, mut expected) = (Lent::places(room), Lent::places(room));
    let library = ffi::read_text(file, lent.part());
    let brute = brute::words_from_file(file, expected.part());
    let case = || format!("read_text {} with {room} words lent", shown(file));
    run.agree(&library, &brute, case);
    run.agree(&lent, &expected, case);
    run.call(Call::ReadText, library.number);
}

/// Compares what two files are read as in one call and the count for them, with lists of every interesting length lent.
pub fn pair(run: &mut Run, pattern: &[u8], text: &[u8]) {
    count(run, pattern, text);
    let lines = text.iter().filter(|&&byte| byte == b'\n').count();
    let words = lines.saturating_sub(1);
    let mut rooms = vec![0, words.saturating_sub(1), words, words + 1, words + 37];
    rooms.dedup();
    for room in rooms {
        read_input(run, pattern, text, room);
    }
}

/// Compares what two files are read as in one call, with so many words lent.
pub fn read_input(run: &mut Run, pattern: &[u8], text: &[u8], room: usize) {
    let (mut lent, mut expected) = (Lent::places(room), Lent::places(room));
    let library = ffi::read_input(Fenced::new(pattern).part(), Fenced::new(text).part(), lent.part());
    let brute = brute::both_from_files(pattern, text, expected.part());
    let case = || format!("read_input {} {} with {room} words lent", shown(pattern), shown(text));
    run.agree(&library, &brute, case);
    run.agree(&lent, &expected, case);
    run.call(Call::ReadInput, library.number);
}

/// Compares where the lines of a file end, from every byte of a short file, some of a long one, and from past its end.
pub fn lines(run: &mut Run, file: &[u8]) {
    let lent = Fenced::new(file);
    for at in offsets(file.len()) {
        let (library, brute) = (ffi::line(lent.part(), at), brute::line(file, at));
        run.agree(&library, &brute, || format!("line {} from {at}", shown(file)));
        run.call(Call::Line, 0);
    }
}

/// Every offset in a file of fewer than 600 bytes, some 200 to 300 in a longer one, and offsets past its end.
fn offsets(bytes: usize) -> Vec<usize> {
    let within = (0..bytes).step_by((bytes / 300) | 1);
    let past = [0, 1, 2, 24, 256, 65_536, 1 << 32, 1 << 63].map(|more| bytes + more);
    let last = [usize::MAX - bytes, usize::MAX - 1, usize::MAX];
    within.chain([bytes.saturating_sub(1)]).chain(past).chain(last).collect()
}

/// Compares the count for two files.
pub fn count(run: &mut Run, pattern: &[u8], text: &[u8]) {
    let library = ffi::count(pattern, text);
    let brute = brute::count(pattern, text);
    let case = || format!("count {} {}", shown(pattern), shown(text));
    run.agree(&library, &brute, case);
    run.call(Call::Count, library.saturating_sub(100_000));
}

/// Compares what the program prints, with room for all of it and some more.
pub fn report(run: &mut Run, input: &[u8]) {
    let expected = brute::report(input);
    report_in(run, input, &expected, expected.len() + 50);
}

/// Compares what the program prints, also with too little room for it, where the rest is left out.
pub fn report_cut(run: &mut Run, input: &[u8]) {
    let expected = brute::report(input);
    let whole = expected.len();
    for room in (0..=60).chain([whole / 2, whole - 1, whole, whole + 1]) {
        report_in(run, input, &expected, room);
    }
}

/// Compares what the program prints with so many bytes lent.
fn report_in(run: &mut Run, input: &[u8], expected: &[u8], room: usize) {
    let (mut lent, mut filled) = (Lent::bytes(room), Lent::bytes(room));
    let written = ffi::report(input, lent.part());
    let fitting = expected.len().min(room);
    filled.part()[..fitting].copy_from_slice(&expected[..fitting]);
    let case = || format!("report {} with {room} bytes lent", shown(input));
    run.agree(&written, &fitting, case);
    run.agree(&lent, &filled, case);
    run.call(Call::Report, refused(expected));
}

/// The number that an output says the input is refused with, 0 if it says no such thing.
fn refused(output: &[u8]) -> u32 {
    let output = String::from_utf8_lossy(output);
    match output.split_whitespace().collect::<Vec<_>>()[..] {
        ["refused", "place", number, _] => number.parse().expect("a number"),
        _ => 0,
    }
}

/// A file as a byte string.
fn shown(file: &[u8]) -> String {
    format!("b\"{}\"", file.escape_ascii())
}
