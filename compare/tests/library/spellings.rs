//! Names, numbers and marks spelled rightly and wrongly in every field of the files, all small fields of words, and every
//! byte in a line.

use compare::cases::files::{input, small_fields};
use compare::cases::lines::every_byte;

use crate::file_calls::{lines, pair, read_pattern, read_text, report};
use crate::run::Run;

/// Numbers as they may and may not be spelled, some that look right when cut to fewer bits.
const NUMBERS: [&str; 44] = [
    "0",
    "1",
    "7",
    "9",
    "10",
    "63",
    "64",
    "255",
    "256",
    "999",
    "9999",
    "20000",
    "20001",
    "65534",
    "65535",
    "65536",
    "65543",
    "65999",
    "70000",
    "99999",
    "100007",
    "131079",
    "4294967303",
    "18446744073709551623",
    "340282366920938463463374607431768211463",
    "",
    "00",
    "07",
    "007",
    "-0",
    "+7",
    "7.",
    "7\r",
    "\t7",
    "0x7",
    "7e0",
    "7 ",
    " 7",
    "\u{0667}",
    "7,7",
    "!",
    "!7",
    "7!",
    "!!",
];

/// Lists of words as they may and may not be spelled.
const WORDS: [&str; 14] =
    ["7,8", "8,7,7", "7,0", "0,7", "7,", ",7", ",", ",,", "7,,8", "7, 8", "7 8", "7;8", "7,08", "7,65536"];

/// Lists of excluded words as they may and may not be spelled.
const EXCLUDED: [&str; 45] = [
    "!7,8",
    "!8,7,7",
    "!1,9",
    "!65535",
    "!1,2,3,4,5,6,8,9",
    "!1,2,3,4,5,6,7,8",
    "!1,2,3,4,5,6,7,8,9",
    "!7,7,7,7,7,7,7,7,7",
    "!0,0,0,0,0,0,0,0,0",
    "!7,0",
    "!0,7",
    "!,",
    "!,,",
    "!,1",
    "!1,",
    "!7,,8",
    "!7;8",
    "!7,08",
    "!7,65536",
    "!!7",
    "!!!",
    "!7!",
    "!7!8",
    "!7,8!",
    "!7,!8",
    "1,!2",
    "1,!",
    "1!,2",
    "1!2",
    "12!",
    "1,2!",
    ",!",
    ",!1",
    "!\t7",
    "!\r",
    "\r!",
    "! ",
    " !",
    "! 7",
    "7 !",
    "!7 ",
    "!-7",
    "\u{A1}7",
    "\u{FF01}7",
    "\u{21}\u{301}7",
];

/// Lines of names as they may and may not be spelled.
const NAMES: [&str; 44] = [
    "least most",
    "most least",
    "least",
    "most",
    "least least",
    "most most",
    "least most most",
    "least  most",
    " least most",
    "least most ",
    "least\tmost",
    "least,most",
    "Least most",
    "least most\r",
    "leastmost",
    "",
    " ",
    "leas most",
    "leastt most",
    "low high words",
    "words low high",
    "high low words",
    "low high",
    "low high word",
    "low low words",
    "low high words words",
    "low  high words",
    "low high words ",
    "word",
    "words",
    "Word",
    "word ",
    " word",
    "wor",
    "!least most",
    "least !most",
    "least most!",
    "!",
    "! low high words",
    "low high !words",
    "low high words!",
    "!low high words",
    "!word",
    "word!",
];

/// Compares every spelling in every field, all small fields of words, and every byte in a line.
pub fn run(run: &mut Run) {
    for number in NUMBERS {
        pattern(run, &format!("least most\n{number} 20000\nlow high words\n0 0 7\n"));
        pattern(run, &format!("most least\n{number} 1\nlow high words\n0 0 7\n"));
        pattern(run, &format!("least most\n1 9\nlow high words\n0 0 7\n{number} 63 7\n"));
        pattern(run, &format!("least most\n1 9\nlow words high\n0 7 0\n0 7 {number}\n"));
        words(run, number);
        words(run, &format!("!{number}"));
        words(run, &format!("!7,{number}"));
        text(run, &format!("word\n{number}\n"));
        text(run, &format!("word\n7\n{number}\n7\n"));
        text(run, &format!("word\n7\n{number}"));
    }
    for list in WORDS.iter().chain(&EXCLUDED) {
        words(run, list);
    }
    for field in small_fields() {
        words(run, &field);
    }
    for names in NAMES {
        pattern(run, &format!("{names}\n1 9\nlow high words\n0 0 7\n"));
        pattern(run, &format!("least most\n1 9\n{names}\n0 0 7\n"));
        pattern(run, &format!("least most\n1 9\nlow high words\n{names}\n"));
        pattern(run, names);
        text(run, &format!("{names}\n7\n"));
        text(run, names);
    }
    for file in every_byte() {
        run.input();
        lines(run, &file);
    }
}

/// Compares pattern files with this field of words, in every place of its line.
fn words(run: &mut Run, field: &str) {
    let head = "least most\n1 9\n";
    pattern(run, &format!("{head}low high words\n0 0 7\n0 1 {field}\n"));
    pattern(run, &format!("{head}low words high\n0 {field} 0\n"));
    pattern(run, &format!("{head}words low high\n{field} 0 0\n7 0 9\n"));
}

/// Compares every call on a pattern file.
fn pattern(run: &mut Run, file: &str) {
    let text = b"word\n7\n1\n7\n";
    run.input();
    read_pattern(run, file.as_bytes());
    pair(run, file.as_bytes(), text);
    lines(run, file.as_bytes());
    report(run, &input(file.as_bytes(), text));
}

/// Compares every call on a text file, with each number of words lent.
fn text(run: &mut Run, file: &str) {
    let pattern = b"least most\n1 9\nlow high words\n0 0 7\n0 1 7\n";
    run.input();
    for room in 0..=4 {
        read_text(run, file.as_bytes(), room);
    }
    pair(run, pattern, file.as_bytes());
    lines(run, file.as_bytes());
    report(run, &input(pattern, file.as_bytes()));
}
