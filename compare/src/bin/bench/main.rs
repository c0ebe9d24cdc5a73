//! Measures the library against the same algorithms by hand and against NetBack, and compares every answer.
//!
//! `bench` prints the tables; `bench --one CASE library|hand|netback RUNS` runs one case of the table alone, for a profiler.

mod by_hand;
mod by_hand_all;
mod by_hand_file;
mod by_hand_merge;
mod by_hand_recode;
mod calls;
mod cases;
mod clock;
mod growth;
mod netback;
mod targets;
mod texts;

use calls::fail;
use cases::{cases, Measured, Rival, Rivals, LIMIT_MS};
use netback::{netback, Visits};
use std::env::args;
use std::hint::black_box;
use std::panic::{catch_unwind, set_hook, take_hook};
use texts::WORDS;

/// Two cells of a line: NetBack's time, with its rows where they are not the front list, and how many times the library's that is.
fn rival_cells(rival: &Option<Rival>, library: f64) -> String {
    match rival {
        None => format!("> {LIMIT_MS:.0} | > {:.0} |", LIMIT_MS / library),
        Some(Rival { same: true, ms, times, .. }) => format!("{ms:.2} | {times:.1} |"),
        Some(Rival { rows, ms, times, .. }) => format!("{ms:.2} ({rows} rows) | {times:.1} |"),
    }
}

/// The last cells of a line, empty where NetBack has no part.
fn netback_cells(measured: &Measured) -> String {
    let library = measured.library;
    match &measured.netback {
        None => "| | | |".to_string(),
        Some(Rivals { any, once }) => rival_cells(any, library) + " " + &rival_cells(once, library),
    }
}

/// A line of the table.
fn line(number: usize, measured: &Measured) -> String {
    let Measured { case, value, library, by_hand, ratio, .. } = measured;
    let cells = format!("| {number} | {} | {value} | {library:.3} | {by_hand:.3} | {ratio:.2} |", case.describe());
    format!("{cells} {}", netback_cells(measured))
}

/// Whether this program was built with overflow checks, which slow down all that is not the library.
fn overflow_checked() -> bool {
    set_hook(Box::new(|_| ()));
    let checked = catch_unwind(|| black_box(u8::MAX) + black_box(1)).is_err();
    drop(take_hook());
    checked
}

/// Measures every case, prints the tables, and says which targets hold.
fn measure_all() {
    println!("Texts of {WORDS} words, if nothing else is said; CPU time in ms.\n");
    if overflow_checked() {
        println!("By hand and NetBack were built with overflow checks, the library has none.\n");
    }
    let known = "case | text | slots | gaps | spans | call | rows, total, bytes or words | library | by hand | ratio";
    println!("| {known} | NetBack | times | NetBack, one visit | times |");
    println!("|{}", "---|".repeat(14));
    let mut all = Vec::new();
    for (i, case) in cases().iter().enumerate() {
        let measured = case.measure();
        println!("{}", line(i + 1, &measured));
        all.push(measured);
    }
    growth::print();
    targets::print(&all);
}

/// Runs one case of the table so many times by one of the three.
fn run_one(case: &str, who: &str, runs: &str) -> Option<()> {
    let number: usize = case.parse().ok()?;
    let runs: usize = runs.parse().ok()?;
    let mut ready = cases().get(number.checked_sub(1)?)?.ready(WORDS);
    for _ in 0..runs {
        black_box(match who {
            "library" => ready.library(),
            "hand" => ready.by_hand(),
            "netback" => netback(&ready.given.pattern, &ready.given.text, Visits::Any, LIMIT_MS)
                .map_or(0, |rows| rows.len() as u128),
            _ => return None,
        });
    }
    Some(())
}

/// Runs everything, or the one case that the arguments name.
fn main() {
    let arguments: Vec<String> = args().skip(1).collect();
    let words: Vec<&str> = arguments.iter().map(String::as_str).collect();
    match words[..] {
        [] => measure_all(),
        ["--one", case, who, runs] if run_one(case, who, runs).is_some() => (),
        _ => fail("usage: bench [--one CASE library|hand|netback RUNS]"),
    }
}
