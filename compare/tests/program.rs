//! Runs the compiled program, and compares what it prints with the brute force.

use std::env;
use std::io::Write;
use std::path::{Path, PathBuf};
use std::process::{Command, Stdio};

use compare::brute::report;
use compare::cases::examples::EXAMPLES;
use compare::cases::files::{damage, input, text_file, usual_pattern_file};
use compare::cases::inputs::inputs;
use compare::cases::orders::rearranged;
use compare::cases::random::{any_pattern, text_with_stops, Kind, STOPS};
use compare::rng::Rng;

/// Where the program lies: `BEDBLOOMER_PROGRAM`, or else `../crates/bedbloomer/out/bedbloomer`.
fn program() -> PathBuf {
    let chosen = env::var_os("BEDBLOOMER_PROGRAM");
    let chosen = chosen.unwrap_or_else(|| "../crates/bedbloomer/out/bedbloomer".into());
    Path::new(env!("CARGO_MANIFEST_DIR")).join(chosen)
}

/// What the program prints for this input.
fn printed(input: &[u8]) -> Vec<u8> {
    let mut child = Command::new(program())
        .stdin(Stdio::piped())
        .stdout(Stdio::piped())
        .spawn()
        .expect("the program must be built: set BEDBLOOMER_PROGRAM to its path");
    let mut stdin = child.stdin.take().expect("it is piped");
    let fed = input.to_vec();
    // The program may stop reading an input that is too long, so a broken pipe is no failure.
    let feeder = std::thread::spawn(move || drop(stdin.write_all(&fed)));
    let output = child.wait_with_output().expect("the program ends");
    feeder.join().expect("the feeder does not panic");
    output.stdout
}

/// Asserts that the program prints what the brute force says.
fn compare(input: &[u8]) {
    let (printed, expected) = (printed(input), report(input));
    assert!(
        printed == expected,
        "input: b\"{}\"\nprogram: b\"{}\"\nbrute force: b\"{}\"",
        input.escape_ascii(),
        printed.escape_ascii(),
        expected.escape_ascii()
    );
}

/// Dozens of inputs, good and refused.
#[test]
fn inputs_at_the_limits() {
    inputs().iter().for_each(|input| compare(input));
}

/// Patterns of plain and excluding slots, their words in any order, texts with many, few and no sentence ends.
#[test]
fn cut_texts() {
    let mut rng = Rng::new(89);
    let kind = Kind { slots: (1, 5), highest_word: 2, most_words: 2, widest_gap: 5 };
    for round in 0..150 {
        let rising = any_pattern(&mut rng, &kind);
        let pattern = usual_pattern_file(&rearranged(&mut rng, &rising));
        let words = rng.within(0, 200);
        let text = text_with_stops(&mut rng, words, 2, STOPS[round % STOPS.len()]);
        compare(&input(&pattern, &text_file(&text)));
    }
}

/// The examples with a few random damages at a time.
#[test]
fn damaged_inputs() {
    let mut rng = Rng::new(88);
    for round in 0..100 {
        let mut input = EXAMPLES[round % EXAMPLES.len()].0.to_vec();
        for _ in 0..rng.within(1, 3) {
            input = damage(&mut rng, &input);
            compare(&input);
        }
    }
}
