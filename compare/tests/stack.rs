//! Runs the calls on threads with a stack of 1.5 MB, below the 2 MiB that a Rust thread has by default. A call that needs more ends
//! the test run by a signal.

use std::thread::Builder;

use compare::brute::{report, Recoder};
use compare::cases::expressions::long;
use compare::cases::files::{input, text_file, usual_pattern_file};
use compare::cases::written::{longest, MOST_BYTES};
use compare::cases::Words::{But, Only};
use compare::cases::{alike, pattern, ANY_SPAN};
use compare::ffi;
use compare::halves::{sum, wholes};
use compare::layout::Pattern;

/// How much stack a call may need, in bytes.
const STACK: usize = 1_500_000;

/// The longest text.
const WORDS: usize = 20_000;

/// What the call answers on a thread with that much stack.
fn on_small_stack<T: Send + 'static>(call: impl FnOnce() -> T + Send + 'static) -> T {
    let thread = Builder::new().stack_size(STACK).spawn(call).expect("a thread starts");
    thread.join().expect("the call returns")
}

/// Sixteen neighbouring sevens, the last perhaps a place later, by plain and by excluding slots, with span limits that leave nothing
/// out and with one that binds; with their tallies in the longest text of sevens.
fn runs() -> Vec<(Pattern, usize)> {
    let mut runs = Vec::new();
    for words in [Only(&[7]), But(&[1, 2, 3, 4, 5, 6, 8, 9])] {
        let mut slots = alike(words, 16, 0, 0);
        slots[15].1 = 1;
        runs.push((pattern(ANY_SPAN, &slots), 2 * COUNT - 1));
        runs.push((pattern((16, 16), &slots), COUNT));
    }
    runs
}

/// The count in the longest text of sevens.
const COUNT: usize = WORDS - 15;

#[test]
fn the_tally_needs_little_stack() {
    for (run, tally) in runs() {
        let answer = on_small_stack(move || ffi::tally(&run, &vec![7; WORDS]));
        assert_eq!((answer.number, answer.high, answer.low), (0, 0, tally as u64));
    }
}

#[test]
fn the_column_needs_little_stack() {
    for (run, tally) in runs() {
        let (answer, sum) = on_small_stack(move || {
            let mut list = vec![1; 2 * WORDS];
            let answer = ffi::starts(&run, &vec![7; WORDS], &mut list);
            (answer, sum(&wholes(&list)))
        });
        assert_eq!((answer.number, answer.value, sum), (0, WORDS as u64, tally as u128));
    }
}

#[test]
fn the_full_list_needs_little_stack() {
    for (run, tally) in runs() {
        let answer = on_small_stack(move || ffi::all(&run, &vec![7; WORDS], &mut vec![0; 16 * tally]));
        assert_eq!((answer.number, answer.value), (0, tally as u64));
    }
}

#[test]
fn the_lists_need_little_stack() {
    for (run, _) in runs() {
        for call in [ffi::leftmost, ffi::rightmost] {
            let answer = on_small_stack(move || call(&run, &vec![7; WORDS], &mut vec![0; 16 * COUNT]));
            assert_eq!((answer.number, answer.value), (0, COUNT as u64));
        }
    }
}

#[test]
fn a_written_pattern_needs_little_stack() {
    let (span, slots) = longest();
    let pattern = pattern(span, &slots);
    let answer = on_small_stack(move || ffi::write_pattern(&pattern, &mut [0; MOST_BYTES]));
    assert_eq!((answer.number, answer.value), (0, MOST_BYTES as u64));
}

#[test]
fn a_recoded_text_needs_little_stack() {
    let (mut expressions, deep) = long(200);
    expressions.extend([deep, "(".repeat(200), "!".repeat(200), "(".repeat(99) + "a" + &")".repeat(99)]);
    for expression in expressions {
        let number = Recoder::new(expression.as_bytes()).number();
        let answer = on_small_stack(move || {
            ffi::recode(&vec![7; WORDS], &vec![1; WORDS], expression.as_bytes(), 9, &mut vec![0; WORDS])
        });
        assert_eq!((answer.number, answer.value), (number, if number == 0 { WORDS as u64 } else { 0 }));
    }
}

#[test]
fn the_count_for_two_files_needs_little_stack() {
    for (run, _) in runs() {
        let (file, text) = (usual_pattern_file(&run), text_file(&[7; WORDS]));
        assert_eq!(on_small_stack(move || ffi::count(&file, &text)), COUNT as u32);
    }
}

#[test]
fn the_report_needs_little_stack() {
    for (run, _) in runs() {
        // So few words that the rows fit, and the report goes on to the tally and the back list.
        let whole = input(&usual_pattern_file(&run), &text_file(&[7; 1_000]));
        let expected = report(&whole);
        let printed = on_small_stack(move || {
            let mut out = vec![0; 300_000];
            let bytes = ffi::report(&whole, &mut out);
            out.truncate(bytes);
            out
        });
        assert_eq!(printed, expected);
    }
}
