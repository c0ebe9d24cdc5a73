//! Files on both sides of each limit, in every order of names, one by one and two in one call.

use compare::brute::pattern_of;
use compare::cases::examples::EXAMPLES;
use compare::cases::files::{damage, input, pattern_file, text_file, usual_pattern_file, SLOT_ORDERS, SPAN_ORDERS};
use compare::cases::inputs::{great, inputs};
use compare::cases::orders::rearranged;
use compare::cases::random::{any_pattern, any_text, break_pattern, text_with_stops, Kind, STOPS};
use compare::rng::Rng;

use crate::file_calls::{lines, pair, read_input, read_pattern, read_text, report, report_cut};
use crate::run::Run;

/// The lines before the slots' lines.
const HEAD: &str = "least most\n1 20000\nlow high words\n";

/// Lines of slots, good and wrong in every way.
const SLOTS: [&str; 20] = [
    "0 0 7\n",
    "",
    "0 0 7",
    "0 0 0\n",
    "0 0 7\n3 2 7\n",
    "0 0 1,2,3,4,5,6,7,8,9\n",
    "0 0 \n",
    "0 0 !8\n",
    "0 0 !\n0 1 !\n",
    "0 0 !",
    "0 0 !0\n",
    "0 0 !\n3 2 !\n",
    "0 0 !1,2,3,4,5,6,7,8,9\n",
    "0 0 !!\n",
    "0 0 8,7,7\n0 1 !9,8\n",
    "0 0 7,7,7,7,7,7,7,7\n",
    "0 0 7,7,7,7,7,7,7,7,7\n",
    "0 0 !8,8,8,8,8,8,8,8\n",
    "0 0 !8,8,8,8,8,8,8,8,8\n",
    "0 0 9,8,0,8\n",
];

/// What the patterns in files are like.
const KIND: Kind = Kind { slots: (1, 16), highest_word: 9, most_words: 8, widest_gap: 5 };

/// Compares files.
pub fn run(run: &mut Run) {
    good(run);
    bytes_at_limit(run);
    slots_at_limit(run);
    words_at_limit(run);
    failures_of_both(run);
    cut_texts(run);
    pairs_at_random(run);
    for input in inputs() {
        run.input();
        report(run, &input);
        lines(run, &input);
    }
    run.input();
    EXAMPLES.iter().for_each(|(input, _)| report_cut(run, input));
    great().iter().for_each(|input| report_cut(run, input));
    report_cut(run, b"");
}

/// Compares good files with their names in every order, the words of half of them in any order, and with lists of too few
/// words.
fn good(run: &mut Run) {
    let mut rng = Rng::new(44);
    for round in 0..40 {
        let rising = any_pattern(&mut rng, &KIND);
        let pattern = if round % 2 == 0 { rising } else { rearranged(&mut rng, &rising) };
        let words = rng.within(0, 30);
        let text = text_file(&any_text(&mut rng, words, 9));
        for span in SPAN_ORDERS {
            for slot in SLOT_ORDERS {
                let file = pattern_file(&pattern, span, slot);
                run.input();
                read_pattern(run, &file);
                pair(run, &file, &text);
                report(run, &input(&file, &text));
            }
        }
        for room in [0, words.saturating_sub(1), words, words + 1, words + 20] {
            run.input();
            read_text(run, &text, room);
        }
    }
}

/// A file of exactly so many bytes that begins like this and goes on with the same line again and again.
fn filled(head: &str, line: &str, bytes: usize) -> Vec<u8> {
    let mut file = head.as_bytes().to_vec();
    while file.len() < bytes {
        file.extend(line.as_bytes());
    }
    file.truncate(bytes);
    file
}

/// Compares files of 60,000 and 60,001 bytes.
fn bytes_at_limit(run: &mut Run) {
    let short_pattern = format!("{HEAD}0 0 7\n").into_bytes();
    for bytes in [59_999, 60_000, 60_001, 65_536, 70_000] {
        let text = filled("word\n", "1234\n", bytes);
        let single = filled("word\n7\n", "7\n", bytes);
        let pattern = filled(HEAD, "0 0 7\n", bytes);
        let listed = filled(&format!("{HEAD}0 0 7"), ",7", bytes - 1);
        let listed = [&listed[..], b"\n"].concat();
        for text in [&text, &single] {
            run.input();
            read_text(run, text, 20_000);
            lines(run, text);
            pair(run, &short_pattern, text);
            report(run, &input(&short_pattern, text));
        }
        for pattern in [&pattern, &listed, &text] {
            run.input();
            read_pattern(run, pattern);
            lines(run, pattern);
            pair(run, pattern, b"word\n7\n");
            pair(run, pattern, &single);
            report(run, pattern);
        }
    }
    let whole = 60_000 - short_pattern.len() - 1;
    for bytes in [whole - 4, whole, whole + 1] {
        run.input();
        report(run, &input(&short_pattern, &filled("word\n", "1234\n", bytes)));
    }
}

/// Compares pattern files with numbers of slots and words on both sides of the limits.
fn slots_at_limit(run: &mut Run) {
    for slots in (0..=20).chain([255, 256, 257, 1_000]) {
        for (line, last) in [
            ("0 0 7\n", ""),
            ("0 0 7\n", "0 0 07\n"),
            ("0 0 0\n", ""),
            ("0 64 7\n", "x"),
            ("0 0 !\n", ""),
            ("0 0 !8\n", "0 0 !!\n"),
            ("0 0 !0\n", ""),
        ] {
            let file = format!("{HEAD}{}{last}", line.repeat(slots)).into_bytes();
            run.input();
            read_pattern(run, &file);
            pair(run, &file, b"word\n7\n7\n");
            report(run, &input(&file, b"word\n7\n7\n"));
        }
    }
    for words in (1..=20).chain([255, 256, 257, 2_000]) {
        let joined = vec!["7"; words].join(",");
        let falling = (1..=words).rev().map(|word| word.to_string()).collect::<Vec<_>>().join(",");
        for (low, high) in [("0", "0"), ("0", "1"), ("1", "0"), ("64", "64"), ("0", "065")] {
            let wrong = [format!("{joined},0"), format!("0,{joined}"), format!("{joined},"), format!("{falling},0")];
            for field in [vec![joined.clone(), falling.clone()], wrong.to_vec()].concat() {
                for mark in ["", "!"] {
                    let file = format!("{HEAD}0 0 7\n{low} {high} {mark}{field}\n").into_bytes();
                    run.input();
                    read_pattern(run, &file);
                    pair(run, &file, b"word\n7\n7\n8\n");
                }
            }
        }
    }
}

/// Compares text files of 20,000 and 20,001 words, with and without a wrong line at the end, and with few words lent.
fn words_at_limit(run: &mut Run) {
    let pattern = format!("{HEAD}0 0 7\n").into_bytes();
    for words in [19_999, 20_000, 20_001, 25_000] {
        for last in ["", "x\n", "7"] {
            let file = format!("word\n{}{last}", "7\n".repeat(words)).into_bytes();
            for room in [0, 1, words - 1, words, words + 1] {
                run.input();
                read_text(run, &file, room);
            }
            read_input(run, &pattern, &file, 1);
            read_input(run, &pattern, &file, 20_000);
            pair(run, &pattern, &file);
            report(run, &input(&pattern, &file));
        }
    }
}

/// Compares two files in one call, each of them failing in every way.
fn failures_of_both(run: &mut Run) {
    let mut patterns: Vec<Vec<u8>> = SLOTS.iter().map(|slots| format!("{HEAD}{slots}").into_bytes()).collect();
    patterns.push(b"least most\n0 5\nlow high words\n0 0 7\n".to_vec());
    patterns.push(b"least most\n0 5\nlow high words\n0 0 0\n".to_vec());
    patterns.push(b"least most\n1 20000\nwords low\n".to_vec());
    patterns.push(usual_pattern_file(&pattern_of(1, 5)));
    patterns.push(vec![b'7'; 60_000]);
    patterns.push(vec![b'7'; 60_001]);
    let mut texts: Vec<Vec<u8>> = ["", "word\n", "word", "word\n7\n", "words\n7\n", "word\n07\n", "word\n7"]
        .iter()
        .map(|file| file.as_bytes().to_vec())
        .collect();
    texts.push(filled("word\n", "7\n", 45_001));
    texts.push(filled("word\n", "7\n", 60_001));
    for pattern in &patterns {
        for text in &texts {
            run.input();
            pair(run, pattern, text);
            report(run, &input(pattern, text));
        }
    }
}

/// Compares patterns with words in any order and texts of few different words, many, few or none of them sentence ends.
fn cut_texts(run: &mut Run) {
    let mut rng = Rng::new(46);
    let kind = Kind { slots: (1, 4), highest_word: 2, most_words: 2, widest_gap: 4 };
    for round in 0..1_000 {
        let pattern = any_pattern(&mut rng, &kind);
        let file = usual_pattern_file(&rearranged(&mut rng, &pattern));
        let words = rng.within(0, 60);
        let text = text_file(&text_with_stops(&mut rng, words, 2, STOPS[round % STOPS.len()]));
        run.input();
        pair(run, &file, &text);
        report(run, &input(&file, &text));
    }
}

/// Compares two random files in one call, now and then with values past the limits, damaged bytes, or both.
fn pairs_at_random(run: &mut Run) {
    let mut rng = Rng::new(45);
    for _ in 0..4_000 {
        let rising = any_pattern(&mut rng, &KIND);
        let mut stated = rearranged(&mut rng, &rising);
        for _ in 0..rng.pick(&[0, 0, 1, 2]) {
            break_pattern(&mut rng, &mut stated);
        }
        stated.count = stated.count.min(16);
        stated.slots.iter_mut().for_each(|slot| slot.count = slot.count.min(8));
        let mut file = pattern_file(&stated, rng.pick(&SPAN_ORDERS), rng.pick(&SLOT_ORDERS));
        let words = rng.within(0, 30);
        let mut text = text_file(&any_text(&mut rng, words, 29_999));
        if rng.once_in(6) {
            file = damage(&mut rng, &file);
        }
        if rng.once_in(3) {
            text = damage(&mut rng, &text);
        }
        run.input();
        pair(run, &file, &text);
        lines(run, &file);
        lines(run, &text);
    }
}
