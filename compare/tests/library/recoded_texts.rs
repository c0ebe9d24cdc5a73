//! Texts that are recoded: small ones, ones at random, and long ones, with class bytes fewer and more, with every code,
//! and with lists of every length lent.

use compare::brute::Recoder;
use compare::cases::expressions::any_classes;
use compare::cases::random::any_text;
use compare::cases::small::{texts, tuples};
use compare::cases::trees::{any_tree, printed, Shape};
use compare::layout::Answer;
use compare::rng::Rng;

use crate::recoded::Given;
use crate::run::Run;

/// Expressions of the small texts: met by class bytes of every kind, by all, by none, and some that are refused.
const EXPRESSIONS: [&str; 7] = ["a", "!b", "a&!b", "a|!a", "a&!a", "a&", "(((((((((a)))))))))"];

/// What the expressions at random are like.
const SHAPE: Shape = Shape { letters: (1, 6), nots: 4, needless: 5 };

/// Compares texts of every kind.
pub fn run(run: &mut Run) {
    small_texts(run);
    any_texts(run);
    every_length(run);
    long_texts(run);
    every_word(run);
}

/// Compares all small texts with all small class bytes, and codes that are words of them or not.
fn small_texts(run: &mut Run) {
    for expression in EXPRESSIONS {
        let recoder = Recoder::new(expression.as_bytes());
        for text in texts(&[0, 1, 2], 3) {
            for classes in tuples(&[0, 1, 2, 3], text.len()) {
                let classes: Vec<u8> = classes.into_iter().map(|class| class as u8).collect();
                for code in [1, 3] {
                    let expression = expression.as_bytes();
                    Given { text: &text, classes: &classes, expression, code }.compare_all(run, &recoder);
                }
            }
        }
    }
}

/// Compares texts, class bytes, expressions and codes at random, now and then with class bytes left off or put behind.
fn any_texts(run: &mut Run) {
    let mut rng = Rng::new(172);
    for _ in 0..6_000 {
        let words = rng.within(0, 60);
        let highest = rng.pick(&[1, 4, 300, 65_535]);
        let text = any_text(&mut rng, words, highest);
        let classes = match rng.within(1, 12) {
            1 => rng.within(0, 70),
            2 => words.saturating_sub(1),
            3 => words + 1,
            _ => words,
        };
        let classes = any_classes(&mut rng, classes);
        let expression = printed(&any_tree(&mut rng, &SHAPE));
        let code = rng.pick(&[0, 1, 2, 4, 5, 255, 256, 301, 65_534, 65_535]);
        let code = text.get(rng.within(0, 2 * words)).copied().unwrap_or(code);
        Given { text: &text, classes: &classes, expression: &expression, code }
            .compare_all(run, &Recoder::new(&expression));
    }
}

/// Compares short texts with every number of class bytes and every length of list.
fn every_length(run: &mut Run) {
    let (text, recoder) = ([7, 8, 0, 7, 9, 0, 8, 7, 7], Recoder::new(b"!a"));
    for (words, classes) in (0..=9).flat_map(|words| (0..=11).map(move |classes| (words, classes))) {
        run.input();
        let classes: Vec<u8> = (0..classes).collect();
        let given = Given { text: &text[..words], classes: &classes, expression: b"!a", code: 7 };
        for room in 0..=2 * words + 3 {
            let (answer, _) = given.compare(run, &recoder, room);
            let number = if classes.len() != words { 22 } else { u32::from(room < words) * 8 };
            let value = if number == 0 { words as u64 } else { 0 };
            let case = || format!("{words} words, {} classes, {room} words lent", classes.len());
            run.agree(&answer, &Answer { number, place: 0, value }, case);
        }
    }
}

/// Compares texts in which every word number comes up, with class bytes that meet the expression and ones that do not.
fn every_word(run: &mut Run) {
    let words: Vec<u16> = (0..=65_535).collect();
    for (text, more) in words.chunks(20_000).flat_map(|text| [(text, 0), (text, 1)]) {
        let classes: Vec<u8> = text.iter().map(|word| (word % 2) as u8 ^ more).collect();
        for code in [1, 256, 65_535] {
            Given { text, classes: &classes, expression: b"a", code }.compare_all(run, &Recoder::new(b"a"));
        }
    }
}

/// Compares texts of lengths around 256 and 20,000, and too long ones, the class bytes as many, fewer and more.
fn long_texts(run: &mut Run) {
    let mut rng = Rng::new(173);
    for words in [255, 256, 257, 1_000, 19_999, 20_000, 20_001, 20_002, 40_000, 65_535, 65_536, 65_537, 85_536] {
        for highest in [4, 65_535] {
            let text = any_text(&mut rng, words, highest);
            let classes = any_classes(&mut rng, 2 * words);
            for classes in [words, words - 1, words + 1, 0, 2 * words].map(|count| &classes[..count]) {
                for (expression, code) in [("a", 1), ("(a|b)&!c", 65_535), ("!(d&h)|e", 5), ("a|", 3), ("a", 0)] {
                    let expression = expression.as_bytes();
                    Given { text: &text, classes, expression, code }.compare_all(run, &Recoder::new(expression));
                }
            }
        }
    }
}
