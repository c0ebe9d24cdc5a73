//! Recoded texts in the brute force: the limits of expressions, words and lists by hand, and the order of the refusals.

use super::crossed_out::{crossed_out, open};
use super::*;
use crate::cases::expressions::{long, nested, padded};
use crate::cases::small::tuples;
use crate::layout::Answer;

/// The number that an expression is refused with, 0 if it is not.
fn refused(expression: &[u8]) -> u32 {
    Recoder::new(expression).number()
}

/// Brackets 8 deep are accepted, deeper ones are 21, and 20 if anything is wrong besides.
#[test]
fn depth() {
    for depth in 1..=12 {
        for expression in nested(depth) {
            assert_eq!(open(expression.as_bytes()), depth, "{expression}");
            assert_eq!(refused(expression.as_bytes()), if depth > 8 { 21 } else { 0 }, "{expression}");
            for wrong in
                [format!("{expression})"), format!("({expression}"), format!("{expression}&"), expression + "x"]
            {
                assert_eq!(refused(wrong.as_bytes()), 20);
            }
        }
    }
    let side_by_side = ["(a)"; 40].join("|");
    assert_eq!((refused(side_by_side.as_bytes()), side_by_side.len()), (0, 159));
}

/// Up to 200 bytes are accepted; more are 20, also if brackets are too deep.
#[test]
fn length() {
    for bytes in [100, 101, 198, 199, 200, 201, 202, 255, 256, 257, 300] {
        let number = |number: u32| if bytes > 200 { 20 } else { number };
        let (right, deep) = long(bytes);
        for expression in right {
            assert_eq!((expression.len(), refused(expression.as_bytes())), (bytes, number(0)), "{expression}");
            assert!(crossed_out(expression.as_bytes(), 0).is_some());
        }
        assert_eq!((deep.len(), refused(deep.as_bytes())), (bytes, number(21)));
    }
    assert_eq!([padded("a|b", 5), padded("a|b", 8)], ["a|b|g", "a|b|!!!g"]);
}

/// What recoding answers, and what it leaves of a list of so many nines.
fn said(text: &[u16], classes: &[u8], expression: &str, code: u16, room: usize) -> (Answer, Vec<u16>) {
    let mut out = vec![9; room];
    let answer = Recoder::new(expression.as_bytes()).recode(text, classes, code, &mut out);
    (answer, out)
}

/// Words by hand: a 0 stays 0, the code may be a word of the text, and the rest of the list stays.
#[test]
fn words_by_hand() {
    let recoded = |text: &[u16], classes: &[u8], expression: &str, code: u16, expected: &[u16]| {
        for room in text.len()..text.len() + 3 {
            let (answer, out) = said(text, classes, expression, code, room);
            assert_eq!(answer, Answer { number: 0, place: 0, value: text.len() as u64 });
            assert_eq!(out, [expected, &vec![9; room - text.len()]].concat());
        }
    };
    let text = [5, 6, 0, 7, 0, 5];
    let classes = [1, 2, 1, 3, 0, 255];
    recoded(&text, &classes, "a", 8, &[8, 6, 0, 8, 0, 8]);
    recoded(&text, &classes, "!a", 8, &[5, 8, 0, 7, 0, 5]);
    recoded(&text, &classes, "b&!h", 65_535, &[5, 65_535, 0, 65_535, 0, 5]);
    recoded(&text, &classes, "a|!a", 1, &[1, 1, 0, 1, 0, 1]);
    recoded(&text, &classes, "a&!a", 1, &text);
    recoded(&text, &classes, "b", 5, &[5, 5, 0, 5, 0, 5]);
    recoded(&[7; 6], &[1, 2, 4, 8, 16, 128], "c|h", 7, &[7; 6]);
    recoded(&[7; 8], &[1, 2, 4, 8, 16, 32, 64, 128], "f|g&!h", 2, &[7, 7, 7, 7, 7, 2, 2, 7]);
    recoded(&[], &[], "a", 1, &[]);
    recoded(&[0, 0], &[0, 255], "a|!a", 1, &[0, 0]);
}

/// Every set of failures, in its order: 6, 22, 3, 20, 21, 8; nothing is written.
#[test]
fn order_of_the_refusals() {
    let (deep, wrong) = ("(".repeat(9) + "a" + &")".repeat(9), "(".repeat(9) + "a" + &")".repeat(8));
    for failures in 0..64u32 {
        let fails = |at: u32| failures >> at & 1 == 1;
        let words = if fails(0) { 20_001 } else { 20_000 };
        let classes = vec![1; words - usize::from(fails(1))];
        let code = u16::from(!fails(2));
        let expression = match (fails(3), fails(4)) {
            (true, true) => &wrong,
            (true, false) => "a&",
            (false, true) => &deep,
            (false, false) => "a",
        };
        let room = if fails(5) { words - 1 } else { words };
        let (answer, out) = said(&vec![5; words], &classes, expression, code, room);
        let number = [6, 22, 3, 20, 21, 8].into_iter().zip(0..).find(|&(_, at)| fails(at)).map_or(0, |found| found.0);
        let value = if number == 0 { 20_000 } else { 0 };
        assert_eq!(answer, Answer { number, place: 0, value }, "{failures}");
        let written = if number == 0 { 1 } else { 9 };
        assert!(out.iter().all(|&word| word == written));
    }
}

/// 22 is given where there are fewer or more class bytes than words, 8 where the list is shorter than the text.
#[test]
fn lengths() {
    for row in tuples(&[0, 1, 2, 3], 3) {
        let [words, classes, room] = [row[0], row[1], row[2]].map(usize::from);
        let (answer, _) = said(&vec![7; words], &vec![1; classes], "a", 1, room);
        let expected = if words != classes { 22 } else { u32::from(room < words) * 8 };
        assert_eq!((answer.number, answer.place), (expected, 0));
    }
    assert_eq!(said(&[7; 5], &[], "a", 1, 5).0.number, 22);
    assert_eq!(said(&[], &[1], "a", 1, 5).0.number, 22);
}
